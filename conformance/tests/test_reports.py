"""What a run writes for other programs, and the list of known failures."""
import pathlib
import tempfile
import unittest
import xml.etree.ElementTree as xml

from conformance.runner.known import Known, known_text, read_known
from conformance.runner.mistake import Mistake
from conformance.runner.pictures import of_numbers, pictures_of
from conformance.runner.reports import junit_text, keep_pictures, tsv_text
from conformance.runner.trial import Outcome, Verdict
from conformance.tests.small_suite import CROSS, RING, written

OTHER = of_numbers([row ^ 1 for row in CROSS], 9)


class ReportsTest(unittest.TestCase):
    def setUp(self):
        name = tempfile.TemporaryDirectory()
        self.addCleanup(name.cleanup)
        self.folder = pathlib.Path(name.name)
        entries = {name: sample.entry for name, sample in written(self.folder).items()}
        self.outcomes = [
            Outcome(entries["sequential"], Verdict.RIGHT, ""),
            Outcome(entries["random"], Verdict.WRONG, "a < b & \"c\"", "wrong", OTHER),
            Outcome(entries["second"], Verdict.CRASH, "", "crash"),
        ]
        self.known = Known({("second", 1): "crash", ("sequential", 0): "", ("elsewhere", 3): ""})

    def test_known_failures(self):
        self.assertEqual([self.known.has(each) for each in self.outcomes], [True, False, True])
        self.assertEqual(self.known.mended(self.outcomes), self.outcomes[:1])
        self.assertEqual(self.known.elsewhere([each.entry for each in self.outcomes]), [("elsewhere", 3)])

    def test_another_fault_of_a_known_page_is_new(self):
        self.assertFalse(Known({("second", 1): "wrong"}).has(self.outcomes[2]))
        self.assertTrue(Known({("second", 1): ""}).has(self.outcomes[2]))
        self.assertFalse(Known({("second", 0): ""}).has(self.outcomes[2]))

    def test_known_failures_are_read_as_they_were_written(self):
        path = self.folder / "known.tsv"
        path.write_text(known_text(self.outcomes) + "\n# by hand\nsequential\nother\t2\n", encoding="utf-8")
        faults = {("random", 0): "wrong", ("second", 1): "crash", ("sequential", 0): "", ("other", 2): ""}
        self.assertEqual(read_known(path).faults, faults)

    def test_mistakes_in_the_list(self):
        path = self.folder / "known.tsv"
        for line in ("name\tx", "name\t-1", "name\t0\twrong\tmore"):
            path.write_text(f"# head\n{line}\n", encoding="utf-8")
            with self.subTest(line), self.assertRaisesRegex(Mistake, "line 2"):
                read_known(path)
        for path in (self.folder, self.folder / "none"):
            with self.assertRaisesRegex(Mistake, "can't be read"):
                read_known(path)

    def test_tsv(self):
        lines = [line.split("\t") for line in tsv_text(self.outcomes, self.known).splitlines()]
        self.assertEqual(lines[0][:3], ["name", "page", "feature"])
        self.assertEqual(lines[2], ["random", "0", "random", "picture", "wrong", "failed", "wrong", 'a < b & "c"'])
        self.assertEqual([line[5] for line in lines[1:]], ["passed", "failed", "known"])

    def test_junit(self):
        suite = xml.fromstring(junit_text("a & b", self.outcomes, self.known)).find("testsuite")
        self.assertEqual(suite.attrib["name"], "conformance of a & b")
        counts = [suite.attrib[name] for name in ("tests", "failures", "errors", "skipped")]
        self.assertEqual(counts, ["3", "1", "0", "1"])
        cases = suite.findall("testcase")
        self.assertEqual([[child.tag for child in case] for case in cases], [[], ["failure"], ["skipped"]])
        self.assertEqual(cases[1].find("failure").text, 'a < b & "c"')
        self.assertEqual(cases[2].attrib, {"classname": "second", "name": "second, page 1"})

    def test_wrong_pictures_are_kept_beside_the_expected_ones(self):
        expected = of_numbers(list(CROSS), 9).pbm
        (self.folder / "random.0.pbm").write_bytes(expected)
        kept = self.folder / "made" / "kept"
        self.assertEqual(keep_pictures(kept, self.folder, self.outcomes), 1)
        pictures = {path.name: pictures_of(path.read_bytes()) for path in kept.iterdir()}
        difference = of_numbers([1, 1, 1], 9)
        meant = {"drawn": [OTHER], "expected": pictures_of(expected), "difference": [difference]}
        self.assertEqual(pictures, {f"random.0.{word}.pbm": picture for word, picture in meant.items()})

    def test_a_picture_of_another_size_has_no_difference(self):
        (self.folder / "random.0.pbm").write_bytes(of_numbers(list(CROSS), 9).pbm)
        entry = self.outcomes[1].entry
        outcomes = [Outcome(entry, Verdict.WRONG, "", "wrong", of_numbers(list(RING), 3))]
        keep_pictures(self.folder / "kept", self.folder, outcomes)
        names = sorted(path.name for path in (self.folder / "kept").iterdir())
        self.assertEqual(names, ["random.0.drawn.pbm", "random.0.expected.pbm"])


if __name__ == "__main__":
    unittest.main()
