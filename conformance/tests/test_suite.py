"""The suite's maker: its example is that of the standard, and the manifest that is kept has all features."""
import csv
import pathlib
import unittest

from conformance.suite.all_cases import MODULES, cases_of
from conformance.suite.case import ANY, COLUMNS, DRAW, PICTURE
from conformance.suite.example import example
from conformance.suite.features import FEATURES

ROOT = pathlib.Path(__file__).resolve().parents[2]
EXAMPLE = ROOT / "crates" / "jbig2_decode" / "data" / "t88-h1.jb2"
MANIFEST = ROOT / "conformance" / "manifest.tsv"


class SuiteTest(unittest.TestCase):
    @classmethod
    def setUpClass(cls):
        with MANIFEST.open(encoding="utf-8", newline="") as file:
            cls.lines = list(csv.DictReader(file, delimiter="\t", quoting=csv.QUOTE_NONE))

    def test_the_example_of_the_standard_byte_for_byte(self):
        self.assertEqual(example().sequential(), EXAMPLE.read_bytes())

    def test_columns(self):
        self.assertEqual(tuple(self.lines[0]), COLUMNS)

    def test_each_feature_is_in_front_of_some_file(self):
        self.assertEqual({line["features"].split(",")[0] for line in self.lines}, set(FEATURES))
        self.assertLessEqual({name for line in self.lines for name in line["features"].split(",")}, set(FEATURES))

    def test_files_of_each_kind_are_enough(self):
        drawn = {line["name"] for line in self.lines if line["strict"] == PICTURE}
        self.assertGreater(len(drawn), 400)
        self.assertEqual({line["kind"] for line in self.lines}, {"sequential", "random", "embedded"})

    def test_pages_and_answers_fit(self):
        for line in self.lines:
            with self.subTest(file=line["name"]):
                self.assertLess(int(line["page"]), int(line["pages"]))
                is_drawn = PICTURE in (line["strict"], line["lenient"])
                self.assertEqual(is_drawn, line["picture"] != "-")
                self.assertEqual(line["others"], DRAW if line["rule"] == "-" else ANY)
                if line["strict"] != PICTURE:
                    self.assertTrue(line["features"].startswith("broken-"))

    def test_a_module_makes_the_same_each_time(self):
        self.assertIn("mmr", MODULES)
        first, second = ([case.written() for case in cases_of("mmr")] for _ in range(2))
        self.assertEqual(first, second)
        sums = {line["name"]: line["sha256"] for line in self.lines}
        for case in first:
            self.assertEqual(case.lines[0][COLUMNS.index("sha256")], sums[case.name])


if __name__ == "__main__":
    unittest.main()
