"""Tables of outcomes."""
import pathlib
import tempfile
import unittest

from conformance.runner import document, tables
from conformance.runner.decoders import DECODERS
from conformance.runner.trial import Outcome, Verdict
from conformance.tests.small_suite import written


class TablesTest(unittest.TestCase):
    def setUp(self):
        folder = tempfile.TemporaryDirectory()
        self.addCleanup(folder.cleanup)
        self.entries = {name: sample.entry for name, sample in written(pathlib.Path(folder.name)).items()}

    def column(self, **verdicts: Verdict) -> tables.Column:
        named = {name.replace("_", "-"): verdict for name, verdict in verdicts.items()}
        outcomes = [Outcome(self.entries[name], verdict, "why") for name, verdict in named.items()]
        return tables.Column(DECODERS[1], outcomes)

    def test_text(self):
        column = self.column(sequential=Verdict.RIGHT, random=Verdict.CRASH, cut_off=Verdict.REFUSED)
        lines = tables.text_table(column.outcomes)
        self.assertEqual(lines[1].split(), ["sequential", "1", "1"])
        self.assertEqual(lines[3].split(), ["all", "2", "1", "1"])
        self.assertEqual(lines[6].split(), ["cut-off", "1", "1"])

    def test_markdown(self):
        column = self.column(sequential=Verdict.RIGHT, random=Verdict.WRONG, cut_off=Verdict.WRONG)
        lines = ["| sequential | 1 | right |", "| random | 1 | wrong |", "| all, right | 2 | 1 |"]
        self.assertEqual(tables.feature_table([column])[2:], lines)
        self.assertEqual(tables.refusal_table([column])[2:], ["| cut-off | 1 | picture |"])

    def test_reasons(self):
        column = self.column(sequential=Verdict.NOTHING, random=Verdict.WRONG, embedded=Verdict.RIGHT)
        lines = tables.reason_table(column, {("jbig2dec", "random"): "it reads no random access"})
        self.assertEqual(len(lines), 4)
        self.assertTrue(lines[2].endswith('| nothing | it says "why" |'))
        self.assertTrue(lines[3].endswith("| wrong | it reads no random access |"))
        reasons = {("jbig2dec", "random"): "", ("jbig2dec", "embedded"): "", ("gs", "random"): ""}
        self.assertEqual(tables.unused(reasons, [column]), ["jbig2dec embedded", "gs random"])

    def test_viewer_beside_its_library(self):
        library = self.column(sequential=Verdict.WRONG, random=Verdict.WRONG)
        viewer = tables.Column(DECODERS[2], self.column(sequential=Verdict.NOTHING, random=Verdict.RIGHT).outcomes)
        self.assertEqual(tables.reason_table(viewer, {}, library), [])
        viewer = tables.Column(DECODERS[2], self.column(sequential=Verdict.RIGHT, embedded=Verdict.WRONG).outcomes)
        lines = tables.reason_table(viewer, {("jbig2dec", "embedded"): "as it is"}, library)
        self.assertEqual([line.split(" | ")[-1] for line in lines[2:]], ["as it is |"])

    def test_document(self):
        columns = [self.column(sequential=Verdict.RIGHT, random=Verdict.WRONG, cut_off=Verdict.REFUSED)]
        text = document.text_of(columns, {})
        self.assertIn("2 pages of 2 files to draw, and 1 pages that may have any result.", text)
        self.assertIn("| cut-off | 1 | refused |", text)
        self.assertIn("### jbig2dec", text)


if __name__ == "__main__":
    unittest.main()
