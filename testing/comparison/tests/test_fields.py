"""Files in which one field is changed, and their comparison with the model."""
import contextlib
import gzip
import io
import os
import tempfile
import unittest
import unittest.mock

from testing.comparison.changes import Changes, values_for
from testing.comparison.fields import Run, both_answers, compare_all, difference, made_runs, meant_by_model, options_of
from testing.comparison.fields import written_runs
from testing.comparison.model.answers import Fault
from testing.comparison.model.page import page_of_file
from testing.comparison.small_documents import small_document


class Echo:
    """A decoder that says what the model says, but for what is wrong with it."""

    def __init__(self, turns_pixels=False, forgives=False):
        self.turns_pixels = turns_pixels
        self.forgives = forgives

    def answer(self, data, index, strict):
        picture, error = meant_by_model(data, index, strict and not self.forgives)
        return (picture[:-1] + bytes([picture[-1] ^ 128]) if self.turns_pixels and picture else picture), error


class FieldsTest(unittest.TestCase):
    def test_values(self):
        self.assertEqual(values_for("striping", 0, 0), [])
        self.assertIn(1 << 16, values_for("page width", 20, 32))
        self.assertIn(65535, values_for("page width", 20, 32))
        self.assertNotIn(20, values_for("page width", 20, 32))
        self.assertIn(0b1001, values_for("region flags", 0b0001, 8))
        self.assertTrue({None, 0, 1, 6, 4, -1} <= set(values_for("IADW", 5, None)))

    def test_small_documents_are_drawn(self):
        for seed in range(30):
            data, pages = small_document(f"test/{seed}")
            for index in range(pages):
                with self.subTest(seed=seed, index=index):
                    strict, lenient = (page_of_file(data, index, mode).packed() for mode in (True, False))
                    self.assertEqual(strict, lenient)

    def test_one_field_differs(self):
        changes = Changes(3, 1)
        names = {name for name, _, _ in changes.seen}
        self.assertTrue({"file flags", "segment number", "page width", "data length", "region x"} <= names)
        place = next(place for place, field in enumerate(changes.seen) if field[0] == "page width")
        data = changes.written(place, 1)
        self.assertEqual(len(data), len(changes.whole))
        self.assertEqual(page_of_file(data, 0, False).width, 1)
        self.assertEqual(changes.written(-1, 0), changes.whole)

    def test_changes_depend_on_the_number_alone(self):
        self.assertEqual([Changes(5, 1).changed(at) for at in (0, 40)], [Changes(5, 1).changed(at) for at in (0, 40)])

    def test_differences_are_found(self):
        changes = Changes(3, 1)

        def run_of(data):
            return Run(0, "", data, 0, both_answers(data, 0))

        whole = run_of(changes.whole)
        self.assertTrue(all(meant.startswith("drawn ") for meant in whole.meant))
        self.assertIsNone(difference(Echo(), whole))
        self.assertIn("strictly: drawn ", difference(Echo(turns_pixels=True), whole))
        place = next(place for place, field in enumerate(changes.seen) if field[0] == "number of pages")
        other = run_of(changes.written(place, 7))
        self.assertEqual(other.meant[0], Fault.PAGE_COUNT_MISMATCH.text)
        self.assertIsNone(difference(Echo(), other))
        self.assertIn(f"not {Fault.PAGE_COUNT_MISMATCH.text}", difference(Echo(forgives=True), other))

    def test_runs_are_written_and_compared_again(self):
        with tempfile.TemporaryDirectory() as folder, contextlib.redirect_stdout(io.StringIO()) as output:
            name = os.path.join(folder, "runs.gz")
            with unittest.mock.patch("sys.argv", ["fields.py", "--count", "6", "--seed", "2"]):
                options = options_of()
            with gzip.open(name, "wt") as out:
                self.assertEqual(compare_all(Echo(), made_runs(options), options, out), 0)
            made = [run for run in made_runs(options) if run.meant]
            self.assertEqual(list(written_runs([name])), made)
            self.assertEqual(compare_all(Echo(), written_runs([name]), options, None), 0)
        self.assertEqual(output.getvalue().count(f"to run 5: {len(made)} files compared, 0 wrong"), 2)


if __name__ == "__main__":
    unittest.main()
