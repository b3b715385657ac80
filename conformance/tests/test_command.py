"""The whole command over a small suite: tables, files that it writes, and mistakes of the call in words."""
import contextlib
import io
import pathlib
import sys
import tempfile
import typing
import unittest

from conformance.runner import command
from conformance.runner.manifest import read_manifest
from conformance.runner.pictures import of_numbers
from conformance.tests.small_suite import CROSS, write_manifest, written

# A decoder that always draws the same.
DRAW = f"open(__import__('sys').argv[2], 'wb').write({of_numbers(list(CROSS), 9).pbm!r})"


class Ended(typing.NamedTuple):
    """How a command ended."""

    returncode: int
    stdout: str
    stderr: str


def ended_of(words: tuple[str, ...]) -> Ended:
    """Runs the command in this process: Python takes long to start."""
    with contextlib.redirect_stdout(io.StringIO()) as out, contextlib.redirect_stderr(io.StringIO()) as errors:
        try:
            status = command.main(list(words))
        except SystemExit as end:
            status = end.code
    return Ended(status, out.getvalue(), errors.getvalue())


def python(text: str) -> list[str]:
    """The command of a decoder that is a line of Python."""
    return [sys.executable, "-c", text, "{in}", "{out}"]


class CommandTest(unittest.TestCase):
    def setUp(self):
        name = tempfile.TemporaryDirectory()
        self.addCleanup(name.cleanup)
        self.folder = pathlib.Path(name.name)
        self.samples = written(self.folder)
        write_manifest(self.folder, list(self.samples.values()))

    def run_on(self, *words: str) -> Ended:
        return ended_of(("--suite", str(self.folder), *words))

    def refused(self, *words: str) -> str:
        """The last line on standard error after a mistake. The status is 2, and nothing else is printed."""
        ended = ended_of(words)
        self.assertEqual((ended.returncode, ended.stdout), (2, ""), ended.stderr)
        return ended.stderr.splitlines()[-1]

    def test_manifest_is_read_as_it_was_written(self):
        entries = read_manifest(self.folder / "manifest.tsv")
        self.assertEqual(entries, [sample.entry for sample in self.samples.values()])

    def test_a_decoder_that_always_draws_the_same(self):
        ended = self.run_on(*python(DRAW))
        self.assertEqual(ended.stdout.splitlines()[-1], "6 pages, 5 as the manifest says, 1 not")
        self.assertIn("second, page 1 [second]: nothing", ended.stdout)
        self.assertEqual(ended.returncode, 1)
        ended = self.run_on("--only", "random", *python(DRAW))
        self.assertEqual(ended.stdout.splitlines()[-1], "1 pages, 1 as the manifest says, 0 not")
        self.assertEqual(ended.returncode, 0)

    def test_files_that_are_written(self):
        known, tsv, junit = (self.folder / name for name in ("known", "a.tsv", "a.xml"))
        first = self.run_on("--write-known", str(known), *python(DRAW))
        self.assertEqual(first.returncode, 1)
        self.assertEqual(known.read_text().splitlines()[1:], ["second\t1\tnothing"])
        second = self.run_on("--known", str(known), "--tsv", str(tsv), "--junit", str(junit), *python(DRAW))
        among = "1 not: 1 known, 0 new; 0 mended"
        self.assertEqual(second.stdout.splitlines()[-1], f"6 pages, 5 as the manifest says, {among}")
        self.assertEqual(second.returncode, 0)
        self.assertEqual(len(tsv.read_text().splitlines()), 7)
        self.assertIn("<skipped", junit.read_text())

    def test_known_failures_that_are_mended_or_not_there(self):
        known = self.folder / "known"
        known.write_text("sequential\nsecond\t1\nelsewhere\t2\n")
        ended = self.run_on("--known", str(known), *python(DRAW))
        self.assertIn("sequential [sequential]: mended", ended.stdout)
        self.assertIn("elsewhere, page 2, which is not in the suite", ended.stderr)
        self.assertEqual(ended.returncode, 0)

    def test_wrong_pictures_are_kept(self):
        (self.folder / "second.1.pbm").write_bytes(b"P4\n3 3\n\xe0\xa0\xe0")
        kept = self.folder / "kept"
        wrong = DRAW.replace(repr(of_numbers(list(CROSS), 9).pbm), repr(of_numbers([1, 2, 4], 3).pbm))
        ended = self.run_on("--only", "second", "--keep", str(kept), *python(wrong), "{page}")
        self.assertIn(f"1 wrong pictures are in {kept}", ended.stdout)
        self.assertEqual((kept / "second.1.difference.pbm").read_bytes(), b"P4\n3 3\n\xc0\xe0\x60")

    def test_mistakes_of_the_call(self):
        suite = ("--suite", str(self.folder))
        self.assertIn("has none of {in}", self.refused(*suite, "unheard-of"))
        self.assertIn("options stand before", self.refused(*suite, "jbig2dec", "--jobs", "2"))
        self.assertIn("is not there", self.refused(*suite, "/no/such/program", "{in}"))
        for program in "{in}", "./a{brace}":
            self.assertIn(f"{program} is not there", self.refused(*suite, program, "{in}"))
        self.assertIn("give a decoder", self.refused(*suite))
        self.assertIn("no number above 0", self.refused(*suite, "--jobs", "0", *python("pass")))
        self.assertIn("no name or feature has nowhere", self.refused(*suite, "--only", "nowhere", *python("pass")))
        self.assertIn("--table goes without", self.refused(*suite, "--table", "all", "--tsv", "x"))
        self.assertIn("there is no folder", self.refused(*suite, "--tsv", "/no/folder/x", *python("pass")))
        self.assertIn("can't be read", self.refused(*suite, "--known", "/no/folder/x", *python("pass")))

    def test_a_program_that_cannot_be_started(self):
        program = self.folder / "program"
        program.write_text("#!/no/such/interpreter\n")
        program.chmod(0o700)
        self.assertIn("can't be started", self.refused("--suite", str(self.folder), str(program), "{in}"))

    def test_suites_that_are_none(self):
        self.assertIn("there is no suite in /nowhere", self.refused("--suite", "/nowhere", *python("pass")))
        (self.folder / "random.jb2").unlink()
        self.assertIn("the suite lacks a file", self.refused("--suite", str(self.folder), *python("pass")))
        (self.folder / "random.jb2").write_bytes(b"other")
        self.assertIn("is another file", self.refused("--suite", str(self.folder), *python("pass")))
        manifest = self.folder / "manifest.tsv"
        manifest.write_text(manifest.read_text().replace("second\t", "../second\t"))
        self.assertIn("is no manifest", self.refused("--suite", str(self.folder), *python("pass")))
        (self.folder / "manifest.tsv").write_text("one\ttwo\n1\t2\n")
        self.assertIn("is no manifest", self.refused("--suite", str(self.folder), *python("pass")))


if __name__ == "__main__":
    unittest.main()
