"""Runs jbig2-decode as a user does: each command on files of all kinds, its faults, its statuses, and its output's.

usage: python3 -m testing.commands.commands [-v] [NAME ..]

PROGRAM may name the program; else it is the one that ./jbig2-decode runs. What pages show is tried by conformance/ and
testing/comparison/.
"""
import os
import re
import subprocess
import tempfile
import unittest

from testing.commands.files import COLOURED, CUT_OFF, HEADER, ROOT, bitmap, example, file_of, page_segments, striped
from testing.error_texts import TEXTS

PROGRAM = os.environ.get("PROGRAM") or subprocess.run(
    [os.path.join(ROOT, "tools", "build", "program"), "jbig2-decode"], check=True, stdout=subprocess.PIPE, text=True
).stdout.rstrip("\n")
DATA = os.path.join(ROOT, "crates", "jbig2_decode", "data")
USAGE = b"usage: jbig2-decode [--strict] pages|embedded FILE | calls|pbm FILE INDEX\n"
UNREADABLE = b"error: cannot read file\n"
NO_SUCH_PAGE = b"error: no such page\n"
WHITE = b"push_pixel_chunk false 1\nnext_line\n"


def line_of(error):
    """What is printed of an error of these bytes, by its name."""
    return f"error: {TEXTS[error]}\n".encode()


def run(*words, **how):
    how = {"stdout": subprocess.PIPE, "stderr": subprocess.PIPE, "stdin": subprocess.DEVNULL, **how}
    ended = subprocess.run([PROGRAM, *words], **how)
    return ended.returncode, ended.stdout, ended.stderr


def drawn(calls):
    """The rows that calls on a Decoder draw, each as a text of 0 and 1."""
    rows, row = [], ""
    for line in calls.decode().splitlines():
        match line.split():
            case ["push_pixel", colour]:
                row += "1" if colour == "true" else "0"
            case ["push_pixel_chunk", colour, count]:
                row += ("1" if colour == "true" else "0") * 8 * int(count)
            case ["next_line"]:
                rows.append(row)
                row = ""
            case _:
                raise ValueError(line)
    return rows


def rows_of(picture):
    _, size, rest = picture.split(b"\n", 2)
    width, height = map(int, size.split())
    stride = (width + 7) // 8
    rows = (int.from_bytes(rest[stride * y : stride * (y + 1)], "big") for y in range(height))
    return [f"{row:0{8 * stride}b}"[:width] for row in rows]


class Case(unittest.TestCase):
    """A test with a folder of its own, in which files are made."""

    maxDiff = 400

    def setUp(self):
        room = tempfile.TemporaryDirectory()
        self.addCleanup(room.cleanup)
        self.room = room.name

    def made(self, data, name="file.jb2"):
        path = os.path.join(self.room, name)
        with open(path, "wb") as file:
            file.write(data)
        return path

    def assert_ends(self, words, expected, **how):
        ended = run(*words, **how)
        self.assertEqual((ended[0], len(ended[1]), ended[2]), (expected[0], len(expected[1]), expected[2]), words)
        self.assertTrue(ended[1] == expected[1], f"{words}: what is printed differs")


class Output(Case):
    def test_the_crate_s_own_run(self):
        with open(os.path.join(DATA, "..", "args"), encoding="utf-8") as file:
            words = file.read().splitlines()
        with open(os.path.join(DATA, "..", "stdout"), "rb") as file:
            self.assert_ends(words, (0, file.read(), b""), cwd=DATA)

    def test_the_example_of_the_standard(self):
        file, pages = example()
        for strict in [], ["--strict"]:
            self.assert_ends([*strict, "pages", file], (0, b"1 64 56\n2 64 56\n3 37 8\n", b""))
            for index, page in enumerate(pages):
                self.assert_ends([*strict, "pbm", file, str(index)], (0, page, b""))
                status, calls, fault = run(*strict, "calls", file, str(index))
                self.assertEqual((status, drawn(calls), fault), (0, rows_of(page), b""))

    def test_an_index_may_begin_with_zeros(self):
        file, pages = example()
        self.assert_ends(["pbm", file, "0002"], (0, pages[2], b""))

    def test_an_embedded_page(self):
        page = self.made(page_segments(9, 2, black=1))
        black = b"push_pixel_chunk true 1\npush_pixel true\nnext_line\n" * 2
        self.assert_ends(["embedded", page], (0, black, b""))

    def test_lenient_reading_passes_over_what_strict_reading_refuses(self):
        for rest, error in (CUT_OFF, "Parse(UnexpectedEof)"), (COLOURED, "Unsupported"):
            page = self.made(page_segments(8, 1, rest))
            self.assert_ends(["embedded", page], (0, WHITE, b""))
            self.assert_ends(["--strict", "embedded", page], (1, b"", line_of(error)))

    def test_a_file_above_a_mebibyte(self):
        data, picture = striped(65535, 150)
        self.assertGreater(len(data), 1 << 20)
        self.check_picture(data, picture, b"1 65535 150\n")

    def test_pages_of_the_greatest_width_and_height(self):
        for width, height in (65535, 3), (9, 65535):
            data, picture = striped(width, height)
            self.check_picture(data, picture, b"1 %d %d\n" % (width, height))
            page = self.made(data[len(HEADER) :])
            status, calls, fault = run("--strict", "embedded", page)
            self.assertEqual((status, fault), (0, b""))
            self.assertTrue(drawn(calls) == rows_of(picture))

    def check_picture(self, data, picture, sizes):
        file = self.made(data)
        self.assert_ends(["--strict", "pages", file], (0, sizes, b""))
        self.assert_ends(["--strict", "pbm", file, "0"], (0, picture, b""))

    def test_names_and_folders(self):
        data = file_of(page_segments(8, 1))
        # The last one is UTF-8 in any locale.
        for name in "with blank.jb2", "--strict", "lines\nof\ntext", os.fsdecode("ä€.jb2".encode()):
            self.made(data, name)
            self.assert_ends(["pbm", name, "0"], (0, bitmap(8, 1, b"\0"), b""), cwd=self.room)

    def test_a_pipe_is_a_file(self):
        data = file_of(page_segments(8, 1))
        words = [PROGRAM, "pages", "/dev/stdin"]
        ended = subprocess.run(words, input=data, capture_output=True)
        self.assertEqual((ended.returncode, ended.stdout, ended.stderr), (0, b"1 8 1\n", b""))


class Faults(Case):
    def test_other_words_print_the_usage(self):
        page = os.path.join(DATA, "page.jb2")
        example_file = os.path.join(DATA, "t88-h1.jb2")
        lines = [
            [], [""], ["--strict"], ["--help"], ["pages"], ["embedded"], ["calls"], ["pbm"], ["draw", page],
            ["embedded", page, "0"], ["pages", example_file, "0"], ["calls", example_file], ["pbm", example_file],
            ["pbm", example_file, ""], ["pbm", example_file, "-1"], ["pbm", example_file, "+1"],
            ["pbm", example_file, "1a"], ["pbm", example_file, " 1"], ["pbm", example_file, "0", "0"],
            ["PBM", example_file, "0"], ["pages", "--strict", example_file, "0"],
            ["--strict", "--strict", "pages", example_file], [b"pages", b"\xff\xfe"],
        ]
        for words in lines:
            self.assert_ends(words, (2, b"", USAGE))

    def test_files_that_cannot_be_read(self):
        for name in "no such file", "", self.room, "x" * 300, "page.jb2/below":
            self.assert_ends(["pages", name], (1, b"", UNREADABLE), cwd=DATA)
            self.assert_ends(["--strict", "pbm", name, "0"], (1, b"", UNREADABLE), cwd=DATA)

    @unittest.skipIf(os.geteuid() == 0, "the superuser reads all files")
    def test_a_file_that_may_not_be_read(self):
        file = self.made(file_of(page_segments(8, 1)))
        os.chmod(file, 0)
        self.assert_ends(["pages", file], (1, b"", UNREADABLE))

    def test_pages_that_are_not_there(self):
        for command in "calls", "pbm":
            for index in "3", "18446744073709551615", "18446744073709551616", "9" * 400:
                self.assert_ends([command, os.path.join(DATA, "t88-h1.jb2"), index], (1, b"", NO_SUCH_PAGE))

    def test_data_that_is_no_file(self):
        no_header = line_of("Format(InvalidHeader)")
        for data in b"", b"\x97JB2", b"P4\n8 1\n\0", page_segments(8, 1):
            for words in ["pages"], ["calls", "0"], ["pbm", "0"]:
                command, *index = words
                status, out, fault = run(command, self.made(data), *index)
                self.assertEqual((status, out), (1, b""))
                self.assertRegex(fault, rb"\Aerror: [^\n]+\n\Z")
        self.assert_ends(["pages", self.made(b"P4\n8 1\n\0 and so on")], (1, b"", no_header))
        self.assert_ends(["embedded", self.made(b"")], (1, b"", line_of("Format(MissingPageInfo)")))

    def test_a_file_that_is_cut_off_anywhere(self):
        with open(os.path.join(DATA, "t88-h1.jb2"), "rb") as file:
            data = file.read()
        for length in range(0, len(data), 7):
            name = self.made(data[:length])
            for words in ["--strict", "pages", name], ["pbm", name, "1"]:
                status, out, fault = run(*words)
                self.assertIn(status, (0, 1), words)
                self.assertTrue(fault == b"" if status == 0 else out == b"" and re.fullmatch(rb"error: [^\n]+\n", fault), fault)


class Streams(Case):
    WORDS = ["pbm", os.path.join(DATA, "t88-h1.jb2"), "0"]

    def test_an_output_that_is_closed_or_full(self):
        for redirection in ">&-", ">/dev/full":
            line = ["sh", "-c", f'exec "$0" "$@" {redirection}', PROGRAM, *self.WORDS]
            ended = subprocess.run(line, capture_output=True, stdin=subprocess.DEVNULL)
            self.assertEqual((ended.returncode, ended.stdout, ended.stderr), (1, b"", b""), redirection)

    def test_an_output_that_nobody_reads(self):
        reading, writing = os.pipe()
        os.close(reading)
        with os.fdopen(writing, "wb") as out:
            status, _, fault = run(*self.WORDS, stdout=out)
        self.assertEqual((status, fault), (1, b""))

    def test_standard_error_that_is_closed_or_full(self):
        for redirection in "2>&-", "2>/dev/full":
            for words, status in ([], 2), (["pages", "no such file"], 1), (self.WORDS, 0):
                line = ["sh", "-c", f'exec "$0" "$@" {redirection}', PROGRAM, *words]
                ended = subprocess.run(line, stdout=subprocess.DEVNULL, stdin=subprocess.DEVNULL)
                self.assertEqual(ended.returncode, status, (redirection, words))

    def test_no_standard_input(self):
        line = ["sh", "-c", 'exec "$0" "$@" <&-', PROGRAM, *self.WORDS]
        ended = subprocess.run(line, capture_output=True)
        self.assertEqual((ended.returncode, ended.stderr), (0, b""))


class Script(Case):
    """The script ./jbig2-decode hands all on to the program."""

    SCRIPT = os.path.join(ROOT, "jbig2-decode")

    def setUp(self):
        super().setUp()
        # What would be proved first is not tried here.
        environment = {**os.environ, "JBIG2_PROVE": "0"}
        ended = subprocess.run([self.SCRIPT], env=environment, capture_output=True)
        if b"it would have to be proved first" in ended.stderr:
            self.skipTest("the script would prove the program first")
        self.assertEqual(ended.returncode, 2, ended.stderr)

    def test_words_streams_and_status(self):
        link = os.path.join(self.room, "link to it")
        os.symlink(self.SCRIPT, link)
        for script in self.SCRIPT, link:
            for words in [], ["pages", "no such file"], ["pbm", os.path.join(DATA, "t88-h1.jb2"), "2"], ["pages", "a b", "*"]:
                ended = subprocess.run([script, *words], capture_output=True, cwd=self.room)
                self.assertEqual((ended.returncode, ended.stdout, ended.stderr), run(*words, cwd=self.room))


if __name__ == "__main__":
    unittest.main()
