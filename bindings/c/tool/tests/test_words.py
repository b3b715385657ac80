"""The words of the command line, help, versions, and what an input is."""
from __future__ import annotations

import os
import re
import unittest

from support import BARE, BOOK, COUNTED, EXAMPLE, INCOMPLETE, NOT_DONE, ROOT, WHOLE, WRONG_WORDS, Case, run

VERSION = re.search(r'HAYRO_JBIG2_VERSION "(.*)"', (ROOT / "bindings" / "c" / "hayro_jbig2.h").read_text())[1]
LONG_OPTIONS = """output format force pages strict salvage globals password work memory jobs json quiet help
    version coding template typical no-typical embedded dpi""".split()


class Words(Case):
    def test_help_and_version(self):
        for word in "--help", "-h":
            ended = run(word)
            self.assert_ends(ended, WHOLE)
            self.assertIn(b"Examples:", ended.output)
            for option in LONG_OPTIONS:
                self.assertIn(f"--{option}".encode(), ended.output)
        for word in "--version", "-V":
            ended = run(word)
            self.assert_ends(ended, WHOLE)
            self.assertTrue(ended.output.startswith(f"hayro-jbig2 {VERSION}\n".encode()))
        with open("/dev/full", "wb") as full:
            self.assert_ends(run("--help", stdout=full), NOT_DONE, "No space left on device")

    def test_wrong_words(self):
        scan = self.made(BOOK)
        for words in (
            [],
            ["info"],
            ["--nothing", scan],
            ["-x", scan],
            ["-o"],
            ["-o", "", scan],
            ["-f", "jpeg", scan],
            ["-o", "page.jpg", scan],
            *(["-p", pages, scan] for pages in ("0", "3-2", "1,", ",1", "1-2-3", "a", "", "1 2", "-1", "1--2")),
            *(["--work", units, scan] for units in ("", "-1", "many", "1x", "99999999999999999999")),
            *(["--memory", size, scan] for size in ("", "0", "K", "1X", "1KB", "-1")),
            *(["-j", jobs, scan] for jobs in ("0", "-1", "x", "")),
            ["--strict", "--salvage", scan],
            ["--json", scan],
            ["info", "-o", "x.png", scan],
            ["info", "-f", "png", scan],
            ["-", "-"],
            ["-g", "-", "-"],
            ["-o", "page.png", scan],
        ):
            with self.subTest(words=words):
                ended = self.run_here(*words)
                self.assertEqual(ended.status, WRONG_WORDS, ended.errors)
                self.assertTrue(ended.errors)
                self.assertEqual((ended.output, self.files()), (b"", ["scan.jb2"]))

    def test_an_option_that_is_not_there_is_named(self):
        for words, name in {("-zq", EXAMPLE): "-z", (EXAMPLE, "-qz"): "-z", (EXAMPLE, "--zq"): "--zq"}.items():
            self.assert_ends(self.run_here(*words), WRONG_WORDS, f"there is no option {name};")

    def test_an_option_that_takes_no_word_is_named(self):
        for words, name in {("--force=x", EXAMPLE): "--force", (EXAMPLE, "--quiet=1"): "--quiet"}.items():
            self.assert_ends(self.run_here(*words), WRONG_WORDS, f"no word belongs to {name};")

    def test_options_come_after_words_in_each_environment(self):
        how = {"env": {**os.environ, "POSIXLY_CORRECT": "1"}}
        ended = self.run_here("info", "--json", EXAMPLE, **how)
        self.assert_ends(ended, WHOLE)
        self.assertTrue(ended.output.startswith(b"["))
        self.assert_ends(self.run_here(EXAMPLE, "-o", "all.pbm", **how), WHOLE)
        self.assertEqual(self.files(), ["all.pbm"])

    def test_not_even_a_name(self):
        ended = self.run_here(program=COUNTED, env={**os.environ, "NO_WORDS": "1"})
        self.assert_ends(ended, WRONG_WORDS, "name a file;")

    def test_a_message_has_one_line(self):
        """A file's name can't add a line that the program never said."""
        name = "a\nscan.jb2: whole.jb2"
        self.made(BOOK[:600], name)
        ended = self.run_here(name, "-f", "pbm", "-o", "-")
        self.assertEqual(ended.status, INCOMPLETE, ended.errors)
        self.assertTrue(all(line.startswith("a?scan.jb2: whole.jb2: ") for line in ended.errors.splitlines()), ended.errors)
        self.assert_ends(self.run_here("gone\nscan.jb2"), NOT_DONE, "gone?scan.jb2: can't be read")

    def test_pages(self):
        for pages, numbers in {"1-3,7": [1, 2, 3], "2": [2], "2-": [2, 3], "3,1": [1, 3], "1,1-2": [1, 2]}.items():
            with self.subTest(pages=pages):
                ended = self.run_here(EXAMPLE, "--pages", pages, "-o", f"{numbers}/")
                expected = [f"{numbers}/t88-h1-{number}.png" for number in numbers]
                self.assertEqual([name for name in self.files() if name.startswith(f"{numbers}")], expected)
                self.assertEqual(ended.status, NOT_DONE if "7" in pages else WHOLE)
        self.assert_ends(self.run_here(EXAMPLE, "-p", "4"), NOT_DONE, "t88-h1.jb2: no page 4, the last is 3")
        for pages in "2-18446744073709551615", "18446744073709551615", "2-18446744073709551616":
            self.assert_ends(self.run_here(EXAMPLE, "-p", pages), WRONG_WORDS, f"wrong word for --pages: {pages}")

    def test_kinds_and_hints(self):
        for data, hint in {
            b"": "an empty file",
            b"Dear Sirs": "text",
            b"\x89PNG\r\n\x1a\n": "a PNG picture",
            b"II*\0" + bytes(20): "a TIFF picture",
            b"MM\0+" + bytes(20): "a BigTIFF picture",
            b"P5 1 1 255\n\0": "a PGM picture",
            b"\x97JB2\n\x1a\n" + BOOK[8:]: "damaged, perhaps by a transfer as text",
            b"\x1f\x8b" + bytes(20): "gzip",
            bytes(range(255, 200, -1)): "no segment of JBIG2 at its start",
            bytes.fromhex("00000001 31 00 01 00000000"): "segments of JBIG2 without a page information",
        }.items():
            with self.subTest(hint=hint):
                self.assert_ends(self.run_here(self.made(data)), NOT_DONE, "neither a JBIG2 file", hint)
        self.assert_ends(self.run_here("gone.jb2"), NOT_DONE, "gone.jb2: can't be read: No such file or directory")
        self.assert_ends(self.run_here("."), NOT_DONE, "Is a directory")
        pdf = self.made(b"%PDF-1.4\n", "scan.pdf")
        self.assert_ends(self.run_here("-g", pdf, self.made(BOOK)), NOT_DONE, "this is a PDF file, not globals")
        self.assert_ends(self.run_here("-g", EXAMPLE, self.made(BOOK)), NOT_DONE, "this is a JBIG2 file, not globals")
        ended = self.run_here("-g", "-", self.made(BOOK), input=BOOK)
        self.assert_ends(ended, NOT_DONE, "standard input: this is a JBIG2 file, not globals")

    def test_without_libraries(self):
        scan = self.made(BOOK)
        ended = self.run_here(scan, program=BARE)
        self.assert_ends(ended, NOT_DONE, "PNG needs libpng (Debian's libpng-dev)")
        ended = self.run_here(scan, "-o", "scan.tiff", program=BARE)
        self.assert_ends(ended, NOT_DONE, "TIFF needs libtiff (Debian's libtiff-dev)")
        ended = self.run_here(self.made(b"%PDF-1.4\n", "scan.pdf"), "-f", "pbm", program=BARE)
        self.assert_ends(ended, NOT_DONE, "built without libqpdf (Debian's libqpdf-dev)")
        self.assert_ends(self.run_here(scan, "-o", "scan.pbm", program=BARE), WHOLE)
        self.assertIn(b"built without libqpdf", self.run_here("-V", program=BARE).output)
        self.assertEqual(self.files(), ["scan.jb2", "scan.pbm", "scan.pdf"])

    def test_completions_and_manual_know_each_option(self):
        folder = ROOT / "bindings" / "c" / "tool"
        for name in "hayro-jbig2.1", "completions/hayro-jbig2.bash", "completions/_hayro-jbig2":
            text = (folder / name).read_text().replace("\\-", "-")
            for option in LONG_OPTIONS:
                self.assertIn(f"--{option}", text, name)

    def test_a_file_without_pages(self):
        empty = self.made(BOOK[:8] + b"\1" + bytes(4))
        self.assert_ends(self.run_here(empty), NOT_DONE, "scan.jb2: no page")
        counted = self.made(BOOK[:8] + b"\1" + bytes([0, 0, 0, 2]))
        self.assert_ends(self.run_here(counted), NOT_DONE, "it states 2, and 0 can be read", "no page")


if __name__ == "__main__":
    unittest.main()
