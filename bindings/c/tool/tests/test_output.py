"""Where pictures go: names, folders, standard output; files that are whole or not there."""
from __future__ import annotations

import os
import pathlib
import pty
import struct
import subprocess
import unittest

from support import BOOK, COUNTED, EXAMPLE, HAS_TIFF, NOT_DONE, TOOL, WHOLE, Case
from support import chunks_of, decoded, picture_of_png, pictures_of, wait_until

MEANT = [decoded(EXAMPLE, index) for index in range(3)]
NOBODY = 65534


def slow_page(side: int) -> bytes:
    """A page that takes long: a generic region of no bytes, with a moved adaptive pixel."""
    sides = side.to_bytes(4, "big").hex() * 2
    return bytes.fromhex(
        f"00000000 30 00 01 00000013 {sides}" + "00" * 11 + f"00000001 26 00 01 0000001A {sides}"
        "000000000000000000 00 02FFFDFF02FEFEFE"
    )


def shown_on_terminal(words: list[str], room: pathlib.Path) -> str:
    """What a program that ends well shows on a terminal as its standard error. It is read meanwhile: a terminal holds
    little, and the program waits then."""
    leader, follower = pty.openpty()
    shown = b""
    with subprocess.Popen(words, cwd=room, stderr=follower) as process:
        os.close(follower)
        try:
            while piece := os.read(leader, 4096):
                shown += piece
        except OSError:
            pass
    os.close(leader)
    assert process.returncode == WHOLE, process.returncode
    return shown.decode()


def strips_of_tiff(data: bytes) -> list[tuple[int, int, bytes]]:
    """Width, height and strip of each page of a TIFF file."""
    order = "<" if data[:2] == b"II" else ">"
    [place] = struct.unpack(order + "I", data[4:8])
    pages = []
    while place:
        [count] = struct.unpack(order + "H", data[place : place + 2])
        fields = {}
        for number in range(count):
            at = place + 2 + 12 * number
            tag, kind, _ = struct.unpack(order + "HHI", data[at : at + 8])
            form, size = ("H", 2) if kind == 3 else ("I", 4)
            [fields[tag]] = struct.unpack(order + form, data[at + 8 : at + 8 + size])
        assert (fields[259], fields[262], fields.get(266, 1)) == (4, 0, 1), fields
        pages.append((fields[256], fields[257], data[fields[273] : fields[273] + fields[279]]))
        [place] = struct.unpack(order + "I", data[place + 2 + 12 * count : place + 6 + 12 * count])
    return pages


def page_of_t6(width: int, height: int, coded: bytes) -> bytes:
    """An embedded page of an MMR region, whose data are T.6 as a strip of a TIFF file is."""
    sides = struct.pack(">II", width, height)
    region = sides + bytes(9) + b"\1" + coded
    return (bytes.fromhex("00000000 30 00 01 00000013") + sides + bytes(11)
            + bytes.fromhex("00000001 26 00 01") + len(region).to_bytes(4, "big") + region)


class Output(Case):
    def test_names(self):
        self.assert_ends(self.run_here(self.made(BOOK)), WHOLE)
        names = [f"scan-{page}.png" for page in (1, 2, 3)]
        self.assertEqual(self.files(), sorted(["scan.jb2", *names]))
        self.assertEqual([picture_of_png((self.room / name).read_bytes()) for name in names], MEANT)
        self.assert_ends(self.run_here("scan.jb2", "-f", "pbm", "-o", "new/"), WHOLE)
        self.assertEqual(pictures_of((self.room / "new/scan-2.pbm").read_bytes()), [MEANT[1]])
        (self.room / "old").mkdir()
        self.assert_ends(self.run_here("scan.jb2", "-o", "old", "-f", "pbm", "-p", "3"), WHOLE)
        self.assertIn("old/scan-3.pbm", self.files())
        self.assert_ends(self.run_here("scan.jb2", "-p3", "-o", "third.png"), WHOLE)
        self.assertEqual(picture_of_png((self.room / "third.png").read_bytes()), MEANT[2])
        one = self.made(BOOK[:12] + b"\1" + BOOK[13:400], "one.jb2")
        self.assert_ends(self.run_here(one), WHOLE)
        self.assertIn("one.png", self.files())
        mode = os.stat(self.room / "one.png").st_mode & 0o777
        mask = os.umask(0)
        os.umask(mask)
        self.assertEqual(mode, 0o666 & ~mask)

    def test_a_folder_of_any_name(self):
        (self.room / "tmp.x9Zq").mkdir()
        self.assert_ends(self.run_here(EXAMPLE, "-p", "1", "-o", "tmp.x9Zq"), WHOLE)
        self.assertEqual(self.files(), ["tmp.x9Zq/t88-h1-1.png"])

    def test_standard_input_and_output(self):
        for words in (["-", "-f", "pbm"], ["-", "-o", "-", "-f", "pbm"]):
            ended = self.run_here(*words, input=BOOK)
            self.assert_ends(ended, WHOLE)
            self.assertEqual(pictures_of(ended.output), MEANT)
        ended = self.run_here("-", "-p", "2", input=BOOK)
        self.assertEqual(picture_of_png(ended.output), MEANT[1])
        self.assert_ends(self.run_here("-", "-o", "here/", input=BOOK), WHOLE)
        self.assertEqual(self.files(), [f"here/stdin-{page}.png" for page in (1, 2, 3)])
        ended = self.run_here(EXAMPLE, EXAMPLE, "-o", "-", "-f", "pbm")
        self.assertEqual(pictures_of(ended.output), MEANT + MEANT)

    def test_standard_input_of_globals_alone_writes_no_standard_output(self):
        page, shared = self.made(slow_page(8), "page.jb2e"), bytes.fromhex("00000005 34 00 00 00000000")
        self.assertEqual(self.run_here(page, "-g", "-", input=shared).output, b"")
        self.assertEqual(self.files(), ["page.jb2e", "page.png"])

    def test_standard_output_is_no_folder(self):
        (self.room / "-").mkdir()
        ended = self.run_here(EXAMPLE, "-f", "pbm", "-o", "-")
        self.assertEqual((pictures_of(ended.output), self.files()), (MEANT, []))

    def test_several_inputs(self):
        scan = self.made(BOOK)
        other = self.room / "other"
        other.mkdir()
        (other / "scan.jb2").write_bytes(BOOK)
        ended = self.run_here(scan, "gone.jb2", other / "scan.jb2", "-p", "1", "--force")
        self.assert_ends(ended, NOT_DONE, "gone.jb2: can't be read", "scan-1.png: another page was written to it")
        self.assertEqual(self.files(), ["other/scan.jb2", "scan-1.png", "scan.jb2"])

    def test_nothing_is_overwritten(self):
        self.made(BOOK)
        self.made(b"mine", "scan-2.png")
        self.assert_ends(self.run_here("scan.jb2"), NOT_DONE, "scan-2.png: is there already; --force overwrites it")
        self.assertEqual((self.room / "scan-2.png").read_bytes(), b"mine")
        self.assertEqual(len(self.files()), 4)
        for words in ["-p", "2", "-o", "scan-2.png"], ["-o", "all.pbm"]:
            self.made(b"mine", words[-1])
            self.assert_ends(self.run_here("scan.jb2", *words), NOT_DONE, "is there already")
            self.assertEqual((self.room / words[-1]).read_bytes(), b"mine")
            self.assert_ends(self.run_here("scan.jb2", "--force", *words), WHOLE)
            self.assertNotEqual((self.room / words[-1]).read_bytes(), b"mine")

    def wait_for_part(self, process):
        """Waits until the first of several pages is written, under the name that the file has meanwhile."""
        wait_until(lambda: any(".part-" in name for name in self.files()), process)
        self.assertRegex(self.files()[0], r"both\.pbm\.part-")

    def test_a_file_that_comes_meanwhile_is_not_overwritten(self):
        words = [TOOL, str(EXAMPLE), "-", "-o", "both.pbm"]
        with subprocess.Popen(words, cwd=self.room, stdin=subprocess.PIPE, stderr=subprocess.PIPE) as process:
            self.wait_for_part(process)
            self.made(b"mine", "both.pbm")
            said = process.communicate(BOOK)[1].decode()
        self.assertEqual((process.returncode, said), (NOT_DONE, "hayro-jbig2: both.pbm: File exists\n"))
        self.assertEqual((self.room / "both.pbm").read_bytes(), b"mine")
        self.assertEqual(self.files(), ["both.pbm"])

    def test_a_file_that_is_overwritten_keeps_its_mode(self):
        for mode in 0o600, 0o640, 0o666:
            for words in ["-p", "1", "-o", "a.png"], ["-o", "a.pbm"], *([["-o", "a.tiff"]] if HAS_TIFF else []):
                self.made(b"mine", words[-1]).chmod(mode)
                self.assert_ends(self.run_here(EXAMPLE, "--force", *words), WHOLE)
                self.assertEqual((self.room / words[-1]).stat().st_mode & 0o777, mode)

    def test_nobody_else_can_open_what_takes_the_place_of_a_file_of_its_owner(self):
        self.made(b"mine", "a.png").chmod(0o600)
        ended = self.run_here(EXAMPLE, "-p", "1", "-o", "a.png", "--force", program=COUNTED)
        self.assertEqual((ended.status, (self.room / "a.png").stat().st_mode & 0o777), (WHOLE, 0o600), ended.errors)

    def test_a_dot_at_the_start_of_a_name_is_no_ending(self):
        (self.room / "d").mkdir()
        for name in ".hidden", "d/.hidden":
            self.assert_ends(self.run_here(EXAMPLE, "-p", "1", "-o", name), WHOLE)
            self.assertEqual(picture_of_png((self.room / name).read_bytes()), decoded(EXAMPLE, 0))

    def test_pages_in_one_file(self):
        self.assert_ends(self.run_here(EXAMPLE, "-o", "all.pbm"), WHOLE)
        self.assertEqual(pictures_of((self.room / "all.pbm").read_bytes()), MEANT)

    @unittest.skipUnless(HAS_TIFF, "libtiff is not here")
    def test_pages_in_a_tiff_file(self):
        self.assert_ends(self.run_here(EXAMPLE, "-o", "all.tif"), WHOLE)
        piped = self.run_here(EXAMPLE, "-o", "-", "-f", "tiff")
        self.assertEqual(piped.output, (self.room / "all.tif").read_bytes())
        for page, meant in zip(strips_of_tiff(piped.output), MEANT, strict=True):
            ended = self.run_here("-", "-f", "pbm", input=page_of_t6(*page))
            self.assert_ends(ended, WHOLE)
            self.assertEqual(pictures_of(ended.output), [meant])

    def test_the_resolution_goes_into_the_file(self):
        """As the page states it, in pixels for a metre. PNG has no number above 2^31 - 1."""
        place = BOOK.index(bytes.fromhex("00000013 00000040 00000038")) + 12
        for x, y, is_kept in (11811, 7874, True), (0, 11811, False), (1 << 31, 11811, False):
            self.made(BOOK[:place] + struct.pack(">II", x, y) + BOOK[place + 8 :])
            chunks = chunks_of(self.run_here("scan.jb2", "-p", "1", "-o", "-").output)
            self.assertEqual(chunks.get(b"pHYs"), struct.pack(">IIB", x, y, 1) if is_kept else None)
        if HAS_TIFF:
            self.made(BOOK[:place] + struct.pack(">II", 11811, 7874) + BOOK[place + 8 :])
            data = self.run_here("scan.jb2", "-p", "1", "-f", "tiff", "-o", "-").output
            order = "<" if data[:2] == b"II" else ">"
            [place] = struct.unpack(order + "I", data[4:8])
            [count] = struct.unpack(order + "H", data[place : place + 2])
            entries = struct.iter_unpack(order + "HHII", data[place + 2 : place + 2 + 12 * count])
            fields = {tag: value for tag, _, _, value in entries}
            values = [struct.unpack(order + "II", data[fields[tag] : fields[tag] + 8]) for tag in (282, 283)]
            self.assertEqual([round(above / below * 100) for above, below in values], [11811, 7874])
            self.assertIn(fields[296], (3, 3 << 16))

    def test_a_full_disk(self):
        for form in "png", "pbm", *(["tiff"] if HAS_TIFF else []):
            with self.subTest(form=form), open("/dev/full", "wb") as full:
                words = [EXAMPLE, "-p", "1", "-f", form]
                ended = self.run_here(*words, "-o", "-", stdout=full)
                self.assert_ends(ended, NOT_DONE, "standard output: No space left on device")
                ended = self.run_here(*words, "-o", "/dev/full")
                self.assert_ends(ended, NOT_DONE, "/dev/full: No space left on device")
        with open("/dev/full", "wb") as full:
            self.assert_ends(self.run_here("info", EXAMPLE, stdout=full), NOT_DONE, "No space left on device")

    def test_a_limit_of_file_sizes(self):
        """Whatever the limit cuts off, there is no file then."""
        self.made(slow_page(1200), "gray.jb2e")
        for form in "png", "pbm", *(["tiff"] if HAS_TIFF else []):
            self.assert_ends(self.run_here("gray.jb2e", "-o", f"whole.{form}"), WHOLE)
            size = (self.room / f"whole.{form}").stat().st_size
            (self.room / f"whole.{form}").unlink()
            for blocks in 0, 1, size // 1024, (size - 1) // 512:
                limited = ["sh", "-c", f'ulimit -f {blocks}; exec "$@"', "sh", TOOL, "gray.jb2e", "-o", f"cut.{form}"]
                ended = subprocess.run(limited, cwd=self.room, capture_output=True, check=False)
                self.assertEqual((ended.returncode, self.files()), (NOT_DONE, ["gray.jb2e"]), ended.stderr)
                self.assertIn(b"File too large", ended.stderr)

    @unittest.skipUnless(HAS_TIFF, "libtiff is not here")
    def test_the_temporary_file_of_tiff_is_named(self):
        """A pipe has no limit of its size."""
        limited = ["sh", "-c", 'ulimit -f 0; exec "$@"', "sh", TOOL, EXAMPLE, "-f", "tiff", "-o", "-"]
        ended = subprocess.run(limited, cwd=self.room, capture_output=True, check=False)
        self.assertEqual((ended.returncode, ended.stdout), (NOT_DONE, b""))
        self.assertEqual(ended.stderr, b"the temporary file of TIFF: File too large\n")

    def test_a_device_keeps_what_it_got(self):
        """A pipe can't be taken back, so nobody says that it isn't written."""
        words = [EXAMPLE, "gone.jb2", "-f", "pbm", "-o"]
        for name in "-", "/dev/stdout":
            ended = self.run_here(*words, name)
            self.assertEqual(pictures_of(ended.output), MEANT)
            self.assertEqual(ended.errors, "gone.jb2: can't be read: No such file or directory\n")
            self.assertEqual(ended.status, NOT_DONE)

    def test_a_link_is_kept(self):
        """With --force the file that it leads to is overwritten, as /dev/stdout may be one."""
        (self.room / "folder").mkdir()
        (self.room / "folder" / "page.pbm").write_bytes(b"mine")
        (self.room / "link.pbm").symlink_to("folder/page.pbm")
        (self.room / "gone.pbm").symlink_to("nowhere/page.pbm")
        words = [EXAMPLE, "-p", "1", "-o"]
        self.assert_ends(self.run_here(*words, "link.pbm"), NOT_DONE, "link.pbm: is there already")
        self.assert_ends(self.run_here(*words, "link.pbm", "--force"), WHOLE)
        self.assertTrue((self.room / "link.pbm").is_symlink())
        self.assertEqual(pictures_of((self.room / "folder" / "page.pbm").read_bytes()), [MEANT[0]])
        ended = self.run_here(*words, "gone.pbm", "--force")
        self.assert_ends(ended, NOT_DONE, "gone.pbm: No such file or directory")
        self.assertEqual(self.files(), ["folder/page.pbm", "link.pbm"])

    def test_long_names(self):
        """As long as the file system takes them: the name that a file has meanwhile isn't longer."""
        stem = "a" * 244
        self.made(BOOK, f"{stem}.jb2")
        self.assert_ends(self.run_here(f"{stem}.jb2", "-p", "1"), WHOLE)
        self.assert_ends(self.run_here(EXAMPLE, "-p", "1", "-o", "b" * 251 + ".pbm"), WHOLE)
        ended = self.run_here(EXAMPLE, "-p", "1", "-o", "b" * 252 + ".pbm")
        self.assert_ends(ended, NOT_DONE, "bbb.pbm: File name too long")
        self.assertEqual(len(self.files()), 3)

    def test_a_long_name_is_cut_between_two_characters(self):
        """Some file systems take no parts of characters."""
        words = [TOOL, str(EXAMPLE), "-", "-o", "a" + "\u00e4" * 100 + ".pbm"]
        with subprocess.Popen(words, cwd=self.room, stdin=subprocess.PIPE) as process:
            wait_until(self.files, process)
            [part] = self.files()
            process.communicate(BOOK)
        self.assertRegex(part, "^a\u00e4+\\.part-......$")
        self.assertEqual((process.returncode, len(self.files())), (WHOLE, 1))

    def test_a_folder_in_the_place_of_a_file(self):
        (self.room / "scan-1.pbm").mkdir()
        self.made(BOOK)
        for words in [], ["--force"]:
            ended = self.run_here("scan.jb2", "-p", "1", "-f", "pbm", *words)
            self.assert_ends(ended, NOT_DONE, "scan-1.pbm: Is a directory")

    def test_a_closed_pipe(self):
        for words in ["-f", "pbm"], ["-f", "png", "-p", "1"]:
            reading, writing = os.pipe()
            os.close(reading)
            ended = self.run_here(EXAMPLE, *words, "-o", "-", stdout=writing)
            os.close(writing)
            self.assert_ends(ended, NOT_DONE, "standard output: Broken pipe")

    def test_a_folder_without_rights(self):
        how = {"user": NOBODY, "group": NOBODY, "extra_groups": []} if os.getuid() == 0 else {}
        closed = self.room / "closed"
        closed.mkdir()
        closed.chmod(0o555)
        self.room.chmod(0o755)
        ended = self.run_here(EXAMPLE, "-o", "closed/", **how)
        self.assert_ends(ended, NOT_DONE, "closed/t88-h1-1.png: Permission denied")
        ended = self.run_here(EXAMPLE, "-o", "closed/new/", **how)
        self.assert_ends(ended, NOT_DONE, "closed/new/: the folder can't be made: Permission denied")
        ended = self.run_here(EXAMPLE, "-o", "gone/page.pbm")
        self.assert_ends(ended, NOT_DONE, "gone/page.pbm: No such file or directory")
        self.assertEqual(self.files(), [])

    def test_a_file_that_lacks_pages_is_not_written(self):
        damaged = self.made(BOOK[:36] + b"\xff" * 4 + BOOK[40:])
        ended = self.run_here(damaged, "-o", "all.pbm")
        self.assertEqual((ended.status, self.files()), (NOT_DONE, ["scan.jb2"]), ended.errors)
        for words in [EXAMPLE, "gone.jb2"], [EXAMPLE, "--pages", "1-4"]:
            ended = self.run_here(*words, "-o", "all.pbm")
            self.assert_ends(ended, NOT_DONE, "all.pbm is not written, since it would lack pages")
            self.assertEqual(self.files(), ["scan.jb2"])

    def test_a_terminal(self):
        leader, follower = pty.openpty()
        ended = self.run_here(EXAMPLE, "-p", "1", "-o", "-", stdout=follower)
        self.assertEqual(ended.status, 2)
        self.assertIn("no picture is written to a terminal", ended.errors)
        os.close(leader)
        os.close(follower)

    def test_progress_on_a_terminal_alone(self):
        many = [self.made(slow_page(4000), f"page-{number}.jb2e") for number in range(12)]
        words = [TOOL, *map(str, many), "-j", "1", "-f", "pbm", "-o", "/dev/null"]
        shown = shown_on_terminal(words, self.room)
        self.assertRegex(shown, r"\d+ of \d+ pages")
        self.assertTrue(shown.endswith("\r\033[K"), shown[-20:])
        self.assertEqual(shown_on_terminal([*words, "-q"], self.room), "")

    def test_the_stem_of_hidden_and_odd_names(self):
        odd = {".jb2": ".jb2", "a.b.jb2": "a.b", "plain": "plain", "a\nb": "a\nb", "standard input": "standard input"}
        for name, stem in odd.items():
            self.made(BOOK, name)
            self.assert_ends(self.run_here(name, "-p", "1"), WHOLE)
            self.assertIn(f"{stem}-1.png", self.files())
        (self.room / "new\nfolder").mkdir()
        self.assert_ends(self.run_here("plain", "-p", "1", "-o", "new\nfolder"), WHOLE)
        self.assertIn("new\nfolder/plain-1.png", self.files())


if __name__ == "__main__":
    unittest.main()
