"""What is drawn: the pages of the conformance suite beside the proved program, several jobs, damage, and limits."""
from __future__ import annotations

import concurrent.futures
import random
import re
import struct
import unittest

from support import (
    BOOK,
    EXAMPLE,
    HAS_TIFF,
    INCOMPLETE,
    NOT_DONE,
    OVER_LIMIT,
    SANITIZED,
    SUITE,
    WHOLE,
    Case,
    decoded,
    picture_of_png,
    pictures_of,
    run,
)

from conformance.runner.embedding import embedded_page, file_of, image_of
from conformance.runner.manifest import PICTURE, read_manifest, read_sample
from conformance.runner.segments import header_at, with_data
from test_output import slow_page
from testing.damaged import damaged
from testing.error_texts import TEXTS

ENTRIES = read_manifest(SUITE / "manifest.tsv")
FILES = sorted({entry.name for entry in ENTRIES if not entry.is_embedded})
REFUSED = [entry for entry in ENTRIES if entry.lenient not in (PICTURE, "-") and not entry.is_embedded]
EMBEDDED = [entry for entry in ENTRIES if entry.is_embedded]
# In patterns.
END, INVALID_REFERENCE = (re.escape(TEXTS[error]) for error in ("Parse(UnexpectedEof)", "Segment(InvalidReference)"))


def ends_of_segments(data):
    """The places in a stream where segments end."""
    ends, place = {0}, 0
    while place < len(data):
        segment, place = header_at(data, place)
        _, place = with_data(segment, data, place)
        ends.add(place)
    return ends


def lenient_pictures(name):
    """The pictures that the manifest has of a file's pages, None for those that are refused."""
    entries = [entry for entry in ENTRIES if entry.name == name]
    path = SUITE / f"{name}.jb2"
    return {entry.page: decoded(path, entry.page) if entry.lenient == PICTURE else None for entry in entries}


class Suite(Case):
    def test_files(self):
        """PNG files have the pixels of `jbig2-decode pbm`; the status is 0 where strict reading draws the same."""
        with concurrent.futures.ThreadPoolExecutor(2) as pool:
            meant = dict(zip(FILES, pool.map(lenient_pictures, FILES)))
        ended = self.run_here(*(SUITE / f"{name}.jb2" for name in FILES), "-o", "out/", "--work", "none")
        self.assertEqual(ended.status, NOT_DONE)
        drawn = 0
        for name, pages in meant.items():
            for page, picture in pages.items():
                paths = [self.room / "out" / f"{name}.png", self.room / "out" / f"{name}-{page + 1}.png"]
                found = [picture_of_png(path.read_bytes()) for path in paths if path.exists()]
                self.assertEqual(found, [picture] if picture else [], (name, page))
                drawn += len(found)
        self.assertGreater(drawn, 800)
        told = {line.split(":")[0] for line in ended.errors.splitlines()}
        for entry in ENTRIES:
            if not entry.is_embedded and PICTURE in (entry.lenient, entry.strict) and entry.lenient != entry.strict:
                self.assertIn(str(SUITE / f"{entry.name}.jb2"), told)
        strictly = {entry.name for entry in ENTRIES if entry.strict != PICTURE}
        self.assertEqual({name for name in FILES if str(SUITE / f"{name}.jb2") in told}, strictly & set(FILES))

    def test_embedded(self):
        for entry in EMBEDDED:
            stream, shared = SUITE / f"{entry.name}.page.jb2", SUITE / f"{entry.name}.globals.jb2"
            words = [stream, shared] if shared.exists() else [stream]
            whole = self.made(file_of(read_sample(SUITE, entry).page), "whole.jb2")
            for order in words, words[::-1], [stream, *(["-g", shared] if shared.exists() else [])]:
                with self.subTest(order=order):
                    ended = self.run_here(*order, "-f", "pbm", "-o", "-")
                    self.assert_ends(ended, WHOLE)
                    self.assertEqual(pictures_of(ended.output), [decoded(whole, 0)])

    def test_each_cut(self):
        """A file that is cut off anywhere is whole, or a message and a status say that it isn't. So is an embedded
        page, but where it ends between two segments: nothing says how many it has."""
        meant = [decoded(EXAMPLE, index) for index in range(3)]
        page = embedded_page(BOOK, 1)
        stream = page.shared + page.stream
        ends = ends_of_segments(stream)
        cuts = [("file.jb2", BOOK[:cut], meant) for cut in range(0, len(BOOK) + 1, 7)]
        cuts += [("page.jb2e", stream[:cut], [meant[1]]) for cut in range(0, len(stream), 4) if cut not in ends]

        def ended_of(cut):
            return run("-", "-f", "pbm", *(["--salvage"] if len(cut[1]) % 2 else []), input=cut[1])

        with concurrent.futures.ThreadPoolExecutor(2) as pool:
            for (name, data, pictures), ended in zip(cuts, pool.map(ended_of, cuts)):
                with self.subTest(name=name, cut=len(data)):
                    self.assertIn(ended.status, (WHOLE, INCOMPLETE, NOT_DONE))
                    self.assertEqual(ended.status == WHOLE, ended.errors == "")
                    if ended.status == WHOLE:
                        self.assertEqual(pictures_of(ended.output), pictures)

    def test_a_line_end_after_a_stream(self):
        page = embedded_page(BOOK, 1)
        stream = self.made(page.shared + page.stream, "page.jb2e").read_bytes()
        for end, status in {b"": WHOLE, b"\n": WHOLE, b"\r\n": WHOLE, b"\0": INCOMPLETE, b"\n\n\n": INCOMPLETE}.items():
            for words in [], ["--salvage"]:
                ended = run("-", "-f", "pbm", *words, input=stream + end)
                self.assertEqual(ended.status, status, (end, ended.errors))
                self.assertEqual(pictures_of(ended.output), [decoded(EXAMPLE, 1)])

    def test_hostile_files(self):
        """Damaged files and streams, by the build with sanitizers: each run ends with a status, and a message unless it
        is 0."""
        chance = random.Random(7)
        samples = [chance.choice(ENTRIES) for _ in range(200)]
        trials = []
        for number, entry in enumerate(samples):
            name = f"{entry.name}.page.jb2" if entry.is_embedded else f"{entry.name}.jb2"
            data = damaged(chance, (SUITE / name).read_bytes())
            words = [[], ["--salvage"], ["--strict"], ["info"], ["info", "--json"]][number % 5]
            trials.append((data, [*words, "-", *([] if "info" in words else ["-f", "pbm"])]))

        def ended_of(trial):
            return run(*trial[1], input=trial[0], program=SANITIZED)

        with concurrent.futures.ThreadPoolExecutor(2) as pool:
            for trial, ended in zip(trials, pool.map(ended_of, trials)):
                self.assertIn(ended.status, (WHOLE, NOT_DONE, INCOMPLETE, OVER_LIMIT), (trial, ended.errors))
                self.assertNotIn("Sanitizer", ended.errors)
                self.assertNotIn("runtime error", ended.errors)
                if "info" not in trial[1]:
                    self.assertEqual(ended.status == WHOLE, ended.errors == "", trial)


class Faults(Case):
    def test_an_incomplete_page(self):
        """The segment that was passed over, with its name and error, and status 3; strict reading refuses the page."""
        scan = self.made(BOOK.replace(bytes.fromhex("000000360000002c000000040000000b00 08 03FF"),
                                      bytes.fromhex("000000360000002c000000040000000b00 08 0300")))
        text = f"segment 11 (immediate lossless generic region): {TEXTS['Template(InvalidAtPixel)']}"
        self.assert_ends(self.run_here(scan), INCOMPLETE, f"scan.jb2: page 2: incomplete: {text}")
        self.assertEqual(len(self.files()), 4)
        shown = picture_of_png((self.room / "scan-2.png").read_bytes())
        self.assertEqual(shown, decoded(scan, 1))
        ended = self.run_here(scan, "--strict", "--force")
        self.assert_ends(ended, NOT_DONE, "scan.jb2: page 2: segment 11 (immediate lossless generic region)")
        self.assert_ends(self.run_here(scan, "--strict", "--force", "-p", "1,3"), WHOLE)

    def messages_of(self, names):
        """The messages of files by their names, all in one run, and its status."""
        ended = self.run_here(*(SUITE / f"{name}.jb2" for name in names), "-o", "out/", "--work", "none")
        messages = {name: [] for name in names}
        for line in ended.errors.splitlines():
            path, message = line.split(": ", 1)
            messages[path.rsplit("/", 1)[1][:-4]].append(message)
        return messages, ended.status

    def test_what_lenient_reading_forgives(self):
        """Faults that lenient reading draws over or skips have their segment too."""
        drawn = {entry.name for entry in ENTRIES if entry.lenient == PICTURE} - {entry.name for entry in REFUSED}
        names = sorted(drawn & {entry.name for entry in ENTRIES if entry.strict != PICTURE} & set(FILES))
        messages, status = self.messages_of(names)
        self.assertEqual(status, INCOMPLETE)
        self.assertTrue(all(messages.values()))
        self.assertGreater(sum("segment " in "".join(lines) for lines in messages.values()), 60)

    def test_a_refused_page_has_its_segment(self):
        names = sorted({entry.name for entry in REFUSED})
        messages, status = self.messages_of(names)
        self.assertEqual(status, NOT_DONE)
        for entry in REFUSED:
            text = " ".join(messages[entry.name])
            self.assertTrue(entry.lenient in text or "neither a" in text or "no page" in text, (entry.name, text))
        self.assertGreater(sum("segment " in "".join(lines) for lines in messages.values()), len(names) // 2)

    def test_many_pages_with_faults(self):
        """The time is in proportion to the number of pages, whether they are incomplete or refused."""
        size = struct.pack(">4I", 8, 1, 0, 0)

        def run_on(count, region, status):
            data = [BOOK[:9] + struct.pack(">I", count)]
            for page in range(1, count + 1):
                for kind, content in (48, size + b"\0\0\0"), (region, size + b"\0"), (49, b""):
                    data.append(struct.pack(">IBBII", len(data), 64 | kind, 0, page, len(content)) + content)
            ended = self.run_here(self.made(b"".join(data)), "-f", "pbm", "-o", "-")
            self.assert_ends(ended, status, f"page {count}: ", f"segment {3 * count - 1} (")

        self.assert_in_proportion(lambda count: run_on(count, 38, INCOMPLETE), 100000)
        self.assert_in_proportion(lambda count: run_on(count, 0, NOT_DONE), 100000)

    def test_salvage_draws_more(self):
        scan = self.made(BOOK[:36] + b"\xff" * 4 + BOOK[40:])
        ended = self.run_here(scan)
        self.assert_ends(ended, NOT_DONE, "page 1: globals: segment 0 (symbol dictionary)", "--salvage may draw")
        ended = self.run_here(scan, "--salvage")
        self.assert_ends(ended, INCOMPLETE, "segment 0 (symbol dictionary)")
        self.assertEqual(len(self.files()), 4)

    def test_a_cut_segment_has_its_length(self):
        stream = (SUITE / "generic-0-shapes.jb2").read_bytes()
        ended = self.run_here(self.made(stream[:-40]))
        self.assert_ends(ended, INCOMPLETE, "segment 1 (immediate", "bytes are there")


class Incomplete(Case):
    """Pages that are cut off, or that refer to what isn't there: the library says which segment, by its own count."""

    # Row R9.2 of crates/jbig2_rows/README.md: a text region, number 2, whose symbol is in globals.
    SHARED = bytes.fromhex("00000001 00 00 01 0000000F 0001 00000001 00000001 5F80800040")
    PAGE = bytes.fromhex("00000000 30 00 01 00000013 00000008 00000001" + "00" * 11)
    DATA = bytes.fromhex("01 0000002D 00000008 00000001" + "00" * 9 + "0011 0000 00000001 01" + "00" * 17 + "0004")
    TEXT = PAGE + bytes.fromhex("00000002 06 20 01") + DATA

    def assert_lacks(self, data, text, *words):
        for way in [], ["--salvage"]:
            ended = run("-", "-f", "pbm", *way, *words, input=data)
            self.assertEqual(ended.status, INCOMPLETE, ended.errors)
            self.assertRegex(ended.errors, text)
            self.assertNotIn("4294967295", ended.errors)
        self.assertEqual(run("-", "-f", "pbm", "--strict", *words, input=data).status, NOT_DONE)
        return ended

    def test_a_stream_that_is_cut_off(self):
        page = embedded_page(BOOK, 1)
        stream = page.shared + page.stream
        ends = ends_of_segments(stream)
        for cut in len(stream) // 3, len(stream) // 2, len(stream) - 1:
            while cut in ends:
                cut += 1
            last, _ = header_at(stream, max(end for end in ends if end < cut))
            fault = rf"segment {last.number} .*: {END}: cut off"
            self.assert_lacks(stream[:cut], f"page 1: incomplete: {fault}")

    def test_a_cut_within_a_number(self):
        text = rf"page 1: incomplete: {END}: cut off in its header, of which 2 bytes are there"
        shared = self.made(self.SHARED, "shared.jb2g")
        ended = self.assert_lacks(self.TEXT + b"\0\0", text, "-g", shared)
        self.assertEqual(pictures_of(ended.output)[0].rows, b"\x80")

    def test_two_faults_of_one_kind(self):
        """A dictionary that pages share lacks something, and their list ends with the same error, in salvage."""
        lacking = bytes.fromhex("00000001 00 20 00 00") + self.SHARED[7:]
        junk, text = b" " * 16, TEXTS["Segment(InvalidReference)"]
        faults = f"segment 1 (symbol dictionary): {text}", f"segment {0x20202020} (unknown type): {text}: what follows"
        shared = self.made(lacking + junk, "shared.jb2g")
        ended = run("-", "-f", "pbm", "--salvage", "-g", shared, input=self.TEXT)
        self.assert_ends(ended, INCOMPLETE, *(f"page 1: incomplete: globals: {fault}" for fault in faults))
        self.assertEqual(pictures_of(ended.output)[0].rows, b"\x80")
        ended = run("-", "-f", "pbm", "-g", shared, input=self.TEXT)
        self.assert_ends(ended, NOT_DONE, f"page 1: globals: segment {0x20202020} (unknown type): {text}")
        segments = self.PAGE + lacking + self.TEXT[len(self.PAGE) :] + bytes.fromhex("00000004 31 00 01 00000000")
        header = bytes.fromhex("974A42320D0A1A0A 03")
        ended = run("-", "-f", "pbm", "--salvage", input=header + segments + junk)
        self.assert_ends(ended, INCOMPLETE, *faults)

    def test_symbols_that_are_not_there(self):
        self.assert_lacks(self.TEXT, r"page 1: incomplete: segment 2 \(immediate text region\): ")
        # One dictionary of two: the region is drawn.
        both = self.PAGE + bytes.fromhex("00000002 06 40 00 01") + self.DATA
        text = rf"page 1: incomplete: segment 2 \(immediate text region\): {INVALID_REFERENCE}$"
        ended = self.assert_lacks(both, text, "-g", self.made(self.SHARED, "shared.jb2g"))
        self.assertEqual(pictures_of(ended.output)[0].rows, b"\x80")

    def test_the_second_page_of_a_file_is_cut_off(self):
        """The first page is complete, since its end is there. The file has a message of its own."""
        first = BOOK.index(bytes.fromhex("31 00 01 00000000")) + 7
        second = BOOK.index(bytes.fromhex("31 00 02 00000000")) - 4
        meant = decoded(EXAMPLE, 0)
        for cut in first + (second - first) // 2, second - 1:
            fault = rf"segment \d+ .*: {END}: cut off"
            ended = self.assert_lacks(BOOK[:cut], f"page 2: incomplete: {fault}")
            self.assertNotIn("page 1:", ended.errors)
            self.assertRegex(ended.errors, f"(?m)^standard input: {fault}")
            self.assertEqual(pictures_of(ended.output)[0], meant)


class Jobs(Case):
    def test_the_same_for_any_number(self):
        names = [SUITE / f"{name}.jb2" for name in FILES[::40]]
        words = [*names, EXAMPLE, "-o", "-", "-f", "tiff" if HAS_TIFF else "pbm"]
        runs = [self.run_here(*words, "-j", jobs) for jobs in (1, 2, 4, 9, 1000)]
        for ended in runs[1:]:
            self.assertEqual(ended, runs[0])
        for jobs in 1, 4:
            self.run_here(*names, EXAMPLE, "-j", jobs, "-o", f"{jobs}/")
        for path in (self.room / "1").iterdir():
            self.assertEqual(path.read_bytes(), (self.room / "4" / path.name).read_bytes())


class Limits(Case):
    # A page of 1 by 65535 with a region of 65535 by 65535, which takes hours.
    WIDE = bytes.fromhex(
        "974A42320D0A1A0A 01 00000001 00000000 30 00 01 00000013 00000001 0000FFFF" + "00" * 11
        + "00000001 26 00 01 0000001A 0000FFFF 0000FFFF 000000000000000000 00 02FFFDFF02FEFEFE"
        + "00000002 31 00 01 00000000"
    )

    def test_work(self):
        wide = self.made(self.WIDE, "wide.jb2")
        text = "wide.jb2: page 1: refused by the limit of work (--work)"
        for words in [], ["--salvage"], ["--strict"], ["--work", "1000000"]:
            self.assert_ends(self.run_here(wide, *words), OVER_LIMIT, text)
        self.assertEqual(self.files(), ["wide.jb2"])
        self.assert_ends(self.run_here("info", wide), OVER_LIMIT, *[""])
        self.assert_ends(self.run_here(EXAMPLE, "--work", "1", "-o", "a/"), OVER_LIMIT, "refused by the limit of work")
        self.assert_ends(self.run_here(EXAMPLE, "--work", "1000000", "-o", "a/"), WHOLE)
        self.assert_ends(self.run_here(EXAMPLE, "--work", "none", "-o", "b/"), WHOLE)

    def test_no_other_segment_is_named_where_the_search_reaches_the_limit(self):
        """The page is drawn again with fewer segments to find the first one that fails, within the limit of work."""
        slow, bad = slow_page(500), "26 00 01 0000001A 00000008 00000008 000000000000000000 00 00000000 00000000"
        good = bad.replace("00 00000000 00000000", "00 03FFFDFF 02FEFEFE")
        regions = [f"{number:08x} {bad if number == 2 else good}" for number in range(2, 22)]
        page = self.made(slow + bytes.fromhex(" ".join(regions)), "page.jb2e")
        named = set()
        for work in range(400000, 6000000, 400000):
            ended = self.run_here(page, "--strict", "--work", work, "-f", "pbm", "-o", "-")
            named |= set(re.findall(r"segment (\d+)", ended.errors))
        self.assertEqual(named, {"2"})

    def test_the_limit_of_shared_globals_is_that_of_the_first_page_for_each_file(self):
        """So it doesn't depend on which page is drawn first."""
        page = image_of(embedded_page(BOOK, 1))
        self.made(page.stream, "a.jb2e"), self.made(page.shared, "all.jb2g")
        for jobs in 1, 4:
            ended = self.run_here("-g", "all.jb2g", "a.jb2e", "a.jb2e", "--work", "10", "-j", jobs, "-o", "out.pbm")
            self.assertEqual(ended.errors.count("globals: refused by the limit of work"), 2)

    def test_memory(self):
        text = "refused by the limit of memory (--memory)"
        self.assert_ends(self.run_here(EXAMPLE, "--memory", "1K", "-o", "a/"), OVER_LIMIT, text)
        self.assert_ends(self.run_here(EXAMPLE, "--memory", "1M", "-o", "a/"), WHOLE)
        blank = self.WIDE[:24] + b"\0\0\xff\xff\0\0\xff\xff" + self.WIDE[32:43] + self.WIDE[-11:]
        blank = self.made(blank, "blank.jb2")
        self.assert_ends(self.run_here(blank, "--memory", "100m"), OVER_LIMIT, f"blank.jb2: page 1: {text}")
        statuses = set()
        for size in (*range(200, 100000, 7000), 1 << 20):
            words = [EXAMPLE, "--memory", size, "-o", "-", "-f", "pbm"]
            first, second = (self.run_here(*words, "-j", jobs) for jobs in (1, 3))
            self.assertEqual(first, second)
            self.assertEqual(first.status == WHOLE, first.errors == "")
            statuses.add(first.status)
        self.assertEqual(statuses, {WHOLE, OVER_LIMIT})


if __name__ == "__main__":
    unittest.main()
