"""`info`: pages and segments beside the suite's own reader, and faults at their segment and byte."""
from __future__ import annotations

import json
import struct
import unittest

from support import BOOK, EXAMPLE, HAS_PDF, INCOMPLETE, NOT_DONE, SUITE, WHOLE, Case

from conformance.runner.embedding import embedded_page, image_of
from conformance.runner.manifest import PICTURE, read_manifest
from conformance.runner.pdf import joined, pdf_of, stream_object
from conformance.runner.segments import segments_of_file
from testing.error_texts import TEXTS

ENTRIES = read_manifest(SUITE / "manifest.tsv")


class Info(Case):
    def listed(self, *words, status=WHOLE):
        ended = self.run_here("info", "--json", *words)
        self.assertEqual(ended.status, status, ended.errors)
        return json.loads(ended.output)

    def test_the_suite(self):
        files = sorted({entry.name for entry in ENTRIES if not entry.is_embedded})
        paths = [SUITE / f"{name}.jb2" for name in files]
        readable = [path for path in paths if path.read_bytes()[:8] == BOOK[:8]]
        documents = self.listed(*readable, status=NOT_DONE)
        self.assertEqual([document["file"] for document in documents], list(map(str, readable)))
        compared = 0
        for document, path in zip(documents, readable):
            meant = segments_of_file(path.read_bytes())
            found = document["segments"]
            compared += len(meant)
            if "list_ends" not in document:
                self.assertEqual(len(found), len(meant), path)
            for one, other in zip(found, meant):
                known = one["number"], one["type"], one["page"], one["length"]
                self.assertEqual(known, (other.number, other.kind, other.page, len(other.data)), path)
                data = path.read_bytes()
                self.assertEqual(data[one["data_byte"] : one["data_byte"] + one["length"]], other.data)
                self.assertEqual(data[one["byte"] : one["byte"] + 4], other.number.to_bytes(4, "big"))
        self.assertGreater(compared, 4000)
        self.compare_states(documents)

    def compare_states(self, documents):
        states = {}
        for document in documents:
            for page in document["pages"]:
                name = document["file"].rsplit("/", 1)[1][:-4]
                states[name, page["page"] - 1] = page["state"], bool(document["faults"])
        for entry in ENTRIES:
            state, has_faults = states.get((entry.name, entry.page), ("refused", True))
            if entry.strict == PICTURE and not entry.is_embedded:
                self.assertEqual((state, has_faults), ("whole", False), entry.label)
            elif entry.lenient == PICTURE and not entry.is_embedded:
                self.assertTrue(state == "incomplete" or has_faults, entry.label)

    def test_the_example(self):
        [document] = self.listed(EXAMPLE)
        known = document["kind"], document["organisation"], document["stated_pages"]
        self.assertEqual(known, ("file", "sequential", 3))
        first = document["pages"][0]
        known = first["width"], first["height"], first["state"], first["combination"]
        self.assertEqual(known, (64, 56, "whole", "or"))
        text = document["segments"][3]
        self.assertEqual(text["name"], "immediate lossless text region")
        self.assertEqual(text["refers_to"], [0, 2])
        self.assertEqual(text["region"], {"width": 37, "height": 8, "x": 4, "y": 1, "operator": "or"})
        self.assertEqual(text["coding"], "Huffman, 5 instances")
        table = self.run_here("info", EXAMPLE).output.decode()
        self.assertIn("page 3: whole, 37 by 8 pixels, no resolution, white, combined by or\n", table)
        self.assertRegex(table, r"\n +17  symbol dictionary +3 +745 +32 +16 +- +arithmetic, template 2, refinement and")
        self.assertEqual(len(table.splitlines()), 1 + 3 + 1 + 21)

    def test_resolution_and_stripes(self):
        place = BOOK.index(bytes.fromhex("00000013 00000040 00000038")) + 12
        data = BOOK[:place] + (11811).to_bytes(4, "big") * 2 + BOOK[place + 8 :]
        scan = self.made(data)
        self.assertEqual(self.listed(scan)[0]["pages"][0]["x_resolution"], 11811)
        self.assertIn(b"page 1: whole, 64 by 56 pixels, 300.0 dpi, white", self.run_here("info", scan).output)
        drawn = [entry for entry in ENTRIES if entry.strict == PICTURE]
        striped = next(entry.name for entry in drawn if "stripes" in "".join(entry.features))
        self.assertIn(b"striped (at most", self.run_here("info", SUITE / f"{striped}.jb2").output)

    def test_faults_have_segment_and_byte(self):
        header = bytes.fromhex("000000360000002c000000040000000b00 08 03FF")
        place = BOOK.index(bytes.fromhex("0000000b 27 00 02 00000023"))
        scan = self.made(BOOK.replace(header, header[:-1] + b"\0"))
        [document] = self.listed(scan, status=INCOMPLETE)
        [fault] = document["pages"][1]["faults"]
        known = fault["segment"], fault["byte"], fault["error"], fault["text"]
        self.assertEqual(known, (11, place, 26, TEXTS["Template(InvalidAtPixel)"]))
        table = self.run_here("info", scan).output.decode().splitlines()
        row = next(row for row, line in enumerate(table) if line.startswith("        11  immediate lossless generic"))
        what = f"segment 11 (immediate lossless generic region): {TEXTS['Template(InvalidAtPixel)']}"
        self.assertEqual(table[row + 1].strip(), f"^ FAULT at byte {place}: {what}")

    def test_a_fault_of_a_file_and_of_its_page_has_one_line_among_the_segments(self):
        place = BOOK.index(bytes.fromhex("0000000b 27 00 02 00000023"))
        table = self.run_here("info", self.made(BOOK[: place + 18])).output
        self.assertEqual(table.count(b"^ FAULT at byte %d: " % place), 1)

    def test_a_file_that_is_refused_is_listed(self):
        place = BOOK.index(bytes.fromhex("0000000b 27 00 02 00000023"))
        scan = self.made(BOOK[: place + 5] + b"\xa0" + BOOK[place + 6 :])
        [document] = self.listed(scan, status=NOT_DONE)
        self.assertEqual(len(document["segments"]), 11)
        [fault] = document["faults"]
        known = fault["segment"], fault["byte"], fault["text"]
        self.assertEqual(known, (11, place, TEXTS["Segment(InvalidReferredCount)"]))
        [document] = self.listed(scan, "--salvage", status=INCOMPLETE)
        self.assertEqual([page["state"] for page in document["pages"]], ["whole", "incomplete"])

    def test_unknown_lengths_after_all_headers(self):
        sizes = [3, 250, 3000]
        kinds = [(48, 19), *[(38, 0xFFFFFFFF)] * len(sizes), (49, 0), (51, 0)]
        headers = [struct.pack(">IBBBI", number, kind, 0, 1, size) for number, (kind, size) in enumerate(kinds)]
        page = struct.pack(">IIIIBH", 8, 8, 0, 0, 0, 0)
        region = struct.pack(">IIIIBBbb", 8, 8, 0, 0, 0, 6, 2, -1)
        regions = [region + bytes([1]) * size + bytes.fromhex("FFAC 00000008") for size in sizes]
        data = [page, *regions, b"", b""]
        whole = BOOK[:8] + b"\0" + struct.pack(">I", 1) + b"".join(headers + data)
        [document] = self.listed(self.made(whole))
        self.assertEqual([one["length"] for one in document["segments"]], [len(one) for one in data])
        self.assertEqual([one["length_is_unknown"] for one in document["segments"]], [kind == 38 for kind, _ in kinds])
        [document] = self.listed(self.made(whole[:-1]), status=NOT_DONE)
        self.assertEqual(len(document["segments"]), 3)
        self.assertEqual((document["list_ends"]["byte"], document["list_ends"]["error"]), (13 + 3 * 11, 13))

    @unittest.skipUnless(HAS_PDF, "libqpdf is not here")
    def test_a_pdf_file(self):
        images = [image_of(embedded_page(BOOK, index)) for index in (1, 1, 2)]
        scan = self.made(pdf_of(images), "scan.pdf")
        [document] = self.listed(scan)
        self.assertEqual((document["kind"], document["pdf_pages"], len(document["globals"])), ("pdf", 3, 2))
        self.assertEqual([len(page["segments"]) for page in document["pages"]], [4, 4, 2])
        self.assertEqual(document["pages"][0]["globals"], document["globals"][0]["object"])
        self.assertEqual(len(self.listed(scan, "-p", "2")[0]["pages"]), 1)
        table = self.run_here("info", scan).output.decode()
        self.assertIn("scan.pdf: a PDF file", table)
        self.assertIn("globals in object", table)

    @unittest.skipUnless(HAS_PDF, "libqpdf is not here")
    def test_images_of_one_page_have_their_own_faults(self):
        """The segments of the second image lie where those of the first one do, which is cut off."""
        page = image_of(embedded_page(BOOK, 1))
        words = "/Type /XObject /Subtype /Image /Filter /JBIG2Decode /DecodeParms << /JBIG2Globals 4 0 R >>"
        scan = self.made(joined([
            b"<< /Type /Catalog /Pages 2 0 R >>",
            b"<< /Type /Pages /Count 1 /Kids [3 0 R] >>",
            b"<< /Type /Page /Parent 2 0 R /Resources << /XObject << /A 5 0 R /B 6 0 R >> >> >>",
            stream_object("", page.shared),
            stream_object(words, page.stream[:-1]),
            stream_object(words, page.stream),
        ]), "scan.pdf")
        table = self.run_here("info", scan).output.decode()
        first, second = table.split("page 1, image 2: whole")
        self.assertEqual((first.count("FAULT at"), second.count("FAULT")), (1, 0))

    @unittest.skipUnless(HAS_PDF, "libqpdf is not here")
    def test_a_damaged_pdf_file(self):
        data = pdf_of([image_of(embedded_page(BOOK, 1))])
        scan = self.made(data.replace(b"startxref\n", b"startxref\n9"), "scan.pdf")
        [document] = self.listed(scan, status=INCOMPLETE)
        self.assertEqual([fault["text"] for fault in document["faults"]], ["the PDF file is damaged"])
        self.assertIn(b"\n  FAULT: the PDF file is damaged: ", self.run_here("info", scan).output)

    def test_a_page_that_is_not_there(self):
        ended = self.run_here("info", "--json", EXAMPLE, "-p", "2,9")
        self.assert_ends(ended, NOT_DONE, "t88-h1.jb2: no page 9, the last is 3")
        self.assertEqual(len(json.loads(ended.output)[0]["pages"]), 1)

    def test_names_are_escaped(self):
        scan = self.made(BOOK, 'a"\\\33\x9b\udcff\xe9\u201b.jb2')
        [document] = self.listed(scan.name)
        self.assertEqual(document["file"], 'a"\\\33\x9b\ufffd\xe9\u201b.jb2')
        self.assertNotIn("\x9b", self.run_here("info", "--json", scan.name).output.decode())
        listed, refused = self.run_here("info", scan.name), self.run_here(scan.name, "-p", "9")
        for shown in listed.output.decode(errors="replace"), refused.errors:
            self.assertIn("\xe9\u201b.jb2", shown)
            self.assertNotRegex(shown, "[\33\x9b]")

    def test_unreadable_inputs(self):
        ended = self.run_here("info", "--json", "gone.jb2")
        self.assert_ends(ended, NOT_DONE, "gone.jb2: can't be read")
        self.assertEqual(json.loads(ended.output), [])


if __name__ == "__main__":
    unittest.main()
