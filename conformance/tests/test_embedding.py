"""Pages as streams, as PDF files and as files of their own."""
import pathlib
import tempfile
import unittest

from conformance.runner.embedding import Embedded, embedded_page, file_of, pdf_of, size_in_pdf
from conformance.runner.manifest import read_sample
from conformance.runner.mistake import Mistake
from conformance.runner.segments import cut, in_random_access, parts_of, segments_of_file, sequential, unknown_length
from conformance.tests.small_suite import CROSS, TABLE, written
from testing.jbig2_encoder.framing import HEADER, page_information, segment


class EmbeddingTest(unittest.TestCase):
    @classmethod
    def setUpClass(cls):
        cls.folder = tempfile.TemporaryDirectory()
        cls.addClassCleanup(cls.folder.cleanup)
        cls.samples = written(pathlib.Path(cls.folder.name))

    def test_organisations_give_one_stream(self):
        streams = {self.samples[name].page.stream for name in ("sequential", "random")}
        self.assertEqual(len(streams), 1)
        kinds = [part.kind for part in sequential(streams.pop())]
        self.assertEqual(kinds, [48, 38])

    def test_second_page_becomes_the_first(self):
        parts = sequential(self.samples["second"].page.stream)
        self.assertEqual([(part.page, part.kind) for part in parts], [(1, 48), (1, 38)])
        self.assertEqual(size_in_pdf(self.samples["second"].page), (3, 3))

    def test_file_of_an_embedded_page(self):
        parts = segments_of_file(self.samples["shared"].file)
        self.assertEqual([(part.page, part.kind) for part in parts], [(0, 53), (1, 48), (1, 38), (1, 49)])
        again = embedded_page(self.samples["shared"].file, 0)
        self.assertEqual(again, Embedded(self.samples["shared"].page.stream, TABLE))

    def test_long_references_and_associations(self):
        data = segment(300, 6, b"xy", (1, 2, 3, 4, 5), page=700)
        part = sequential(data + b"\0\0")[0]
        self.assertEqual((part.number, part.kind, part.page, part.data), (300, 6, 700, b"xy"))
        self.assertEqual(part.on_page(700), data)

    def test_unknown_length(self):
        data = bytes(17) + b"\0" + bytes(8) + b"\xff\xac\0\0\0\1rest"
        self.assertEqual(unknown_length(data, 0), 32)
        self.assertEqual(unknown_length(bytes(17) + b"\1" + b"ab\0\0\0\0\0\1", 0), 26)

    def test_page_without_height(self):
        page = Embedded(segment(0, 48, page_information(9, 0xFFFFFFFF)))
        self.assertEqual(size_in_pdf(page, 3), (9, 3))
        self.assertEqual(size_in_pdf(Embedded(b"")), (64, 64))

    def test_pdf_names_its_places(self):
        pdf = pdf_of(self.samples["shared"].page)
        table = int(pdf.rsplit(b"startxref\n", 1)[1].split()[0])
        self.assertTrue(pdf[table:].startswith(b"xref\n0 7\n"))
        places = [int(line[:10]) for line in pdf[table:].splitlines()[3:9]]
        for number, place in enumerate(places, 1):
            self.assertTrue(pdf[place:].startswith(b"%d 0 obj\n" % number))
        self.assertIn(TABLE, pdf)
        self.assertIn(f"/Width 9 /Height {len(CROSS)} ".encode(), pdf)

    def test_files_are_cut_as_they_were_written(self):
        parts = [segment(0, 48, page_information(8, 1)), segment(300, 38, b"abc", (1, 2))]
        parts.append(segment(301, 51, b"", page=0))
        data = HEADER + b"".join(parts)
        self.assertEqual(cut(data), (HEADER, parts))
        header, pieces = in_random_access(HEADER, parts)
        self.assertEqual(list(parts_of(header + b"".join(pieces))), list(parts_of(data)))
        self.assertEqual(cut(header + b"".join(pieces)), (header, [b"".join(pieces)]))

    def test_what_is_cut_off_is_the_last_piece(self):
        first, second = segment(0, 48, page_information(8, 1)), segment(1, 38, b"abc")
        for end in 1, 9, 12:
            self.assertEqual(cut(HEADER + first + second[:end]), (HEADER, [first, second[:end]]))
        self.assertEqual(list(parts_of(HEADER + first + second[:12])), [(48, page_information(8, 1)), (38, b"a")])
        self.assertEqual(list(parts_of(HEADER + first + second[:9])), [(48, page_information(8, 1))])

    def test_bytes_that_are_no_segments(self):
        self.assertEqual(segments_of_file(b"no file"), [])
        self.assertEqual(embedded_page(HEADER + b"abc", 0).stream, b"abc")
        self.assertEqual(file_of(Embedded(b"abc")), HEADER + b"abc")

    def test_other_files_are_refused(self):
        folder = pathlib.Path(self.folder.name)
        (folder / "sequential.jb2").write_bytes(HEADER)
        with self.assertRaises(Mistake):
            read_sample(folder, self.samples["sequential"].entry)


if __name__ == "__main__":
    unittest.main()
