"""The model beside the standard's own examples, and beside what the encoder means."""
import random
import unittest

from testing.comparison.corpus import EXAMPLE
from testing.comparison.model.answers import Fault, Refused, TooMuch, Work
from testing.comparison.model.bits import Reader
from testing.comparison.model.coder import Coder
from testing.comparison.model.page import embedded_page, page_of_file
from testing.comparison.model.prefix import STANDARD, custom_table
from testing.comparison.symbols import random_document
from testing.jbig2_encoder.framing import HEADER, page_information, region_information, segment

# The test sequence of T.88, H.2.
DECISIONS = "00020051 000000C0 0352872A AAAAAAAA 82C02000 FCD79EF6 BF7FED90 4F46A3BF"
CODED = "84C73BFC E1A14304 02200000 410DBB86 F4317FFF 88FF3747 1ADB6ADF FFAC"
PAGE = segment(0, 48, page_information(8, 2))
REGION = region_information(8, 2) + bytes.fromhex("00 03FF FDFF 02FE FEFE")


def fault(data, strict=False):
    """What refuses the first page of a file, or None."""
    try:
        page_of_file(data, 0, strict)
    except Refused as refused:
        return refused.fault
    return None


class ModelTest(unittest.TestCase):
    def test_sequence_of_the_standard(self):
        coder, contexts = Coder(bytes.fromhex(CODED)), bytearray(1)
        bits = "".join(str(coder.decide(contexts, 0)) for _ in range(256))
        self.assertEqual(int(bits, 2).to_bytes(32, "big"), bytes.fromhex(DECISIONS))

    def test_example_of_the_standard(self):
        """Pages 1 and 2 show the same picture, by other segments."""
        with open(EXAMPLE, "rb") as file:
            data = file.read()
        pages = [page_of_file(data, index, strict) for index in range(3) for strict in (False, True)]
        sides = [(page.width, page.height, sum(map(sum, page.rows))) for page in pages]
        self.assertEqual(sides, [(64, 56, 1027)] * 4 + [(37, 8, 83)] * 2)
        self.assertEqual(pages[0].packed(), pages[2].packed())

    def test_documents_of_symbols(self):
        for seed in range(6):
            kind = ("coder", "prefix", "refined", "tables", "aggregates", "more")[seed]
            document = random_document(random.Random(seed), kind)
            with self.subTest(kind):
                page = page_of_file(document.finished(), 0, True, Work(10**7, 10**8))
                self.assertEqual(page.packed(), document.page.packed())

    def test_headers_that_are_refused(self):
        end = segment(2, 49, b"") + segment(3, 51, b"", page=0)
        whole = HEADER + PAGE + segment(1, 38, REGION) + end
        self.assertIsNone(fault(whole, strict=True))
        cases = {
            Fault.UNEXPECTED_EOF: HEADER[:12],
            Fault.INVALID_HEADER: b"\x98" + whole[1:],
            Fault.RESERVED_BITS: whole[:8] + b"\x11" + whole[9:],
            Fault.EMPTY_PAGE: HEADER + segment(0, 48, page_information(8, 0)),
            Fault.MISSING_PAGE_INFO: HEADER + segment(1, 38, REGION),
            Fault.BITMAP_DIMENSION: HEADER + segment(0, 48, page_information(65536, 1)),
            Fault.UNKNOWN_PAGE_HEIGHT: HEADER + segment(0, 48, page_information(8, 0xFFFFFFFF)),
            Fault.INVALID_REFERENCE: HEADER + PAGE + segment(1, 62, b"", (1,)),
            Fault.NO_SUCH_PAGE: HEADER,
        }
        for meant, data in cases.items():
            with self.subTest(meant):
                self.assertEqual(fault(data), meant)

    def test_what_strict_reading_alone_refuses(self):
        end = segment(9, 49, b"") + segment(10, 51, b"", page=0)
        cases = {
            Fault.UNEXPECTED_EOF: HEADER + PAGE + end[:-1],
            Fault.UNKNOWN_TYPE: HEADER + PAGE + segment(1, 63, b"") + end,
            Fault.PAGE_COUNT_MISMATCH: HEADER[:9] + b"\0\0\0\2" + PAGE + end,
            Fault.INVALID_END_OF_PAGE: HEADER + PAGE,
            Fault.MISSING_PAGE_ASSOCIATION: HEADER + PAGE + segment(1, 38, REGION, page=0) + end,
            Fault.INVALID_AT_PIXEL: HEADER + PAGE + segment(1, 38, REGION[:18] + bytes(8)) + end,
            Fault.UNSUPPORTED: HEADER + PAGE + segment(1, 62, b"\x80\0\0\0") + end,
            Fault.MISSING_PATTERN_DICTIONARY: HEADER + PAGE + segment(1, 22, REGION) + end,
        }
        for meant, data in cases.items():
            with self.subTest(meant):
                self.assertEqual((fault(data, True), fault(data)), (meant, None))

    def test_globals_of_an_embedded_page(self):
        table = segment(0, 53, bytes.fromhex("00 00000000 00000000 FF"), page=0)
        self.assertEqual(embedded_page(table, PAGE, True).packed(), b"\0\0")
        with self.assertRaises(Refused) as refused:
            embedded_page(table[:-1], PAGE, True)
        self.assertIs(refused.exception.fault, Fault.UNEXPECTED_EOF)

    def test_prefix_codes(self):
        reader = Reader(bytes.fromhex("0081"))
        self.assertEqual([STANDARD[1].read(reader) for _ in range(2)], [0, 2])
        self.assertIsNone(STANDARD[2].read(Reader(b"\xfc")))
        with self.assertRaises(Refused):
            custom_table(bytes.fromhex("00 00000000 00000001 FF"))

    def test_work_is_bounded(self):
        large = region_information(65535, 60000) + REGION[17:]
        with self.assertRaises(TooMuch):
            page_of_file(HEADER + PAGE + segment(1, 38, large), 0, False)


if __name__ == "__main__":
    unittest.main()
