"""What is mended in a file of which lenient reading says nothing: each reason by itself, and faults that are none of them."""
import dataclasses
import unittest

from testing.comparison import forgiven
from testing.comparison.model.answers import Refused
from testing.comparison.model.page import page_of_file
from testing.jbig2_encoder.framing import HEADER, page_information, region_information, segment

PAGE = segment(0, 48, page_information(8, 4))
# Rows of T.6, each as the white one above it.
REGION = region_information(8, 4) + b"\1\xf0"
DRAWN = segment(1, 38, REGION)
END = segment(2, 49, b"")
PAGES = (b"\0", b"\1", b"\2")


@dataclasses.dataclass(frozen=True)
class Read:
    """A page as the model reads it."""

    number: int
    rows: str


def read(data, strict):
    """Page 1 of a file, or the name of its fault."""
    try:
        return Read(1, str(page_of_file(data, 0, strict).rows))
    except Refused as refused:
        return "".join(word.capitalize() for word in refused.fault.name.split("_"))


def reasons_of(data):
    """Why strict reading refuses a page that lenient reading draws."""
    fault = read(data, True)
    return forgiven.reasons_of(data, read(data, False), fault, lambda mended, _: read(mended, True))


def on_page(page, whole):
    """A segment of another page, of one byte."""
    return whole[:6] + PAGES[page] + whole[7:]


class ForgivenTest(unittest.TestCase):
    def test_reasons(self):
        other = on_page(2, segment(5, 48, page_information(8, 4)[:8] + bytes(11)))
        unknown = segment(1, 39, REGION + b"\0\0" + bytes([0, 0, 0, 4]))
        unknown = unknown[:7] + b"\xff" * 4 + unknown[11:]
        texts = {
            "the count of pages": HEADER[:-1] + b"\7" + PAGE + DRAWN + END,
            "ends of pages": HEADER + PAGE + DRAWN,
            "a region, or type 48 to 50, of page 0": HEADER + on_page(0, segment(7, 36, REGION)) + PAGE + DRAWN + END,
            "an unknown length of another type than 38": HEADER + PAGE + unknown + END,
            "another page, or what follows the page's end": HEADER[:-1] + b"\2" + PAGE + DRAWN + END + other[:-3],
        }
        for reason, data in texts.items():
            with self.subTest(reason):
                self.assertIsInstance(read(data, False), Read)
                self.assertIsInstance(read(data, True), str)
                self.assertEqual(reasons_of(data), reason)

    def test_several_reasons(self):
        data = HEADER[:-1] + b"\7" + on_page(0, segment(7, 36, REGION)) + PAGE + DRAWN
        self.assertEqual(reasons_of(data), "a region, or type 48 to 50, of page 0; ends of pages; the count of pages")

    def test_what_a_page_lacks_is_no_reason(self):
        whole = HEADER + PAGE + DRAWN + END
        for data in (
            # The region is cut off, its data or its number; its type is not listed; it refers to what isn't there.
            HEADER + PAGE + DRAWN[:-1],
            HEADER + PAGE + DRAWN[:3],
            whole.replace(DRAWN, segment(1, 33, REGION)),
            whole.replace(DRAWN, segment(1, 6, REGION, (0,)) + DRAWN),
        ):
            self.assertIsInstance(read(data, False), Read)
            self.assertIsNone(reasons_of(data))

    def test_another_page_is_no_reason(self):
        data = HEADER[:-1] + b"\7" + PAGE + DRAWN + END
        page = dataclasses.replace(read(data, False), rows="other")
        self.assertIsNone(forgiven.reasons_of(data, page, "PageCountMismatch", lambda mended, _: read(mended, True)))


if __name__ == "__main__":
    unittest.main()
