"""Cases of what the standard leaves open: files that decoders may draw otherwise, and how they are drawn here."""
from __future__ import annotations

from collections.abc import Callable, Iterator

from testing.jbig2_encoder import t6
from testing.jbig2_encoder.bitmap import REPLACE, Bitmap
from testing.jbig2_encoder.dictionary import HeightClass, NewSymbol, SymbolDictionary, dictionary_data
from testing.jbig2_encoder.document import Document, Page
from testing.jbig2_encoder.fields import changed_by, number
from testing.jbig2_encoder.framing import GENERIC, HALFTONE, PATTERN_DICTIONARY, SYMBOL_DICTIONARY, TABLE
from testing.jbig2_encoder.generic import GenericForm, generic_data
from testing.jbig2_encoder.halftone import HalftoneForm, draw_halftone, halftone_data, pattern_data, planes_of
from testing.jbig2_encoder.prefix import custom_table, table_data
from testing.jbig2_encoder.text import Settings, TextForm

from .breaking import setting
from .case import Case, case_of, one_page
from .drawing import dots, page_picture, shapes
from .halftones import SQUARE, ramp
from .pages import COLOUR_PALETTE, put_generic
from .typesetting import WORDS, Alphabet, put_dictionary, put_text, set_words

OPEN = "left-open"


def order_of_segments() -> Iterator[Case]:
    """Segments whose numbers do not rise: here they are taken by their numbers."""
    document = Document()
    page = document.start_page(64, 40)
    put_generic(page, shapes(), operator=REPLACE)
    put_generic(page, page_picture(), operator=REPLACE)
    page.end()
    document.end_file()
    first, second = document.segments[1:3]
    document.segments[1:3] = [second, first]
    rule = "segments do not stand in the order of their numbers"
    yield case_of("open-segments-turned", OPEN, document, rule=rule)

    document = Document()
    page = document.start_page(64, 40)
    alphabet, other = Alphabet(), Alphabet(times=2)
    dictionary = put_dictionary(page, alphabet.dictionary())
    page.put(SYMBOL_DICTIONARY, dictionary_data(other.dictionary()), at=dictionary)
    text = set_words([alphabet.ids(word) for word in WORDS], alphabet.symbols, Settings())
    put_text(page, text, Settings(), alphabet.symbols, [dictionary])
    page.end()
    document.end_file()
    yield case_of("open-equal-numbers", OPEN, document, rule="two dictionaries have one number")


def data_ends() -> Iterator[Case]:
    """Coded data with more bytes than it needs, and with fewer."""
    def with_data(name: str, rule: str, edit: Callable[[bytes], bytes]) -> Case:
        def draw(page: Page) -> None:
            put_generic(page, page_picture())
            segment = page.document.segments[-1]
            segment.data = edit(segment.data)
        return one_page(f"open-{name}", OPEN, draw, rule=rule)
    rule = "bytes follow the coded data of a region"
    yield with_data("bytes-after-coded-data", rule, lambda data: data + b"\x12\x34\0")
    yield with_data("coded-data-without-marker", "coded data ends without its marker FF AC", lambda data: data[:-2])

    def draw_mmr(page: Page) -> None:
        data = generic_data(page_picture(), GenericForm(mmr=True))
        page.draw(GENERIC, page_picture(), data + b"\x12\x34\0")
    yield one_page("open-bytes-after-mmr", OPEN, draw_mmr, rule="bytes follow the MMR data of a region")

    def draw_planes(page: Page) -> None:
        patterns, form = dots(4, 4, 9), HalftoneForm(mmr=True)
        referred = [page.put(PATTERN_DICTIONARY, pattern_data(patterns, GenericForm()))]
        values = ramp(SQUARE, 9)
        bitmap = draw_halftone(values, SQUARE, patterns, form, 64, 40)
        head = halftone_data(values, SQUARE, patterns, form, (64, 40))[:21]
        planes = b"".join(t6.encoded(plane, False) for plane in planes_of(values, SQUARE, 4))
        page.draw(HALFTONE, bitmap, head + planes, referred=referred)
    rule = "planes by MMR have no ends of block"
    yield one_page("open-planes-without-ends-of-block", OPEN, draw_planes, rule=rule)


def table_past_its_maximum() -> Iterator[Case]:
    """A table whose last range goes past its maximum: here the upper line starts at the maximum itself."""
    table = custom_table(-8, [(2, 4), (2, 4)], 3, 3, 2)
    with changed_by(setting("table maximum", 20)):
        data = table_data(table)

    def draw(page: Page) -> None:
        alphabet = Alphabet()
        referred = [put_dictionary(page, alphabet.dictionary()), page.put(TABLE, data)]
        text = set_words([alphabet.ids(word) for word in WORDS], alphabet.symbols, Settings(), prefix=True)
        put_text(page, text, Settings(), alphabet.symbols, referred, TextForm(True, {"IADS": (3, table)}))
    rule = "the last range of a table goes past its maximum"
    yield one_page("open-table-past-its-maximum", OPEN, draw, rule=rule)


def empty() -> Iterator[Case]:
    """Regions and symbols without pixels."""
    for width, height in ((0, 5), (5, 0), (0, 0)):
        def draw(page: Page) -> None:
            put_generic(page, page_picture())
            put_generic(page, Bitmap(width, height), 3, 3)
        yield one_page(f"open-region-of-{width}-by-{height}", OPEN, draw, rule="a region has no pixels")
    for prefix in (False, True):
        def draw_space(page: Page) -> None:
            """The words, and between their letters a symbol of no width, which moves S back by one."""
            alphabet = Alphabet()
            symbols = [Bitmap(0, 1), *alphabet.symbols]
            classes = [HeightClass(symbol.height, [NewSymbol(symbol)]) for symbol in symbols]
            classes[:2] = [HeightClass(1, classes[0].symbols + classes[1].symbols)]
            referred = [put_dictionary(page, SymbolDictionary(classes))]
            lines = [[at for letter in alphabet.ids(word) for at in (letter + 1, 0)] for word in WORDS]
            text = set_words(lines, symbols, Settings(), prefix=prefix)
            put_text(page, text, Settings(), symbols, referred, TextForm(prefix))
        name = f"open-symbol-of-no-width-{'prefix' if prefix else 'coder'}"
        yield one_page(name, OPEN, draw_space, rule="a symbol has no width")


def others() -> Iterator[Case]:
    def draw_palette(page: Page) -> None:
        page.put(COLOUR_PALETTE, number(0x01020304) * 4)
        put_generic(page, page_picture())
    yield one_page("open-colour-palette", OPEN, draw_palette, rule="a segment of the colour extension")

    def draw_flags(page: Page) -> None:
        with changed_by(setting("generic flags", 0xE0)):
            put_generic(page, page_picture())
    rule = "reserved bits of a generic region's flags are set"
    yield one_page("open-generic-reserved-flags", OPEN, draw_flags, rule=rule)

    def draw_stripe(page: Page) -> None:
        put_generic(page, page_picture())
        page.end_stripe(39)
    rule = "a page without stripes has the end of one"
    yield one_page("open-stripe-of-page-without-stripes", OPEN, draw_stripe, rule=rule)


def cases() -> Iterator[Case]:
    for make in (order_of_segments, data_ends, table_past_its_maximum, empty, others):
        yield from make()
