"""The example of T.88, H.1: three pages, made from the pictures of their symbols, patterns and regions."""
from __future__ import annotations

from collections.abc import Iterator, Sequence

from testing.jbig2_encoder.bitmap import Bitmap
from testing.jbig2_encoder.dictionary import MMR, PLAIN, HeightClass, NewSymbol, SymbolDictionary, Templates, dictionary_data
from testing.jbig2_encoder.document import Document, Page
from testing.jbig2_encoder.framing import GENERIC, HALFTONE, PATTERN_DICTIONARY, SYMBOL_DICTIONARY, TEXT
from testing.jbig2_encoder.generic import GenericForm, generic_data
from testing.jbig2_encoder.halftone import Grid, HalftoneForm, draw_halftone, halftone_data, pattern_data
from testing.jbig2_encoder.prefix import STANDARD
from testing.jbig2_encoder.text import BOTTOM_LEFT, TOP_LEFT, Instance, Settings, Strip, Text, TextForm, text_data

from .case import RANDOM, SEQUENTIAL, Case, case_of
from .drawing import drawn
from .typesetting import text_bitmap

P = drawn("####. #...# #...# #...# ####. #.... #.... #....")
C = drawn(".####. #....# #..... #..... #....# .####.")
A = drawn(".####. .....# .##### #....# #....# .#####")
# The pixels that the patterns of 4 by 4 get one after the other; the pattern of 9 pixels is left out.
GROWTH = (
    (2, 1), (1, 1), (2, 2), (1, 2), (2, 0), (0, 1), (1, 3), (3, 2),
    (1, 0), (0, 2), (2, 3), (3, 1), (0, 0), (3, 0), (3, 3), (0, 3),
)
LOSSLESS = 1
# The pages' flags say that they are lossless, and no more.
FLAGS = 1


def patterns() -> list[Bitmap]:
    made = []
    for count in [count for count in range(17) if count != 9]:
        pattern = Bitmap(4, 4)
        for x, y in GROWTH[:count]:
            pattern.rows[y][x] = 1
        made.append(pattern)
    return made


def frame() -> Bitmap:
    bitmap = Bitmap(54, 44, 1)
    bitmap.combine(Bitmap(50, 40), 2, 2, 4)
    return bitmap


def put_halftone(page: Page, pattern_form: GenericForm, form: HalftoneForm) -> None:
    grid = Grid(8, 9, right=4 * 256)
    values = [[x + y for x in range(8)] for y in range(9)]
    referred = [page.put(PATTERN_DICTIONARY, pattern_data(patterns(), pattern_form))]
    bitmap = draw_halftone(values, grid, patterns(), form, 32, 36)
    data = halftone_data(values, grid, patterns(), form, (32, 36))
    page.draw(HALFTONE + LOSSLESS, bitmap, data, 16, 15, referred=referred)


def put_cap(page: Page, symbols: Sequence[Bitmap], referred: Sequence[int], form: TextForm) -> None:
    """The letters c, a, p, a and c on one strip of 4; P hangs down."""
    settings = Settings(strip_log=2, corner=BOTTOM_LEFT, offset=3)
    places = ((0, 1, 1), (8, 2, 1), (16, 0, 3), (23, 2, 1), (31, 1, 1))
    text = Text([Strip(4, [Instance(s, symbol, t) for s, symbol, t in places])], 1)
    bitmap = text_bitmap(text, settings, symbols, (37, 8))
    page.draw(TEXT + LOSSLESS, bitmap, text_data(text, settings, symbols, form), 4, 1, referred=referred)


def dictionary_of(symbols: Sequence[Bitmap], collective: str = PLAIN, **form) -> SymbolDictionary:
    classes = [HeightClass(symbols[0].height, [NewSymbol(symbol) for symbol in symbols], collective)]
    return SymbolDictionary(classes, **form)


def first_page(document: Document, shared: int) -> None:
    """Everything by prefix codes and MMR."""
    page = document.start_page(64, 56, flags=FLAGS)
    own = page.put(SYMBOL_DICTIONARY, dictionary_data(dictionary_of([C, A], prefix=True)))
    form = TextForm(True, {"IADT": (1, STANDARD[12])}, id_lengths=[2, 2, 1])
    put_cap(page, [P, C, A], [shared, own], form)
    mmr = GenericForm(mmr=True, ends_block=False)
    page.draw(GENERIC + LOSSLESS, frame(), generic_data(frame(), mmr), 4, 11)
    put_halftone(page, mmr, HalftoneForm(mmr=True))
    page.end()


def second_page(document: Document, shared: int) -> None:
    """The same by the arithmetic coder."""
    page = document.start_page(64, 56, flags=FLAGS)
    templates = Templates(GenericForm(2))
    own = page.put(SYMBOL_DICTIONARY, dictionary_data(dictionary_of([C, A], templates=templates)))
    put_cap(page, [P, C, A], [shared, own], TextForm())
    page.draw(GENERIC + LOSSLESS, frame(), generic_data(frame(), GenericForm(typical=True)), 4, 11)
    put_halftone(page, GenericForm(3), HalftoneForm(1))
    page.end()


def third_page(document: Document) -> None:
    """Letters by refinement and aggregation."""
    page = document.start_page(37, 8, flags=FLAGS)
    templates = Templates(GenericForm(2))
    base = document.put(SYMBOL_DICTIONARY, dictionary_data(dictionary_of([A], templates=templates)))
    both = Bitmap(14, 6)
    both.combine(A, 0, 0, 0)
    both.combine(C, 8, 0, 0)
    word = Text([Strip(0, [Instance(0, 0), Instance(8, 1)])])
    new = [NewSymbol(C, 0), NewSymbol(both, text=word)]
    form = {"inputs": [A], "aggregates": True, "templates": Templates(GenericForm(2)), "runs": [0, 3]}
    own = page.put(SYMBOL_DICTIONARY, dictionary_data(SymbolDictionary([HeightClass(6, new)], **form)), [base])
    settings = Settings(corner=TOP_LEFT, offset=3, refined=True, template=1)
    places = [Instance(0, 1), Instance(8, 0), Instance(16, 1, 0, P, (0, -1)), Instance(23, 2)]
    text = Text([Strip(0, places)])
    bitmap = text_bitmap(text, settings, [A, C, both], (37, 8))
    page.draw(TEXT + LOSSLESS, bitmap, text_data(text, settings, [A, C, both], TextForm()), referred=[own])
    page.end()


def example() -> Document:
    document = Document()
    shared = document.put(SYMBOL_DICTIONARY, dictionary_data(dictionary_of([P], MMR, prefix=True)))
    first_page(document, shared)
    second_page(document, shared)
    third_page(document)
    document.end_file()
    return document


def cases() -> Iterator[Case]:
    for kind in (SEQUENTIAL, RANDOM):
        yield case_of(f"example-{kind}", ("example", "several-pages"), example(), kind)
