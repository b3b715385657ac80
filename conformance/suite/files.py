"""Cases of files: segment numbers and headers, several pages, globals, and the three organisations."""
from __future__ import annotations

import itertools
from collections.abc import Iterator, Sequence

from testing.jbig2_encoder.dictionary import MMR, dictionary_data
from testing.jbig2_encoder.document import Document, Page
from testing.jbig2_encoder.framing import GENERIC, HALFTONE, PATTERN_DICTIONARY, REFINEMENT, SYMBOL_DICTIONARY, TABLE
from testing.jbig2_encoder.generic import GenericForm, generic_data
from testing.jbig2_encoder.halftone import HalftoneForm, draw_halftone, halftone_data, pattern_data
from testing.jbig2_encoder.prefix import table_data
from testing.jbig2_encoder.refinement import RefinementForm, refinement_data
from testing.jbig2_encoder.text import Settings, TextForm

from .case import EMBEDDED, RANDOM, SEQUENTIAL, Case, Drawing, case_of, one_page, page_document
from .drawing import changed, dithered, dots, page_picture, shapes
from .halftones import SQUARE, ramp
from .pages import put_generic
from .refinements import keep_picture
from .symbols import aggregates, refining, show_made
from .tables import wide_table
from .typesetting import WORDS, Alphabet, put_dictionary, put_text, set_words


def put_words(page: Page, referred: Sequence[int], alphabet: Alphabet, prefix: bool = False, **more) -> None:
    """Adds the words as a text region that refers to these dictionaries."""
    text = set_words([alphabet.ids(word) for word in WORDS], alphabet.symbols, Settings(), prefix=prefix)
    put_text(page, text, Settings(), alphabet.symbols, referred, TextForm(prefix), **more)


def draw_words(page: Page) -> None:
    alphabet = Alphabet()
    put_words(page, [put_dictionary(page, alphabet.dictionary())], alphabet)


def draw_halftone_ramp(page: Page, pattern_form: GenericForm = GenericForm()) -> None:
    patterns, form = dots(4, 4, 9), HalftoneForm()
    referred = [page.put(PATTERN_DICTIONARY, pattern_data(patterns, pattern_form))]
    bitmap = draw_halftone(ramp(SQUARE, 9), SQUARE, patterns, form, 64, 40)
    data = halftone_data(ramp(SQUARE, 9), SQUARE, patterns, form, (64, 40))
    page.draw(HALFTONE, bitmap, data, referred=referred)


def draw_refined(page: Page) -> None:
    reference = page_picture()
    bitmap = changed(reference)
    data = refinement_data(bitmap, reference, (0, 0), RefinementForm())
    page.draw(REFINEMENT, bitmap, data, referred=[keep_picture(page, reference)])


def draw_mmr(page: Page) -> None:
    page.draw(GENERIC, shapes(), generic_data(shapes(), GenericForm(mmr=True)))


def draw_prefix(page: Page) -> None:
    alphabet = Alphabet()
    put_words(page, [put_dictionary(page, alphabet.dictionary(MMR, prefix=True))], alphabet, True)


def draw_custom(page: Page) -> None:
    """Words by a custom table, which stands as a segment of its own."""
    alphabet, table = Alphabet(), wide_table(out_of_band=True)
    referred = [put_dictionary(page, alphabet.dictionary()), page.put(TABLE, table_data(table))]
    text = set_words([alphabet.ids(word) for word in WORDS], alphabet.symbols, Settings(), prefix=True)
    form = TextForm(True, {"IADS": (3, table)})
    put_text(page, text, Settings(), alphabet.symbols, referred, form)


DRAWINGS = {
    "generic": lambda page: put_generic(page, page_picture()), "mmr": draw_mmr, "words": draw_words,
    "prefix": draw_prefix, "halftone": draw_halftone_ramp, "refinement": draw_refined, "custom-table": draw_custom,
}
# Dictionaries and tables, which may belong to no page.
SHARED = {name: DRAWINGS[name] for name in ("words", "prefix", "halftone", "custom-table")}
SHARED.update({
    "refined-symbols": lambda page: show_made(page, refining(False, RefinementForm(1))),
    "aggregates": lambda page: show_made(page, aggregates(False, RefinementForm(1))),
    "patterns-mmr": lambda page: draw_halftone_ramp(page, GenericForm(mmr=True)),
})


def organisations() -> Iterator[Case]:
    for name, draw in DRAWINGS.items():
        yield one_page(f"random-access-{name}", "random-access", draw, kind=RANDOM)
        yield one_page(f"embedded-{name}", "embedded", draw, kind=EMBEDDED)


class Shared:
    """Takes dictionaries and tables for no page in place of a page, and all else for the page."""

    def __init__(self, page: Page) -> None:
        self.page = page
        self.picture = page.picture

    def put(self, kind: int, data: bytes, referred: Sequence[int] = ()) -> int:
        return self.page.document.put(kind, data, referred, 0)

    def draw(self, *arguments, **more) -> int:
        return self.page.draw(*arguments, **more)


def shared_document(draw: Drawing) -> Document:
    """A document whose page has its dictionaries and tables outside of it."""
    return page_document(lambda page: draw(Shared(page)))


def globals_of_files() -> Iterator[Case]:
    for (name, draw), kind in itertools.product(SHARED.items(), (SEQUENTIAL, RANDOM, EMBEDDED)):
        front = "embedded-globals" if kind == EMBEDDED else "globals"
        yield case_of(f"globals-{kind}-{name}", front, shared_document(draw), kind)
    document = Document()
    alphabet = Alphabet()
    shared = document.put(SYMBOL_DICTIONARY, dictionary_data(alphabet.dictionary()))
    for _ in range(2):
        page = document.start_page(64, 40)
        put_words(page, [shared], alphabet)
        page.end()
    document.end_file()
    yield case_of("globals-of-two-pages", ("globals", "several-pages"), document)
    for kind in (SEQUENTIAL, EMBEDDED):
        yield case_of(f"globals-and-own-{kind}", "embedded-globals" if kind == EMBEDDED else "globals", both(), kind)


def both() -> Document:
    """A page whose text has letters from a global dictionary and from one of its own."""
    document = Document()
    first, second = Alphabet("JBIG2"), Alphabet("T.88:lose")
    shared = document.put(SYMBOL_DICTIONARY, dictionary_data(first.dictionary()))
    page = document.start_page(64, 40)
    own = put_dictionary(page, second.dictionary())
    symbols = first.symbols + second.symbols
    names = first.names + second.names
    lines = [[names.index(letter) for letter in word] for word in WORDS]
    put_text(page, set_words(lines, symbols, Settings()), Settings(), symbols, [shared, own])
    page.end()
    document.end_file()
    return document


def numbers() -> Iterator[Case]:
    """Segment numbers around the sizes of references: the dictionary has the first one, and the text the next."""
    for first in (0, 254, 255, 256, 257, 300, 65534, 65535, 65536, 65537, 70000, (1 << 32) - 6):
        document = page_document(draw_words, first=first)
        yield case_of(f"segment-numbers-from-{first}", "segment-numbers", document)
    document = Document()
    page = document.start_page(64, 40)
    alphabet = Alphabet()
    dictionary = put_dictionary(page, alphabet.dictionary())
    document.next = 1000
    put_words(page, [dictionary], alphabet)
    document.next = 99999
    page.end()
    document.end_file()
    yield case_of("segment-numbers-with-gaps", "segment-numbers", document)


def headers() -> Iterator[Case]:
    """Long forms of the count of references, of the page association, and flags of retention."""
    for count in (1, 4, 5, 7, 8, 9, 15, 16, 40):
        def draw(page) -> int:
            parts = [Alphabet(WORDS[0][at % 5]) for at in range(count)]
            referred = [put_dictionary(page, part.dictionary()) for part in parts]
            symbols = sum((part.symbols for part in parts), [])
            lines = [list(range(at, min(at + 10, count))) for at in range(0, count, 10)]
            text = set_words(lines, symbols, Settings())
            put_text(page, text, Settings(), symbols, referred, long_form=True)
        yield one_page(f"segment-{count}-references-long-form", "segment-header", draw, (80, 50))
    for page_number in (2, 255, 256, 70000, (1 << 32) - 1):
        yield one_page(f"segment-page-{page_number}", "segment-header", draw_words, number=page_number)
    document = page_document(draw_words)
    for segment in document.segments:
        segment.kept = (2 << len(segment.referred)) - 1
    yield case_of("segment-all-retained", "segment-header", document)


def several_pages() -> Iterator[Case]:
    drawings = list(DRAWINGS.items())
    for count, kind in itertools.product((2, 3, 7), (SEQUENTIAL, RANDOM)):
        document = Document()
        for _, draw in drawings[:count]:
            page = document.start_page(64, 40)
            draw(page)
            page.end()
        document.end_file()
        yield case_of(f"pages-{count}-{kind}", ("several-pages",), document, kind)
    document = Document()
    for width, colour in ((30, 0), (64, 1), (9, 0), (100, 1)):
        page = document.start_page(width, 25, colour)
        put_generic(page, shapes(width, 20), 0, 3, 2)
        page.end()
    document.end_file()
    yield case_of("pages-of-other-sizes", "several-pages", document)
    document = Document()
    for number, size in ((3, 40), (7, 64), (300, 20)):
        page = document.start_page(size, 30, number=number)
        put_generic(page, dithered(size, 30))
        page.end()
    document.end_file()
    yield case_of("pages-with-gaps", "several-pages", document)
    document = Document()
    pages = [document.start_page(50 + at, 30) for at in range(2)]
    for at, page in enumerate(pages):
        put_generic(page, shapes(20 + at, 20), 3, 3)
    for page in pages:
        page.end()
    document.end_file()
    yield case_of("pages-interleaved", "several-pages", document)


def file_headers() -> Iterator[Case]:
    for kind, name in ((SEQUENTIAL, "sequential"), (RANDOM, "random")):
        document = page_document(draw_words)
        pictures = [document.pages[0].picture]
        data = document.random_access(None) if kind == RANDOM else document.sequential(None)
        yield Case(f"file-unknown-page-count-{name}", ("file-header",), {".jb2": data}, pictures, kind)
        whole = document.random_access() if kind == RANDOM else document.sequential()
        features, rule = ("file-header",), "bytes follow the end of file"
        more = bytes(range(1, 30))
        yield Case(f"file-bytes-after-end-{name}", features, {".jb2": whole + more}, pictures, kind, rule=rule)
    document = page_document(draw_words)
    pictures = [document.pages[0].picture]
    del document.segments[-1]
    files = {".jb2": document.sequential()}
    rule = "a sequential file has no end of file segment"
    yield Case("file-without-end-of-file", ("file-header",), files, pictures, rule=rule)


def cases() -> Iterator[Case]:
    for make in (organisations, globals_of_files, numbers, headers, several_pages, file_headers):
        yield from make()
