"""Letters as symbols, and words that are set of them."""
from __future__ import annotations

import dataclasses
from collections.abc import Sequence

from testing.jbig2_encoder import dictionary as dictionaries
from testing.jbig2_encoder.bitmap import Bitmap
from testing.jbig2_encoder.dictionary import HeightClass, NewSymbol, SymbolDictionary
from testing.jbig2_encoder.document import Page
from testing.jbig2_encoder.framing import SYMBOL_DICTIONARY, TABLE, TEXT
from testing.jbig2_encoder.prefix import table_data
from testing.jbig2_encoder.text import BOTTOM, Choices, Instance, Settings, Strip, Text, TextForm, draw_text, text_data

from .drawing import letter

WORDS = ("JBIG2", "T.88:", "lossless")


class Alphabet:
    """The letters of some words as bitmaps in the order of height classes: by height, and then by width."""

    def __init__(self, letters: str = "".join(WORDS), times: int = 1) -> None:
        glyphs = {name: letter(name, times) for name in sorted(set(letters))}
        self.names = sorted(glyphs, key=lambda name: (glyphs[name].height, glyphs[name].width, name))
        self.symbols = [glyphs[name] for name in self.names]

    def ids(self, word: str) -> list[int]:
        return [self.names.index(name) for name in word]

    def classes(self, collective: str = dictionaries.PLAIN) -> list[HeightClass]:
        return classes_of(self.symbols, collective)

    def dictionary(self, collective: str = dictionaries.PLAIN, **form) -> SymbolDictionary:
        return SymbolDictionary(self.classes(collective), **form)


def classes_of(symbols: Sequence[Bitmap], collective: str = dictionaries.PLAIN) -> list[HeightClass]:
    """Height classes of bitmaps in their order; a new one starts where the height changes."""
    classes = []
    for symbol in symbols:
        if not classes or classes[-1].height != symbol.height:
            classes.append(HeightClass(symbol.height, [], collective))
        classes[-1].symbols.append(NewSymbol(symbol))
    return classes


@dataclasses.dataclass
class Layout:
    """How words are set: each one on a line of its own along S, the lines `step` apart along T."""

    start: int = 2
    first_line: int = 3
    step: int = 11
    gap: int = 1
    waves: int = 1
    initial: int = None


def set_words(
    lines: Sequence[Sequence[int]], symbols: Sequence[Bitmap], settings: Settings, layout: Layout = Layout(),
    prefix: bool = False
) -> Text:
    """A text of lines of symbol ids. Within a strip, the letters of a line stand on T up and down by turns."""
    size = 1 << settings.strip_log
    text = Text([], layout.initial if layout.initial is not None else int(prefix))
    for at, ids in enumerate(lines):
        t = layout.first_line + at * layout.step
        if settings.corner in BOTTOM and not settings.transposed:
            t += max((symbols[one].height for one in ids), default=1) - 1
        strip, s = Strip(t - t % size, []), layout.start
        for place, one in enumerate(ids):
            strip.instances.append(Instance(s, one, (t + layout.waves * place) % size))
            s += (symbols[one].height if settings.transposed else symbols[one].width) + layout.gap
        if strip.instances:
            text.strips.append(strip)
    return text


def put_tables(page: Page, tables: Choices, names: Sequence[tuple]) -> list[int]:
    """Adds the custom tables of these numbers as segments, in the order in which they are asked for."""
    custom = [tables[name][1] for name, standard, _ in names if name in tables and tables[name][0] not in standard]
    return [page.put(TABLE, table_data(table)) for table in custom]


def put_dictionary(page: Page, dictionary: SymbolDictionary, referred: Sequence[int] = ()) -> int:
    """Adds a symbol dictionary with its custom tables, and returns its number."""
    tables = put_tables(page, dictionary.tables, dictionaries.TABLES)
    return page.put(SYMBOL_DICTIONARY, dictionaries.dictionary_data(dictionary), [*referred, *tables])


def text_bitmap(text: Text, settings: Settings, symbols: Sequence[Bitmap], size: tuple[int, int]) -> Bitmap:
    bitmap = Bitmap(*size, settings.colour)
    draw_text(text, settings, symbols, bitmap)
    return bitmap


def put_text(
    page: Page, text: Text, settings: Settings, symbols: Sequence[Bitmap], referred: Sequence[int],
    form: TextForm = TextForm(), size: tuple[int, int] | None = None, **place
) -> int:
    """Adds an immediate text region, of the page's size where none is given, and draws it."""
    bitmap = text_bitmap(text, settings, symbols, size or (page.picture.width, page.picture.height))
    data = text_data(text, settings, symbols, form)
    return page.draw(TEXT, bitmap, data, referred=referred, **place)
