"""Cases of the standard tables and of custom ones."""
from __future__ import annotations

import itertools
from collections.abc import Iterator, Sequence

from testing.jbig2_encoder import dictionary as dictionaries
from testing.jbig2_encoder.bitmap import Bitmap
from testing.jbig2_encoder.dictionary import HeightClass, NewSymbol, SymbolDictionary
from testing.jbig2_encoder.document import Page
from testing.jbig2_encoder.framing import TABLE
from testing.jbig2_encoder.prefix import LOWER, OUT_OF_BAND, STANDARD, UPPER, Table, bits_of_table, custom_table, table_data
from testing.jbig2_encoder.refinement import RefinementForm
from testing.jbig2_encoder.text import TABLES, Choices, Instance, Settings, Strip, Text, TextForm, growth

from .case import Case, one_page
from .drawing import changed, enlarged, letter
from .symbols import aggregates, show
from .texts import refined_text
from .typesetting import WORDS, Alphabet, Layout, put_dictionary, put_tables, put_text, set_words

# The most that a value of an upper or lower line goes past its first one here.
FURTHER = 40
LETTER = letter("8")


def values_of(number: int) -> list[int]:
    """The least and the greatest value of each line of a standard table, and two of its lower and upper line."""
    values = []
    for _, count, low, kind in STANDARD[number].lines:
        if kind == LOWER:
            values += [low, low - FURTHER]
        elif kind == UPPER:
            values += [low, low + FURTHER]
        elif kind != OUT_OF_BAND:
            values += [low, low + (1 << count) - 1]
    return list(dict.fromkeys(values))


def selection_of(names: Sequence[tuple], name: str, number: int) -> Choices:
    """The selection and the table by which a number uses a standard table."""
    standard = next(standard for its_name, standard, _ in names if its_name == name)
    selection = next(selection for selection, its_number in standard.items() if its_number == number)
    return {name: (selection, STANDARD[number])}


def text_page(
    number: int, name: str, text: Text, size: tuple[int, int], symbol: Bitmap = LETTER, settings: Settings = Settings()
) -> Case:
    """A page of one symbol's instances by one table."""
    form = TextForm(True, selection_of(TABLES, name, number))

    def draw(page: Page) -> None:
        dictionary = SymbolDictionary([HeightClass(symbol.height, [NewSymbol(symbol)])])
        put_text(page, text, settings, [symbol], [put_dictionary(page, dictionary)], form)

    return one_page(f"table-B{number:02}-{name.lower()}", (f"table-B.{number}", "text-prefix"), draw, size)


def first_s(number: int) -> Case:
    """Each value moves a strip's first S away, and the next strip moves it back."""
    values = values_of(number)
    text = Text([], 1)
    for at, value in enumerate(values):
        place = 3 + 5 * at % 40
        text.strips.append(Strip(2 + 9 * at, [Instance(place + value, 0)]))
        text.strips.append(Strip(5 + 9 * at, [Instance(place, 0)]))
    return text_page(number, "IAFS", text, (60, 9 * len(values) + 9))


def delta_s(number: int) -> Case:
    """Each value moves S along a strip, and the next one moves it back."""
    values = values_of(number)
    text = Text([], 1)
    for at, value in enumerate(values):
        place = 3 + 5 * at % 30
        after = place + growth(LETTER, Settings()) + value
        instances = [Instance(place, 0), Instance(after, 0), Instance(place + 12, 0)]
        text.strips.append(Strip(2 + 9 * at, instances))
    return text_page(number, "IADS", text, (60, 9 * len(values) + 9))


def delta_t(number: int) -> Case:
    """Strips as far from each other as the values are."""
    text, t = Text([], 1), -1
    for at, value in enumerate(values_of(number)):
        t += value
        text.strips.append(Strip(t, [Instance(1 + 7 * at % 35, 0)]))
    return text_page(number, "IADT", text, (45, t + 9))


def refinement_values(number: int) -> Case:
    """Refined instances whose sizes and places differ from the symbol's by the values, in turn of each of the four."""
    symbol = enlarged(letter("B"), 4 if number == 14 else 6)
    settings, tables = Settings(refined=True), {}
    for name in ("IARDW", "IARDH", "IARDX", "IARDY"):
        tables.update(selection_of(TABLES, name, number))
    text = Text([], 1)
    for at, (value, field) in enumerate(itertools.product(values_of(number), range(4))):
        width, height, x, y = (value if place == field else 0 for place in range(4))
        shift = ((width >> 1) + x, (height >> 1) + y)
        size = (max(1, symbol.width + width), max(1, symbol.height + height))
        refined = changed(symbol.part(-shift[0], -shift[1], *size), 4)
        text.strips.append(Strip(1 + 6 * at, [Instance(2 + 31 * (at % 4), 0, 0, refined, shift)]))

    def draw(page: Page) -> None:
        dictionary = SymbolDictionary([HeightClass(symbol.height, [NewSymbol(symbol)])])
        put_text(page, text, settings, [symbol], [put_dictionary(page, dictionary)], TextForm(True, tables))

    features = (f"table-B.{number}", "text-refined-prefix")
    return one_page(f"table-B{number:02}-refinement", features, draw, (130, 6 * len(text.strips) + 70))


def bar(width: int, height: int) -> Bitmap:
    """A symbol that shows its size: a frame with a diagonal."""
    bitmap = Bitmap(width, height)
    for y, row in enumerate(bitmap.rows):
        for x in range(width):
            row[x] = int(x in (0, width - 1) or y in (0, height - 1) or x * height // width == y)
    return bitmap


def walk(values: Sequence[int], most: int = 700) -> list[int]:
    """Sizes from 0 on whose differences are all of the values, and as few others as it takes to stay above 0."""
    left, size, sizes = list(values), 0, []
    while left:
        fitting = [value for value in left if 1 <= size + value <= most]
        value = fitting[0] if fitting else (300 if size < 300 else -200)
        if value in left:
            left.remove(value)
        size += value
        sizes.append(size)
    return sizes


def widths(number: int) -> Case:
    sizes = walk(values_of(number))
    tables = selection_of(dictionaries.TABLES, "IADW", number)
    new = [bar(width, 5) for width in sizes]

    def draw(page: Page) -> None:
        classes = [HeightClass(5, [NewSymbol(symbol) for symbol in new], dictionaries.MMR)]
        dictionary = SymbolDictionary(classes, prefix=True, tables=tables)
        referred = [put_dictionary(page, dictionary)]
        text = set_words([[at] for at in range(len(new))], new, Settings(), Layout(1, 1, 7))
        put_text(page, text, Settings(), new, referred)

    features = (f"table-B.{number}", "symbol-prefix")
    return one_page(f"table-B{number:02}-widths", features, draw, (max(sizes) + 3, 7 * len(sizes) + 4))


def heights(number: int) -> Case:
    sizes = walk(values_of(number))
    tables = selection_of(dictionaries.TABLES, "IADH", number)
    new = [bar(4, height) for height in sizes]

    def draw(page: Page) -> None:
        classes = [HeightClass(symbol.height, [NewSymbol(symbol)], dictionaries.MMR) for symbol in new]
        referred = [put_dictionary(page, SymbolDictionary(classes, prefix=True, tables=tables))]
        text = set_words([range(len(new))], new, Settings(), Layout(1, 1))
        put_text(page, text, Settings(), new, referred)

    features = (f"table-B.{number}", "symbol-prefix")
    return one_page(f"table-B{number:02}-heights", features, draw, (5 * len(sizes) + 4, max(sizes) + 3))


def export_runs() -> Case:
    """Runs of 0, 15, 16, 271 and 272 of tiny symbols, which table B.1 writes by its first three lines."""
    new = []
    for at in range(574):
        symbol = Bitmap(2, 3)
        symbol.rows = [[at >> 2 * row & 1, at >> 2 * row + 1 & 1] for row in range(3)]
        new.append(symbol)

    def draw(page: Page) -> None:
        classes = [HeightClass(3, [NewSymbol(symbol) for symbol in new], dictionaries.MMR)]
        dictionary = SymbolDictionary(classes, runs=[0, 15, 16, 271, 272], prefix=True)
        symbols = dictionary.exported()
        lines = [list(range(at, min(at + 30, len(symbols)))) for at in range(0, len(symbols), 30)]
        text = set_words(lines, symbols, Settings(), Layout(step=5))
        put_text(page, text, Settings(), symbols, [put_dictionary(page, dictionary)])

    return one_page("table-B01-export-runs", ("table-B.1", "symbol-export"), draw, (100, 60))


def sizes_of_data() -> Case:
    """Collective bitmaps by MMR of less than 16 bytes, of less than 272, and of more."""
    symbols = [letter("I"), enlarged(letter("8"), 6), changed(enlarged(letter("G"), 19), 2)]

    def draw(page: Page) -> None:
        classes = [HeightClass(symbol.height, [NewSymbol(symbol)], dictionaries.MMR) for symbol in symbols]
        show(page, symbols, [put_dictionary(page, SymbolDictionary(classes, prefix=True))])

    return one_page("table-B01-sizes", ("table-B.1", "symbol-prefix-mmr"), draw, (140, 140))


def standard() -> Iterator[Case]:
    yield export_runs()
    yield sizes_of_data()
    for make, numbers in (
        (widths, (2, 3)), (heights, (4, 5)), (first_s, (6, 7)), (delta_s, (8, 9, 10)), (delta_t, (11, 12, 13)),
        (refinement_values, (14, 15)),
    ):
        for number in numbers:
            yield make(number)


def wide_table(turn: int = 0, out_of_band: bool = False) -> Table:
    """A table for values from -128 to 127 and beyond; the turns differ in their codes."""
    ranges = [(3, 6), (3, 5), (3, 4), (3, 4), (4, 5), (4, 6), (3, 5), (4, 4)]
    ranges = ranges[turn:] + ranges[:turn]
    return custom_table(-128, ranges, 5, 5, 4 if out_of_band else None)


def custom(names: Sequence[tuple], chosen: Sequence[str], out_of_band: str) -> Choices:
    """A custom table for each of the chosen numbers, with its selection."""
    tables = {}
    for turn, name in enumerate(chosen):
        selection = (1 << next(width for its_name, _, width in names if its_name == name)) - 1
        tables[name] = (selection, wide_table(turn % 7, name == out_of_band))
    return tables


def custom_of_text() -> Iterator[Case]:
    """A custom table for each number of a text region, for those of places, and for all of them at once."""
    places = ["IAFS", "IADS", "IADT"]
    names = [name for name, *_ in TABLES]
    sizes = ((1, 0, 0, 0), (-1, 1, 1, 0), (0, -1, 0, 1))
    for chosen in [*([name] for name in names), places, names]:
        tables = custom(TABLES, chosen, "IADS")
        settings = Settings(refined=not set(chosen) <= set(places))

        def draw(page: Page) -> None:
            alphabet = Alphabet()
            referred = [put_dictionary(page, alphabet.dictionary()), *put_tables(page, tables, TABLES)]
            if settings.refined:
                text = refined_text(alphabet, settings, sizes, True)
            else:
                text = set_words([alphabet.ids(word) for word in WORDS], alphabet.symbols, settings, prefix=True)
            put_text(page, text, settings, alphabet.symbols, referred, TextForm(True, tables))

        name = {1: chosen[0].lower(), 3: "places"}.get(len(chosen), "all")
        more = "text-refined-prefix" if settings.refined else "text-prefix"
        yield one_page(f"custom-table-text-{name}", ("custom-table", more), draw, (90, 40))


def custom_of_symbols() -> Iterator[Case]:
    """A custom table for each number of a dictionary, and for all of them that one dictionary may have."""
    def draw(page: Page, chosen: Sequence[str]) -> None:
        tables = custom(dictionaries.TABLES, chosen, "IADW")
        put = put_aggregates if "IAAI" in tables else put_with
        show(page, *put(page, tables))
    for chosen in (["IADH"], ["IADW"], ["size"], ["IAAI"], ["IADH", "IADW", "size"], ["IADH", "IADW", "IAAI"]):
        name = "-".join(chosen).lower()
        features = ("custom-table", "symbol-aggregate-prefix" if "IAAI" in chosen else "symbol-prefix-mmr")
        yield one_page(f"custom-table-symbols-{name}", features, lambda page: draw(page, chosen), (90, 40))


def put_with(page: Page, tables: Choices) -> tuple[list[Bitmap], list[int]]:
    """Adds a dictionary of letters by these tables; returns its symbols, and its number as a list."""
    dictionary = Alphabet().dictionary(dictionaries.MMR, prefix=True, tables=tables)
    return dictionary.exported(), [put_dictionary(page, dictionary)]


def put_aggregates(page: Page, tables: Choices) -> tuple[list[Bitmap], list[int]]:
    (base, _), (dictionary, _) = aggregates(True, RefinementForm(1))
    dictionary.tables = tables
    return dictionary.exported(), [put_dictionary(page, dictionary, [put_dictionary(page, base)])]


def custom_forms() -> Iterator[Case]:
    """Forms of tables, each for the deltas of S of some words."""
    forms = {
        "without-lower-and-upper": custom_table(-16, [(2, 4), (2, 5), (2, 6)], out_of_band=2),
        "lower-and-upper-alone": custom_table(0, [], 2, 1, 2),
        "single-values": custom_table(-3, [(3, 0)] * 6 + [(4, 0)], 5, 5, 4),
        "unused-codes": custom_table(-16, [(4, 4), (5, 5), (6, 6)], 9, 9, 7),
        "lines-without-codes": custom_table(-64, [(0, 5), (0, 4), (2, 4), (2, 4), (0, 5)], 3, 3, 2),
        "long-codes": custom_table(-32, [(1, 5), (31, 3), (32, 4), (3, 5)], 17, 16, 2),
        "many-lines": custom_table(-40, [(7, 1)] * 40 + [(7, 0)] * 20, 8, 8, 2),
        "large-ranges": custom_table(-(1 << 20), [(2, 20), (2, 20), (3, 30)], 4, 5, 2),
        "lowest-minimum": custom_table(-(1 << 31), [(3, 30), (3, 30), (2, 30)], 0, 3, 2),
    }
    for (name, table), long_fields in itertools.product(forms.items(), (False, True)):
        sizes = (8, 6) if long_fields else (None, None)
        data = table_data(table, *sizes)

        def draw(page: Page) -> None:
            alphabet = Alphabet()
            referred = [put_dictionary(page, alphabet.dictionary()), page.put(TABLE, data)]
            text = set_words([alphabet.ids(word) for word in WORDS], alphabet.symbols, Settings(), prefix=True)
            form = TextForm(True, {"IADS": (3, table)})
            put_text(page, text, Settings(), alphabet.symbols, referred, form)

        feature = "custom-table-end" if bits_of_table(table, *sizes) % 8 == 0 else "custom-table-form"
        rule = "a table has no ranges" if name == "lower-and-upper-alone" else "-"
        yield one_page(f"custom-table-{name}{'-long-fields' * long_fields}", feature, draw, rule=rule)


def cases() -> Iterator[Case]:
    for make in (standard, custom_of_text, custom_of_symbols, custom_forms):
        yield from make()
