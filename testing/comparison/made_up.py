"""Random symbol dictionaries and text regions, for the package jbig2_encoder to write."""
import dataclasses

from testing.jbig2_encoder import dictionary as dictionaries, text as texts
from testing.jbig2_encoder.bitmap import Bitmap
from testing.jbig2_encoder.dictionary import HeightClass, NewSymbol, SymbolDictionary, Templates, aggregate_settings
from testing.jbig2_encoder.generic import NOMINAL, GenericForm
from testing.jbig2_encoder.prefix import STANDARD, custom_table, runs_of, table_data
from testing.jbig2_encoder.refinement import NOMINAL as NOMINAL_REFINEMENT, RefinementForm
from testing.jbig2_encoder.text import Instance, Settings, Strip, Text, TextForm, draw_text, growth

# These numbers may be out of band.
WITH_OUT_OF_BAND = ("IADS", "IADW")


@dataclasses.dataclass
class Form:
    """What a segment may be made of."""

    prefix: bool = False
    aggregates: bool = False
    refined: bool = False
    custom: bool = False
    most_tables: int = 8
    most_symbols: int = 8
    most_ranges: int = 5
    padding: bytes = b""
    refinement_templates: tuple = (0, 1)
    hands_on: bool = True
    most_classes: int = 4
    most_instances: int = 24
    largest_side: int = 25


@dataclasses.dataclass
class Dictionary:
    """What a dictionary gives to those that refer to it: symbols, and the contexts that it keeps or None."""

    symbols: list
    kept: object


def random_lengths(chance, count):
    """Prefix lengths of a code of `count` members that uses all of its room."""
    if count == 1:
        return [1]
    lengths = [1, 1]
    while len(lengths) < count:
        shortest = [at for at, length in enumerate(lengths) if length < 7 + count // 64]
        at = chance.choice(shortest)
        lengths[at] += 1
        lengths.append(lengths[at])
    chance.shuffle(lengths)
    return lengths


def some_lengths(chance, count):
    """Prefix lengths for `count` symbols, of which some in a row may have no code."""
    if count < 3 or chance.random() < 0.5:
        return random_lengths(chance, count)
    used = chance.randrange(1, count)
    lengths = random_lengths(chance, used)
    at = chance.randrange(used + 1)
    return lengths[:at] + [0] * (count - used) + lengths[at:]


def random_table(chance, most, out_of_band):
    """A custom table of at most `most` ranges with a lower and an upper line."""
    start = chance.randrange(-40, 4)
    ranges = []
    for _ in range(chance.randrange(1, most + 1)):
        ranges.append(chance.randrange(0, 7))
    lengths = random_lengths(chance, len(ranges) + 2 + out_of_band)
    lower, upper, *last = lengths[len(ranges) :]
    return custom_table(start, list(zip(lengths, ranges)), lower, upper, last[0] if out_of_band else None)


def random_tables(chance, form, names):
    """Selections and tables for these numbers, and the data of the custom ones in their order."""
    tables, custom = {}, []
    for name, standard, width in names:
        if form.custom and len(custom) < form.most_tables and chance.random() < 0.4:
            table = random_table(chance, form.most_ranges, int(name in WITH_OUT_OF_BAND))
            tables[name] = ((1 << width) - 1, table)
            custom.append(table_data(table) + form.padding)
        else:
            selection = chance.choice(sorted(standard))
            tables[name] = (selection, STANDARD[standard[selection]])
    return tables, custom


def random_pixels(chance, template):
    if chance.random() < 0.6:
        return NOMINAL[template]
    places = []
    for _ in NOMINAL[template]:
        down = -chance.randrange(0, 4)
        places.append((chance.randrange(-6, 0 if down == 0 else 7), down))
    return tuple(places)


def random_refinement_pixels(chance, template):
    if template == 1 or chance.random() < 0.6:
        return NOMINAL_REFINEMENT
    return ((chance.randrange(-3, 4), -1), (chance.randrange(-3, 4), chance.randrange(-3, 4)))


def random_templates(chance, form):
    generic, refinement = chance.randrange(4), chance.choice(form.refinement_templates)
    pixels, refinement_pixels = random_pixels(chance, generic), random_refinement_pixels(chance, refinement)
    return Templates(GenericForm(generic, pixels), RefinementForm(refinement, refinement_pixels))


def random_symbol(chance, width, height):
    bitmap = Bitmap(width, height)
    kind = chance.randrange(3)
    for y, row in enumerate(bitmap.rows):
        for x in range(width):
            if kind == 0:
                row[x] = chance.randrange(2)
            elif kind == 1:
                row[x] = int(x in (0, width - 1) or y in (0, height - 1))
            else:
                row[x] = int((x // 3 + y // 4) % 2 == 0) ^ (chance.random() < 0.05)
    return bitmap


def random_classes(chance, form, heights_rise, widths_rise):
    """Sizes of new symbols: some heights, each with a list of widths."""
    past = form.largest_side + 1
    heights = [chance.randrange(1, past) for _ in range(chance.randrange(1, form.most_classes + 1))]
    if heights_rise:
        heights = sorted(set(heights))
    classes = []
    for height in heights:
        widths = [chance.randrange(1, past) for _ in range(chance.randrange(1, form.most_symbols + 1))]
        classes.append((height, sorted(widths) if widths_rise else widths))
    return classes


def random_export(chance, count):
    """Lengths of runs that are exported by turns, the first one not."""
    runs = []
    while sum(runs) < count:
        left = count - sum(runs)
        runs.append(left if chance.random() < 0.4 else chance.randrange(0, left + 1))
    return runs


def altered(chance, reference, width, height, shift):
    """A bitmap of that size which is much like the reference in its place."""
    bitmap = Bitmap(width, height)
    for y, row in enumerate(bitmap.rows):
        for x in range(width):
            row[x] = reference.pixel(x - shift[0], y - shift[1]) ^ (chance.random() < 0.08)
    return bitmap


class TextMaker:
    """Makes up the text of a region of that size.

    `tables` are those that its numbers are written by, or None, and `ids` the symbols that have a code.
    """

    def __init__(self, chance, settings, symbols, size, tables=None, ids=None):
        self.chance = chance
        self.settings = settings
        self.symbols = symbols
        self.tables = tables
        self.ids = list(range(len(symbols))) if ids is None else ids
        # S runs along the rows, or down the columns of what is transposed.
        self.s_side, self.t_side = reversed(size) if settings.transposed else size

    def number(self, name, low, high):
        """A random number from `low` to `high`, as far as its table has a code for it there."""
        taken = [value for value in range(low, high + 1) if self.tables is None or self.tables[name].takes(value)]
        return self.chance.choice(taken) if taken else high

    def make(self, count):
        size = 1 << self.settings.strip_log
        text = Text([], self.number("IADT", -1, 2))
        strip_t = -size * text.start
        first_s = 0
        while count:
            here = self.chance.randrange(1, count + 1)
            strip_t += size * self.number("IADT", 0, max(1, self.t_side // (2 * size)))
            first_s += self.number("IAFS", -4 - first_s, self.s_side // 2 - first_s)
            text.strips.append(Strip(strip_t, self.instances(first_s, here)))
            count -= here
        return text

    def instances(self, s, count):
        instances = []
        for at in range(count):
            if at:
                s += self.number("IADS", -3, 12) + self.settings.offset
            t = self.chance.randrange(1 << self.settings.strip_log)
            symbol = self.chance.choice(self.ids)
            instance = Instance(s, symbol, t)
            if self.settings.refined and self.chance.randrange(2):
                instance.refined, instance.shift = self.refined(self.symbols[symbol])
            instances.append(instance)
            s += growth(instance.refined or self.symbols[symbol], self.settings)
        return instances

    def refined(self, symbol):
        width = self.number("IARDW", max(-2, 1 - symbol.width), 2)
        height = self.number("IARDH", max(-2, 1 - symbol.height), 2)
        x, y = self.number("IARDX", -2, 2), self.number("IARDY", -2, 2)
        shift = (width // 2 + x, height // 2 + y)
        return altered(self.chance, symbol, symbol.width + width, symbol.height + height, shift), shift


class ClassMaker:
    """Makes up the new symbols of a dictionary, class by class."""

    def __init__(self, chance, form, inputs, templates):
        self.chance = chance
        self.aggregates = form.aggregates and len(inputs) > 0
        self.prefix = form.prefix
        self.settings = aggregate_settings(templates.refinement)
        self.so_far = list(inputs)

    def height_class(self, height, widths):
        its_class = HeightClass(height, [])
        for width in widths:
            its_class.symbols.append(self.symbol(width, height))
            self.so_far.append(its_class.symbols[-1].bitmap)
        if self.prefix and not self.aggregates and not self.chance.randrange(2):
            its_class.collective = dictionaries.MMR_WITH_END if self.chance.randrange(2) else dictionaries.MMR
        return its_class

    def symbol(self, width, height):
        if not self.aggregates:
            return NewSymbol(random_symbol(self.chance, width, height))
        count = 1 if self.chance.randrange(2) else self.chance.randrange(2, 5)
        if count == 1:
            at = self.chance.randrange(len(self.so_far))
            shift = (self.chance.randrange(-4, 5), self.chance.randrange(-4, 5))
            return NewSymbol(altered(self.chance, self.so_far[at], width, height, shift), at, shift)
        tables = dictionaries.AGGREGATE_TABLES if self.prefix else None
        bitmap = Bitmap(width, height)
        text = TextMaker(self.chance, self.settings, self.so_far, (width, height), tables).make(count)
        draw_text(text, self.settings, self.so_far, bitmap)
        return NewSymbol(bitmap, text=text)


def random_dictionary(chance, form, inputs, last):
    """A dictionary's data, the data of its custom tables, and what it gives; `last` is the last one it refers to."""
    templates = random_templates(chance, form)
    used = last is not None and last.kept is not None and not form.prefix and chance.random() < 0.7
    if used:
        templates = last.kept.copy()
    keeps = form.hands_on and not form.prefix and chance.random() < 0.5
    tables, custom = random_tables(chance, form, dictionaries.TABLES) if form.prefix else ({}, [])
    rises = [form.prefix and not tables[name][1].takes(-1) for name in ("IADH", "IADW")]
    sizes = random_classes(chance, form, *rises) if not inputs or chance.random() < 0.9 else []
    maker = ClassMaker(chance, form, inputs, templates)
    classes = [maker.height_class(*size) for size in sizes]
    dictionary = SymbolDictionary(
        classes, inputs, None, form.prefix, maker.aggregates, templates, used, keeps, tables
    )
    dictionary.runs = random_export(chance, len(dictionary.symbols()))
    data = dictionaries.dictionary_data(dictionary)
    return data, custom, Dictionary(dictionary.exported(), templates if keeps else None)


def random_settings(chance, form):
    template = chance.choice(form.refinement_templates)
    return Settings(
        strip_log=chance.randrange(4),
        corner=chance.randrange(4),
        transposed=bool(chance.randrange(2)),
        operator=chance.randrange(4),
        colour=chance.randrange(2),
        offset=chance.choice((0, 0, chance.randrange(-16, 16))),
        refined=form.refined,
        template=template,
        pixels=random_refinement_pixels(chance, template),
    )


def random_text(chance, form, symbols, width, height):
    """A text region's data after its region information, the data of its custom tables, and its bitmap."""
    settings = random_settings(chance, form)
    count = chance.randrange(form.most_instances + 1)
    tables, custom = random_tables(chance, form, texts.TABLES) if form.prefix else ({}, [])
    how, ids = TextForm(form.prefix, tables), None
    if form.prefix:
        how.id_lengths = some_lengths(chance, len(symbols))
        ids = [at for at, length in enumerate(how.id_lengths) if length]
        how.run_lengths = random_lengths(chance, len({run for run, *_ in runs_of(how.id_lengths)}))
    by_name = {name: table for name, (_, table) in tables.items()} if form.prefix else None
    text = TextMaker(chance, settings, symbols, (width, height), by_name, ids).make(count)
    bitmap = Bitmap(width, height, settings.colour)
    draw_text(text, settings, symbols, bitmap)
    return texts.text_data(text, settings, symbols, how), custom, bitmap
