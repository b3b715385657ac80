"""Small documents of every kind of segment, for `fields.py`: each is made of a number alone, with few pixels."""
import random

from testing.comparison.made_up import Form, altered, random_dictionary, random_pixels, random_refinement_pixels
from testing.comparison.made_up import random_symbol, random_text
from testing.jbig2_encoder import framing
from testing.jbig2_encoder.bitmap import Bitmap
from testing.jbig2_encoder.document import Document
from testing.jbig2_encoder.fields import number
from testing.jbig2_encoder.generic import NOMINAL_EXTENDED, GenericForm, generic_data, row_count
from testing.jbig2_encoder.halftone import Grid, HalftoneForm, halftone_data, pattern_data
from testing.jbig2_encoder.refinement import RefinementForm, refinement_data

SMALL = {"most_symbols": 3, "most_ranges": 3, "most_classes": 2, "most_instances": 5, "largest_side": 6}
INTERMEDIATE, LOSSLESS = -2, 1


def random_bitmap(chance, most_wide=18, most_high=10):
    return random_symbol(chance, chance.randrange(1, most_wide + 1), chance.randrange(1, most_high + 1))


def random_generic(chance):
    """How a generic region is coded: by each template or by MMR."""
    if chance.random() < 0.3:
        return GenericForm(mmr=True, ends_block=chance.random() < 0.5)
    template = chance.randrange(4)
    extended = template == 0 and chance.random() < 0.3
    pixels = NOMINAL_EXTENDED if extended else random_pixels(chance, template)
    return GenericForm(template, pixels, chance.random() < 0.5, extended)


def random_refinement(chance):
    template = chance.randrange(2)
    return RefinementForm(template, random_refinement_pixels(chance, template), chance.random() < 0.5)


class Author:
    """Puts random segments on the pages of a document."""

    def __init__(self, chance):
        self.chance = chance
        self.document = Document(chance.choice((0, 0, 0, 254, 65530)))
        self.page = None

    def place(self):
        return self.chance.randrange(-4, 12), self.chance.randrange(-3, 8), self.chance.randrange(5)

    def start_page(self, unknown_height=False, stripes=0):
        chance = self.chance
        wide = chance.choice((None, None, None, 300))
        number_of_page = len(self.document.pages) + 1 if wide is None else wide + len(self.document.pages)
        self.page = self.document.start_page(
            chance.randrange(1, 26), chance.randrange(1, 17), chance.randrange(2), chance.randrange(4),
            number_of_page, unknown_height, stripes=stripes,
        )

    def generic(self):
        bitmap, form = random_bitmap(self.chance), random_generic(self.chance)
        kind = framing.GENERIC + self.chance.choice((0, LOSSLESS))
        data = generic_data(bitmap, form)
        if self.chance.random() < 0.3:
            more = row_count(bitmap.height, form.mmr)
            self.page.draw(framing.GENERIC, bitmap, data + more, *self.place(), hides_length=True)
        else:
            self.page.draw(kind, bitmap, data, *self.place())

    def refinement(self):
        """A refinement of an intermediate region, or of an area of the page."""
        chance, form = self.chance, random_refinement(self.chance)
        reference, referred, shift = self.page.picture, (), (0, 0)
        x, y, operator = chance.randrange(4), chance.randrange(3), chance.randrange(5)
        bitmap = altered(chance, reference, chance.randrange(1, 10), chance.randrange(1, 8), (-x, -y))
        shift = (-x, -y)
        if chance.random() < 0.6:
            reference = random_bitmap(chance, 14, 9)
            own = chance.randrange(4), chance.randrange(4)
            kept = generic_data(reference, random_generic(chance))
            referred = (self.page.keep(framing.GENERIC + INTERMEDIATE, reference, kept, *own),)
            shift = own[0] - x, own[1] - y
            size = chance.randrange(1, reference.width + 1), chance.randrange(1, reference.height + 1)
            bitmap = altered(chance, reference, *size, shift)
        kind = framing.REFINEMENT + chance.choice((INTERMEDIATE, 0, LOSSLESS) if referred else (0, LOSSLESS))
        self.page.draw(kind, bitmap, refinement_data(bitmap, reference, shift, form), x, y, operator, referred)

    def halftone(self):
        chance = self.chance
        sides = chance.randrange(1, 6), chance.randrange(1, 5)
        patterns = [random_symbol(chance, *sides) for _ in range(chance.choice((1, 2, 3, 4, 5, 9)))]
        how = GenericForm(chance.randrange(4), mmr=chance.random() < 0.4, ends_block=chance.random() < 0.5)
        at = self.put_shared(framing.PATTERN_DICTIONARY, pattern_data(patterns, how))
        cells, corner = (chance.randrange(1, 6), chance.randrange(1, 5)), (chance.randrange(-900, 900) for _ in "xy")
        grid = Grid(*cells, *corner, chance.randrange(0, 1600), chance.randrange(0, 900))
        form = HalftoneForm(chance.randrange(4), chance.random() < 0.3, chance.random() < 0.4, chance.randrange(5))
        values = [[chance.randrange(len(patterns)) for _ in range(grid.width)] for _ in range(grid.height)]
        size = chance.randrange(1, 22), chance.randrange(1, 14)
        data = halftone_data(values, grid, patterns, form, size)
        kind = framing.HALFTONE + chance.choice((INTERMEDIATE, 0, 0, LOSSLESS))
        self.page.keep(kind, Bitmap(*size), data, *self.place(), (at,))

    def put_shared(self, kind, data, referred=()):
        """A dictionary or a table, of the page or of none."""
        page = 0 if self.is_shared else self.page.number
        return self.document.put(kind, data, referred, page)

    def text(self):
        """One or two dictionaries and a text region, with tables of their own."""
        chance = self.chance
        prefix = chance.random() < 0.6
        form = Form(prefix=prefix, aggregates=chance.random() < 0.6, custom=prefix and chance.random() < 0.5,
                    refined=chance.random() < 0.5, **SMALL)
        symbols, numbers, last = [], [], None
        for _ in range(chance.randrange(1, 3)):
            data, tables, last = random_dictionary(chance, form, symbols, last)
            referred = numbers + [self.put_shared(framing.TABLE, table) for table in tables]
            numbers = numbers + [self.put_shared(framing.SYMBOL_DICTIONARY, data, referred)]
            symbols = symbols + last.symbols
        if symbols:
            size = chance.randrange(1, 22), chance.randrange(1, 14)
            data, tables, bitmap = random_text(chance, form, symbols, *size)
            referred = numbers + [self.put_shared(framing.TABLE, table) for table in tables]
            kind = framing.TEXT + chance.choice((INTERMEDIATE, 0, 0, LOSSLESS))
            self.page.keep(kind, bitmap, data, *self.place(), referred)

    def extension(self):
        self.page.put(framing.EXTENSION, number(self.chance.choice((0x20000000, 0x60000001))) + b"note\0")

    def write(self):
        """The document: one page or two, with one or two kinds of segments on each."""
        chance = self.chance
        self.is_shared = chance.random() < 0.3
        kinds = (self.generic, self.refinement, self.halftone, self.text, self.text, self.text)
        for _ in range(chance.choice((1, 1, 1, 2))):
            unknown_height = chance.random() < 0.2
            self.start_page(unknown_height, chance.choice((0, 5)))
            for kind in chance.sample(kinds, chance.choice((1, 1, 2))):
                kind()
            if unknown_height or chance.random() < 0.1:
                self.page.end_stripe(self.page.picture.height - 1)
            if chance.random() < 0.1:
                self.extension()
            self.page.end()
        self.document.end_file()
        count = chance.choice((-1, -1, None))
        return self.document.random_access(count) if chance.random() < 0.25 else self.document.sequential(count)


def small_document(seed):
    """The bytes of a file, and the number of its pages."""
    author = Author(random.Random(seed))
    return author.write(), len(author.document.pages)
