"""Cuts made-up pages off at random places or gives them faults, and compares what the Python package draws of them, leniently
and in salvage, with a model.

usage: python3 -m testing.comparison.parts [COUNT [SEED]]

The pages have regions of all kinds, in files or embedded; testing/comparison/model reads them too. Half of them end in one larger
region, and are cut off in its data. A third have faults in their segments, and half of these are whole. Compared are the
picture, or the error of a page that is refused, and how many segments the page and what it shares lack, with the number and
the error of the first.
PYTHONPATH may name a folder with the installed package, as `python3 -m pip install --target FOLDER ./bindings/python` makes it.
"""
from __future__ import annotations

import dataclasses
import itertools
import random
import sys

import hayro_jbig2

from testing.comparison.compare import coded, kept, settings
from testing.comparison.made_up import altered, random_symbol
from testing.comparison.model import salvage
from testing.comparison.model.answers import Fault, Refused, TooMuch, Work
from testing.comparison.model.page import read_embedded, read_file
from testing.comparison.small_documents import INTERMEDIATE, LOSSLESS, Author, random_bitmap, random_generic, random_refinement
from testing.comparison.symbols import random_document
from testing.jbig2_encoder.bitmap import REPLACE, XOR, Bitmap
from testing.jbig2_encoder.document import Document, Segment
from testing.jbig2_encoder.framing import GENERIC, HALFTONE, HEADER, PAGE, PATTERN_DICTIONARY, REFINEMENT
from testing.jbig2_encoder.generic import GenericForm, generic_data
from testing.jbig2_encoder.halftone import Grid, HalftoneForm, halftone_data, pattern_data
from testing.jbig2_encoder.refinement import refinement_data

KINDS = "coder prefix refined aggregates tables more".split()
LARGEST = 48, 36
READINGS = "lenient", "salvage"
# Segments that lenient reading skips: extensions, and one of a type that is not listed.
SKIPPED = (62, bytes.fromhex("80000001")), (62, bytes.fromhex("20000000")), (62, b"\x80"), (63, b"")


@dataclasses.dataclass
class Cut:
    """Data that is cut off: of a file, or of an embedded page with its globals or None; and how many pages it had."""

    data: bytes
    shared: bytes | None
    is_file: bool
    pages: int


def written(chance):
    """A document in sequence, small or of much text, and how many pages it has."""
    if chance.random() < 0.3:
        return random_document(chance, chance.choice(KINDS)).document, 1
    author = Author(chance)
    author.write()
    return author.document, len(author.document.pages)


class Ending:
    """A page that ends in a region. What begins it, and what the region refers to, are drawn and kept as they are."""

    def __init__(self, chance):
        self.chance = chance
        self.document = Document(chance.choice((0, 0, 0, 254)))
        size = LARGEST if chance.random() < 0.7 else (chance.randrange(1, 9 + LARGEST[0]), chance.randrange(1, 9 + LARGEST[1]))
        open_height = chance.random() < 0.1
        self.page = self.document.start_page(*size, chance.randrange(2), chance.randrange(4), unknown_height=open_height)
        if chance.random() < 0.7:
            whole = random_bitmap(chance, *LARGEST)
            self.page.draw(GENERIC, whole, generic_data(whole, random_generic(chance)), *self.place())

    def place(self):
        """Mostly on the page."""
        least = -5 if self.chance.random() < 0.1 else 0
        return self.chance.randrange(least, 9), self.chance.randrange(least, 9)

    def put(self, kind, size, header, coded_data, place, referred=()):
        """The last region, of which some have any bytes for the coded data."""
        chance = self.chance
        if chance.random() < 0.25:
            coded_data = coded(chance, chance.randrange(size[0] * size[1] + 1))
        kind += chance.choice((0, 0, 0, 0, LOSSLESS, LOSSLESS, LOSSLESS, INTERMEDIATE))
        operator = chance.choice((0, 1, XOR, XOR, XOR, 3, REPLACE, REPLACE, REPLACE))
        self.page.keep(kind, Bitmap(*size), header + coded_data, *place, operator, referred)

    def generic(self, form=None):
        form = form or random_generic(self.chance)
        bitmap = random_bitmap(self.chance, *LARGEST)
        data, header = generic_data(bitmap, form), 1 if form.mmr else 1 + 2 * len(form.places)
        self.put(GENERIC, (bitmap.width, bitmap.height), data[:header], data[header:], self.place())

    def by_mmr(self):
        self.generic(GenericForm(mmr=True, ends_block=self.chance.random() < 0.5))

    def refinement(self, reference, place, referred=()):
        """A refinement of a bitmap at a place, at another one; one in twenty is larger than its reference."""
        chance, form, (x, y) = self.chance, random_refinement(self.chance), self.place()
        most = LARGEST if chance.random() < 0.05 or not referred else (reference.width, reference.height)
        size = chance.randrange(1, most[0] + 1), chance.randrange(1, most[1] + 1)
        shift = place[0] - x, place[1] - y
        bitmap = altered(chance, reference, *size, shift)
        data, header = refinement_data(bitmap, reference, shift, form), 1 + len(form.pixel_bytes())
        self.put(REFINEMENT, size, data[:header], data[header:], (x, y), referred)

    def refinement_of_page(self):
        self.refinement(self.page.picture, (0, 0))

    def refinement_of_region(self):
        reference, place = random_bitmap(self.chance, *LARGEST), self.place()
        kept_data = generic_data(reference, random_generic(self.chance))
        at = self.page.keep(GENERIC + INTERMEDIATE, reference, kept_data, *place)
        self.refinement(reference, place, [at])

    def halftone(self, mmr=False):
        """A grid along the sides or a turned one; some have a value without a pattern, or no pattern dictionary."""
        chance = self.chance
        sides = chance.randrange(1, 6), chance.randrange(1, 5)
        patterns = [random_symbol(chance, *sides) for _ in range(chance.choice((1, 2, 3, 4, 5, 7, 9, 16, 20)))]
        at = self.page.put(PATTERN_DICTIONARY, pattern_data(patterns, GenericForm(chance.randrange(4))))
        size = chance.randrange(1, LARGEST[0] + 1), chance.randrange(1, LARGEST[1] + 1)
        vector = (256 * sides[0], 0) if chance.random() < 0.6 else (chance.randrange(1600), chance.randrange(900))
        grid = Grid(*(chance.randrange(1, 15) for _ in "xy"), *(chance.randrange(-900, 900) for _ in "xy"), *vector)
        form = HalftoneForm(chance.randrange(4), mmr, chance.random() < 0.5, chance.randrange(5), chance.randrange(2))
        most = 1 << (len(patterns) - 1).bit_length() if chance.random() < 0.2 else len(patterns)
        values = [[chance.randrange(most) for _ in range(grid.width)] for _ in range(grid.height)]
        data = halftone_data(values, grid, patterns, form, size)
        self.put(HALFTONE, size, data[:21], data[21:], self.place(), [at] * (chance.random() < 0.95))

    def halftone_by_mmr(self):
        self.halftone(True)

    def write(self):
        chance = self.chance
        chance.choice((
            self.generic, self.by_mmr, self.refinement_of_page, self.refinement_of_region, self.halftone, self.halftone_by_mmr
        ))()


def change_data(chance, segment):
    """Changes a bit of a segment's data, rather late, or leaves its end out."""
    place = int(len(segment.data) * chance.random() ** 0.5)
    rest = bytes([segment.data[place] ^ 1 << chance.randrange(8)]) + segment.data[place + 1 :]
    segment.data = segment.data[:place] + rest * (chance.random() < 0.8)


def add_fault(chance, document):
    """Gives a document a fault: in a segment's data, by a number that may name nothing, or by a segment that is skipped."""
    place = chance.randrange(len(document.segments))
    segment = document.segments[place]
    before = [other.at for other in document.segments if other.at < segment.at]
    kind = chance.choice(("data", "data", "data", "number", "skipped"))
    if kind == "data" and segment.data and segment.kind != PAGE:
        change_data(chance, segment)
    elif kind == "number" and before:
        segment.referred = (*segment.referred, chance.choice(before))
    elif kind == "skipped":
        document.segments.insert(place + 1, Segment(segment.at, *chance.choice(SKIPPED), page=segment.page))


def with_faults(chance, document):
    """Gives some documents faults. Whether all of it is there."""
    if chance.random() < 0.67:
        return False
    for _ in range(chance.randrange(1, 4)):
        add_fault(chance, document)
    return chance.random() < 0.5


def cut_ending(chance):
    """A page that is cut off in the data of the region that ends it: rather late, and some after a byte FF."""
    ending = Ending(chance)
    ending.write()
    if with_faults(chance, ending.document):
        return Cut(ending.document.embedded()[0], None, False, 1)
    data = ending.document.segments[-1].data
    if not data:
        return Cut(ending.document.sequential(), None, True, 1)
    marks = [place + 1 for place, byte in enumerate(data[:-1]) if byte == 0xFF]
    late = int(len(data) * chance.random() ** 0.4)
    left = chance.choice(marks) if marks and chance.random() < 0.2 else late
    if chance.random() < 0.5:
        return Cut(ending.document.embedded()[0][: left - len(data)], None, False, 1)
    return Cut(ending.document.sequential()[: left - len(data)], None, True, 1)


def random_cut(chance):
    if chance.random() < 0.5:
        return cut_ending(chance)
    document, pages = written(chance)
    is_whole = with_faults(chance, document)
    if pages == 1 and chance.random() < 0.5:
        stream, shared = document.embedded()
        return Cut(stream[: None if is_whole else chance.randrange(len(stream))], shared or None, False, 1)
    data = document.sequential()
    return Cut(data[: None if is_whole else chance.randrange(len(HEADER), len(data))], None, True, pages)


def name_of(fault):
    """The name that the package has for a fault of the model."""
    return fault.value.rstrip(")").split("(")[-1]


def read_by_model(cut, index, reading, work):
    if reading == "salvage":
        return salvage.page_of_file(cut.data, index, work) if cut.is_file else salvage.embedded_page(cut.shared, cut.data, work)
    return read_file(cut.data, index, False, work) if cut.is_file else read_embedded(cut.shared, cut.data, False, work)


def by_model(cut, index, reading):
    """A page: its sides and rows, how many segments it lacks, and the first one, and the same of what it shares; or the name of
    its error."""
    try:
        page = read_by_model(cut, index, reading, Work(400_000, 30_000_000))
    except Refused as refused:
        return "NoSuchPage" if refused.fault is Fault.NO_SUCH_PAGE else name_of(refused.fault)
    known = [page.bitmap.width, page.bitmap.height, page.bitmap.packed()]
    for lacks in page.lacks, page.shared_lacks:
        known += [len(lacks), (lacks[0][0], name_of(lacks[0][1])) if lacks else None]
    return tuple(known)


def by_package(cut, index, reading):
    how = {"salvage": reading == "salvage", "work_limit": None, "warn": False}
    try:
        page = hayro_jbig2.decode(cut.data, globals=cut.shared, page=index, **how)
    except hayro_jbig2.Jbig2Error as error:
        return error.variant
    known = [page.width, page.height, bytes(page.rows)]
    for passed_over in page.passed_over, page.left_out.passed_over:
        first = passed_over.first
        known += [passed_over.count, (first.segment_number, first.error.variant) if first else None]
    return tuple(known)


def difference(cut, index, reading):
    """What differs of a page, or None."""
    meant, found = by_model(cut, index, reading), by_package(cut, index, reading)
    if meant == found:
        return None
    found_sides, meant_sides = (answer if isinstance(answer, str) else answer[:2] for answer in (found, meant))
    if found_sides != meant_sides:
        return f"{found_sides}, not {meant_sides}"
    picture = "" if meant[2] == found[2] else "another picture, "
    return f"{picture}it lacks {found[3:]}, and by the model {meant[3:]}"


def kept_names(cut, name):
    """The files that are written of a cut for a look at it."""
    globals_name = [kept(cut.shared, f"{name}-globals")] if cut.shared else []
    return " ".join([kept(cut.data, name), *globals_name])


def main():
    count, seed, _ = settings()
    pages = differing = left_out = 0
    for turn in range(count):
        cut = random_cut(random.Random(seed << 40 | turn))
        for index, reading in itertools.product(range(cut.pages), READINGS):
            try:
                fault = difference(cut, index, reading)
            except TooMuch:
                left_out += 1
                continue
            pages += 1
            if fault:
                differing += 1
                names = kept_names(cut, f"parts-{seed}-{turn}")
                print(f"cut {turn}, page {index}, {reading}: {fault}: {names}", flush=True)
    print(f"{pages} readings of pages, {differing} differ; {left_out} left out, which are too much work for the model")
    return 1 if differing else 0


if __name__ == "__main__":
    sys.exit(main())
