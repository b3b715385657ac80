"""Makes up documents of symbols and text, and compares what is drawn of them with the expected picture and with jbig2dec.

usage: python3 -m testing.comparison.symbols [COUNT [SEED]]

Each document is made by the encoder in jbig2_encoder, which knows the picture. KINDS may name some of `coder prefix
refined aggregates tables`, the forms that jbig2dec draws too, and `more`, which it does not: that is compared with the
expected picture alone. PROGRAM=none compares jbig2dec alone with that picture, which checks the encoder.
"""
import dataclasses
import os
import random
import sys
import tempfile

from testing.comparison.compare import kept, our_picture, settings, their_picture
from testing.comparison.made_up import Form, random_dictionary, random_text
from testing.jbig2_encoder.document import Document
from testing.jbig2_encoder.framing import SYMBOL_DICTIONARY, TABLE
from testing.jbig2_encoder.pictures import pixels

KINDS = "coder prefix refined aggregates tables"
# What jbig2dec has not: contexts that a dictionary hands on, and tables whose data ends with their last bit.
PLAIN = Form(hands_on=False, padding=b"\0")


def plain(**changes):
    return dataclasses.replace(PLAIN, **changes)


def forms_of(chance, kind):
    """What a dictionary and what a text region of a document of that kind may be made of."""
    coding = plain(prefix=chance.random() < 0.5)
    if kind == "coder":
        return PLAIN, PLAIN
    if kind == "prefix":
        return coding, plain(prefix=True)
    if kind == "refined":
        return coding, plain(refined=True)
    if kind == "aggregates":
        return plain(aggregates=True, refinement_templates=(1,)), coding
    if kind == "tables":
        return plain(prefix=True, custom=True), plain(prefix=True, custom=True)
    # Nothing is left out: all dictionaries and refined text by both codings, with any tables.
    prefix = chance.random() < 0.6
    any_form = Form(prefix=prefix, aggregates=chance.random() < 0.5, custom=prefix and chance.random() < 0.5, most_ranges=40)
    return any_form, dataclasses.replace(any_form, refined=chance.random() < 0.7)


def with_references(form, count):
    """Of more than four references jbig2dec reads the long form, whose flags of retention it counts otherwise (7.2.4)."""
    return form if form.hands_on else dataclasses.replace(form, most_tables=4 - count)


class RandomDocument:
    """A document of one page under way; `page` is what it is meant to show."""

    def __init__(self, chance):
        self.chance = chance
        self.document = Document()
        colour, operator = chance.randrange(2), chance.randrange(4)
        width, height = chance.randrange(1, 120), chance.randrange(1, 80)
        self.segments = self.document.start_page(width, height, colour, operator)
        self.page = self.segments.picture
        self.dictionaries = {}

    def put_tables(self, tables):
        return [self.segments.put(TABLE, data) for data in tables]

    def some_dictionaries(self, least):
        numbers = list(self.dictionaries)
        count = self.chance.randrange(min(least, len(numbers)), len(numbers) + 1)
        return sorted(self.chance.sample(numbers, count))

    def symbols_of(self, numbers):
        return [symbol for at in numbers for symbol in self.dictionaries[at].symbols]

    def put_dictionary(self, form):
        referred = self.some_dictionaries(0)
        last = self.dictionaries[referred[-1]] if referred else None
        form = with_references(form, len(referred))
        data, tables, dictionary = random_dictionary(self.chance, form, self.symbols_of(referred), last)
        at = self.segments.put(SYMBOL_DICTIONARY, data, referred + self.put_tables(tables))
        self.dictionaries[at] = dictionary

    def put_text(self, form):
        referred = self.some_dictionaries(1)
        symbols = self.symbols_of(referred)
        if not symbols:
            return
        width, height = self.chance.randrange(1, 100), self.chance.randrange(1, 70)
        form = with_references(form, len(referred))
        data, tables, bitmap = random_text(self.chance, form, symbols, width, height)
        x, y = self.chance.randrange(self.page.width), self.chance.randrange(self.page.height)
        operator, kind = self.chance.randrange(5), self.chance.choice((6, 7))
        self.segments.draw(kind, bitmap, data, x, y, operator, referred + self.put_tables(tables))

    def end(self):
        self.segments.end()
        self.document.end_file()

    def finished(self):
        """The bytes of the file."""
        return self.document.sequential()


def random_document(chance, kind):
    """A random document of that kind, with one page."""
    document = RandomDocument(chance)
    for _ in range(chance.randrange(1, 4)):
        document.put_dictionary(forms_of(chance, kind)[0])
    for _ in range(chance.randrange(1, 4)):
        document.put_text(forms_of(chance, kind)[1])
    document.end()
    return document


def main():
    count, seed, program = settings()
    kinds = os.environ.get("KINDS", KINDS).split()
    chance = random.Random(seed)
    differing = 0
    with tempfile.TemporaryDirectory() as folder:
        name = os.path.join(folder, "page.jb2")
        theirs_name = os.path.join(folder, "page.pbm")
        for turn in range(count):
            kind = chance.choice(kinds)
            document = random_document(chance, kind)
            with open(name, "wb") as file:
                file.write(document.finished())
            meant = document.page.width, document.page.height, document.page.numbers()
            pictures = {} if program == "none" else {"here": our_picture(program, name)}
            if kind != "more":
                pictures["jbig2dec"] = their_picture(name, theirs_name)
            faults = [f"{who}: {fault}" for who, (picture, fault) in pictures.items() if pixels(picture) != meant]
            if faults:
                differing += 1
                name_of_kept = kept(document.finished(), f"differs-{seed}-{turn}")
                print(f"document {turn} ({kind}) differs ({name_of_kept}): {' / '.join(faults)}")
    print(f"{count} documents, {differing} differ")
    return 1 if differing else 0


if __name__ == "__main__":
    sys.exit(main())
