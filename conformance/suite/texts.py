"""Cases of text regions."""
from __future__ import annotations

import itertools
from collections.abc import Iterator, Sequence

from testing.jbig2_encoder.document import Page
from testing.jbig2_encoder.framing import TEXT
from testing.jbig2_encoder.text import BOTTOM_RIGHT, TOP_LEFT, Instance, Settings, Strip, Text, TextForm, text_data

from .case import Case, Features, one_page
from .drawing import changed
from .typesetting import WORDS, Alphabet, Layout, put_dictionary, put_text, set_words, text_bitmap

CODINGS = {"coder": False, "prefix": True}
CORNERS = ("bottom-left", "top-left", "bottom-right", "top-right")
OPERATORS = ("or", "and", "xor", "xnor")
# Places of A1, in the region, and of A2, in the reference.
MOVED = ((-3, -1), (2, 1))


def text_case(
    name: str, features: Features, settings: Settings, form: TextForm, layout: Layout = Layout(),
    size: tuple[int, int] = (64, 40), words: Sequence[str] = WORDS
) -> Case:
    """A page of words by one dictionary; transposed, they run down the page."""
    alphabet = Alphabet("".join(words))

    def draw(page: Page) -> None:
        referred = [put_dictionary(page, alphabet.dictionary())]
        lines = [alphabet.ids(word) for word in words]
        text = set_words(lines, alphabet.symbols, settings, layout, form.prefix)
        put_text(page, text, settings, alphabet.symbols, referred, form)

    return one_page(name, features, draw, tuple(reversed(size)) if settings.transposed else size)


def codings() -> Iterator[Case]:
    """Corners, strips, operators and offsets by both codings."""
    for (coding, prefix), corner, transposed in itertools.product(CODINGS.items(), range(4), (False, True)):
        settings = Settings(corner=corner, transposed=transposed)
        name = f"text-{coding}-{CORNERS[corner]}{'-transposed' * transposed}"
        layout = Layout(first_line=9 if transposed or corner in (0, 2) else 3, step=12)
        yield text_case(name, ("text-corner", f"text-{coding}"), settings, TextForm(prefix), layout)
    for (coding, prefix), log, transposed in itertools.product(CODINGS.items(), range(4), (False, True)):
        settings = Settings(strip_log=log, transposed=transposed, corner=TOP_LEFT)
        layout = Layout(waves=3, step=12, first_line=5)
        name = f"text-{coding}-strips-of-{1 << log}{'-transposed' * transposed}"
        yield text_case(name, ("text-strips", f"text-{coding}"), settings, TextForm(prefix), layout, (70, 48))
    for (coding, prefix), offset in itertools.product(CODINGS.items(), (-16, -3, 4, 15)):
        name = f"text-{coding}-offset-{offset}".replace("--", "-minus-")
        yield text_case(name, ("text-offset", f"text-{coding}"), Settings(offset=offset), TextForm(prefix))


def operators() -> Iterator[Case]:
    """Letters that overlap, so that each operator shows."""
    for (coding, prefix), operator, colour in itertools.product(CODINGS.items(), range(4), range(2)):
        settings = Settings(operator=operator, colour=colour)
        name = f"text-{coding}-{OPERATORS[operator]}-on-{('white', 'black')[colour]}"
        yield text_case(name, ("text-operator", f"text-{coding}"), settings, TextForm(prefix), Layout(gap=-1, step=6))


def types() -> Iterator[Case]:
    for coding, prefix in CODINGS.items():
        alphabet = Alphabet()

        def draw(page: Page, kind: int) -> None:
            referred = [put_dictionary(page, alphabet.dictionary())]
            lines = [alphabet.ids(word) for word in WORDS]
            text = set_words(lines, alphabet.symbols, Settings(), prefix=prefix)
            bitmap = text_bitmap(text, Settings(), alphabet.symbols, (64, 40))
            data = text_data(text, Settings(), alphabet.symbols, TextForm(prefix))
            page.draw(kind, bitmap, data, referred=referred)

        for kind, name in ((TEXT, "immediate"), (TEXT + 1, "lossless")):
            features = (f"text-{coding}", "region-type")
            yield one_page(f"text-{coding}-{name}", features, lambda page, kind=kind: draw(page, kind))


def outside() -> Iterator[Case]:
    """Letters over each edge of a region that is smaller than its page, and wholly outside it."""
    alphabet = Alphabet("B")
    places = ((-3, -2), (3, -4), (11, -2), (40, -50), (-2, 6), (12, 7), (-60, 5), (0, 12), (6, 13), (100, 12))
    strips = {}
    for s, t in places:
        strips.setdefault(t, []).append(Instance(s, 0))
    for (coding, prefix), corner in itertools.product(CODINGS.items(), (TOP_LEFT, BOTTOM_RIGHT)):
        settings = Settings(corner=corner)
        text = Text([Strip(t, strips[t]) for t in sorted(strips)], 60)

        def draw(page: Page) -> None:
            referred = [put_dictionary(page, alphabet.dictionary())]
            form = TextForm(prefix)
            put_text(page, text, settings, alphabet.symbols, referred, form, size=(14, 14), x=9, y=6)

        yield one_page(f"text-{coding}-outside-{CORNERS[corner]}", ("text-outside", f"text-{coding}"), draw, (32, 26))


def empty() -> Iterator[Case]:
    for coding, prefix in CODINGS.items():
        for colour in range(2):
            name = f"text-{coding}-no-instances-{('white', 'black')[colour]}"
            settings, form = Settings(colour=colour), TextForm(prefix)
            yield text_case(name, f"text-{coding}", settings, form, size=(20, 12), words=("T", ""))


def refined_text(alphabet: Alphabet, settings: Settings, sizes: Sequence[tuple], prefix: bool) -> Text:
    """The words with every second letter refined: each by a bitmap that is larger or smaller and moved."""
    lines = [alphabet.ids(word) for word in WORDS]
    text = set_words(lines, alphabet.symbols, settings, Layout(gap=3, step=12), prefix)
    at = 0
    for strip in text.strips:
        for instance in strip.instances[::2]:
            width, height, x, y = sizes[at % len(sizes)]
            symbol = alphabet.symbols[instance.symbol]
            shift = ((width >> 1) + x, (height >> 1) + y)
            size = (max(1, symbol.width + width), max(1, symbol.height + height))
            instance.refined = changed(symbol.part(-shift[0], -shift[1], *size), 3)
            instance.shift = shift
            at += 1
    return text


def refined() -> Iterator[Case]:
    """Refined instances: of one size, and of other sizes and places."""
    forms = {
        "same-size": ((0, 0, 0, 0),),
        "other-sizes": ((1, 0, 0, 0), (-1, 1, 1, 0), (2, -2, 0, 1), (0, 2, -1, -1), (-2, -1, -2, 2)),
    }
    templates = {"0": (0, ((-1, -1), (-1, -1))), "0-moved": (0, MOVED), "1": (1, ((-1, -1), (-1, -1)))}
    parts = itertools.product(CODINGS.items(), templates.items(), forms.items(), (False, True))
    for (coding, prefix), (template, (number, pixels)), (form, sizes), transposed in parts:
        settings = Settings(refined=True, template=number, pixels=pixels, transposed=transposed)
        alphabet = Alphabet()

        def draw(page: Page) -> None:
            referred = [put_dictionary(page, alphabet.dictionary())]
            text = refined_text(alphabet, settings, sizes, prefix)
            put_text(page, text, settings, alphabet.symbols, referred, TextForm(prefix))

        name = f"text-{coding}-refined-{template}-{form}{'-transposed' * transposed}"
        feature = "text-refined-prefix" if prefix else "text-refined"
        yield one_page(name, feature, draw, (40, 96) if transposed else (80, 40))


def symbol_ids() -> Iterator[Case]:
    """Numbers of symbols around powers of two, and codes of ids of other lengths."""
    for (coding, prefix), word in itertools.product(CODINGS.items(), ("T", "TI", "T2i", "JBIG", "JBIG2", "JBIG2T8.l")):
        words = (word, word[::-1], word)
        name = f"text-{coding}-of-{len(set(word))}-symbols"
        yield text_case(name, ("text-ids", f"text-{coding}"), Settings(), TextForm(prefix), words=words)
    lengths = {
        "rising": [1, 2, 3, 4, 5, 6, 7, 8, 9, 10, 10],
        "falling": [10, 10, 9, 8, 7, 6, 5, 4, 3, 2, 1],
        "long": [20, 20, 19, 18, 17, 16, 15, 14, 13, 12, 11],
        "repeated": [4, 4, 4, 4, 4, 4, 4, 4, 4, 4, 3],
    }
    for name, of_ids in lengths.items():
        form = TextForm(True, id_lengths=of_ids)
        yield text_case(f"text-prefix-ids-{name}", "text-ids", Settings(), form, words=("TI2iJBIG8", "l.TI8BJ2G:"))


def cases() -> Iterator[Case]:
    for make in (codings, operators, types, outside, empty, refined, symbol_ids):
        yield from make()
