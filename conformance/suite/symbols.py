"""Cases of symbol dictionaries. Their symbols are shown by a text region of all of them."""
from __future__ import annotations

import dataclasses
import itertools
from collections.abc import Callable, Iterator, Sequence

from testing.jbig2_encoder import dictionary as dictionaries
from testing.jbig2_encoder.bitmap import OR, Bitmap
from testing.jbig2_encoder.dictionary import (
    HeightClass, NewSymbol, SymbolDictionary, Templates, aggregate_settings, dictionary_data
)
from testing.jbig2_encoder.document import Page
from testing.jbig2_encoder.generic import GenericForm
from testing.jbig2_encoder.refinement import RefinementForm
from testing.jbig2_encoder.text import Instance, Settings, Strip, Text, TextForm, draw_text

from .case import Case, Features, one_page
from .drawing import changed, letter
from .regions import MOVED
from .texts import MOVED as MOVED_REFINEMENT
from .typesetting import Alphabet, Layout, classes_of, put_dictionary, put_text, set_words

# Dictionaries, each with the places in this list of those that it refers to.
Made = list[tuple[SymbolDictionary, tuple[int, ...]]]
COLLECTIVES = {"plain": dictionaries.PLAIN, "mmr": dictionaries.MMR, "mmr-end": dictionaries.MMR_WITH_END}
REFINEMENTS = {
    "0": RefinementForm(0), "0-moved": RefinementForm(0, MOVED_REFINEMENT), "1": RefinementForm(1)
}


def show(page: Page, symbols: Sequence[Bitmap], referred: Sequence[int], prefix: bool = False) -> None:
    """Shows all symbols of dictionaries, in lines of up to eight."""
    lines = [list(range(at, min(at + 8, len(symbols)))) for at in range(0, len(symbols), 8)]
    step = 2 + max((symbol.height for symbol in symbols), default=0)
    text = set_words(lines, symbols, Settings(), Layout(step=step), prefix)
    put_text(page, text, Settings(), symbols, referred, TextForm(prefix))


def show_made(page: Page, made: Made, prefix: bool = False) -> None:
    """Adds dictionaries, each with the places in this list of those that it refers to, and shows the last one."""
    numbers = []
    for dictionary, referred in made:
        numbers.append(put_dictionary(page, dictionary, [numbers[at] for at in referred]))
    show(page, made[-1][0].exported(), numbers[-1:], prefix)


def shown(
    name: str, features: Features, make: Callable[[], Made], size: tuple[int, int] = (80, 40), prefix: bool = False,
    rule: str = "-"
) -> Case:
    """A page that shows the symbols of the last of the dictionaries that `make()` returns, as in `show_made`."""
    return one_page(name, features, lambda page: show_made(page, make(), prefix), size, rule=rule)


def alphabet_case(name: str, features: Features, collective: str = dictionaries.PLAIN, times: int = 1, **form) -> Case:
    def make() -> Made:
        return [(Alphabet(times=times).dictionary(collective, **form), ())]
    return shown(name, features, make, (80 * times, 40 * times))


def by_coder() -> Iterator[Case]:
    for template, times in itertools.product(range(4), (1, 2)):
        templates = Templates(GenericForm(template))
        yield alphabet_case(f"symbols-{template}-size-{times}", "symbol-coder", times=times, templates=templates)
    for template, places in enumerate(MOVED):
        for at, pixels in enumerate(places, 1):
            templates = Templates(GenericForm(template, pixels))
            name = f"symbols-{template}-moved-{at}"
            yield alphabet_case(name, "symbol-adaptive-pixels", times=2, templates=templates)


def by_prefix() -> Iterator[Case]:
    for (name, collective), times in itertools.product(COLLECTIVES.items(), (1, 2)):
        feature = "symbol-prefix" if collective == dictionaries.PLAIN else "symbol-prefix-mmr"
        yield alphabet_case(f"symbols-prefix-{name}-size-{times}", feature, collective, times, prefix=True)

    def mixed() -> Made:
        classes = Alphabet(times=2).classes()
        for its_class, collective in zip(classes, itertools.cycle(COLLECTIVES.values())):
            its_class.collective = collective
        return [(SymbolDictionary(classes, prefix=True), ())]
    yield shown("symbols-prefix-plain-and-mmr", "symbol-prefix-mmr", mixed, (160, 80))


def orders() -> Iterator[Case]:
    """Heights and widths that fall, and classes of one height."""
    def falling() -> Made:
        return [(SymbolDictionary(classes_of(Alphabet().symbols[::-1])), ())]
    yield shown("symbols-falling-sizes", "symbol-coder", falling)

    def one_by_one() -> Made:
        classes = [HeightClass(symbol.height, [NewSymbol(symbol)]) for symbol in Alphabet().symbols]
        return [(SymbolDictionary(classes), ())]
    yield shown("symbols-one-to-a-class", "symbol-coder", one_by_one)
    for prefix in (False, True):
        def with_empty() -> Made:
            first, *others = Alphabet().classes()
            empty = HeightClass(first.height + 1, [])
            return [(SymbolDictionary([first, empty, *others], prefix=prefix), ())]
        name = f"symbols-{'prefix' if prefix else 'coder'}-empty-class"
        features = "symbol-prefix" if prefix else "symbol-coder"
        yield shown(name, features, with_empty, prefix=prefix, rule="a height class has no symbols")


def refining(prefix: bool, form: RefinementForm) -> Made:
    """A dictionary of letters, and one that refines each of them: of the same size, and of others."""
    base = Alphabet().dictionary()
    new = []
    for at, symbol in enumerate(base.new()):
        shift = (at % 3 - 1, (at + 1) % 3 - 1) if at % 2 else (0, 0)
        size = (max(1, symbol.width + shift[0]), symbol.height + abs(shift[1]))
        new.append(NewSymbol(changed(symbol.part(-shift[0], -shift[1], *size), 3), at, shift))
    templates = Templates(refinement=form)
    refined = SymbolDictionary(in_classes(new), base.exported(), None, prefix, True, templates)
    return [(base, ()), (refined, (0,))]


def word(symbols: Sequence[Bitmap], ids: Sequence[int], form: RefinementForm, prefix: bool) -> NewSymbol:
    """A symbol that is a word of letters, the last one refined."""
    # The table of T, B.11, starts at 1: one up before the first strip, and one down to it.
    text, s = Text([Strip(0, [])], int(prefix)), 0
    for at in ids:
        text.strips[0].instances.append(Instance(s, at))
        s += symbols[at].width + 1
    last = text.strips[0].instances[-1]
    last.refined = changed(symbols[last.symbol], 2)
    bitmap = Bitmap(s - 1, max(symbols[at].height for at in ids))
    draw_text(text, aggregate_settings(form), symbols, bitmap)
    return NewSymbol(bitmap, text=text)


def in_classes(symbols: Sequence[NewSymbol]) -> list[HeightClass]:
    """Height classes of new symbols by their height, and in them by their width."""
    symbols = sorted(symbols, key=lambda symbol: (symbol.bitmap.height, symbol.bitmap.width))
    groups = itertools.groupby(symbols, lambda symbol: symbol.bitmap.height)
    return [HeightClass(height, list(group)) for height, group in groups]


def aggregates(prefix: bool, form: RefinementForm) -> Made:
    """A dictionary of letters, and one of words of two to five of them."""
    base = Alphabet().dictionary()
    symbols = base.new()
    new = [word(symbols, ids, form, prefix) for ids in ((0, 1), (3, 4, 5), (6, 2, 7, 1), (5, 6, 7, 4, 3))]
    dictionary = SymbolDictionary(in_classes(new), symbols, None, prefix, True, Templates(refinement=form))
    return [(base, ()), (dictionary, (0,))]


def refined_and_aggregate() -> Iterator[Case]:
    for prefix, (name, form) in itertools.product((False, True), REFINEMENTS.items()):
        coding, ending = ("prefix", "-prefix") if prefix else ("coder", "")
        for kind, make in (("refined", refining), ("aggregate", aggregates)):
            features = f"symbol-{kind}{ending}"
            yield shown(f"symbols-{coding}-{kind}-{name}", features, lambda: make(prefix, form), (100, 40))

    def of_new_ones(prefix: bool) -> Made:
        """The second new symbol refines the first one, which refines an input symbol."""
        base = Alphabet("B8").dictionary()
        first = changed(base.new()[0], 3)
        second = changed(first, 2)
        classes = [HeightClass(7, [NewSymbol(first, 0), NewSymbol(second, 2), NewSymbol(second, 3)])]
        return [(base, ()), (SymbolDictionary(classes, base.exported(), None, prefix, True), (0,))]
    for prefix, ending in ((False, ""), (True, "-prefix")):
        name = f"symbols-{'prefix' if prefix else 'coder'}-refined-new-ones"
        yield shown(name, "symbol-refined" + ending, lambda: of_new_ones(prefix))


def templates_after(dictionary: SymbolDictionary) -> Templates:
    """The templates of a dictionary with the contexts that it leaves."""
    templates = dictionary.templates.copy()
    dictionary_data(dataclasses.replace(dictionary, templates=templates))
    return templates


def contexts() -> Iterator[Case]:
    """Dictionaries that keep contexts for the next one, which begins with them."""
    for template in range(4):
        def make() -> Made:
            first = Alphabet("JBIG2").dictionary(templates=Templates(GenericForm(template)), keeps_contexts=True)
            second = Alphabet("T88lossles").dictionary(templates=templates_after(first), uses_contexts=True)
            second.inputs = first.exported()
            return [(first, ()), (second, (0,))]
        yield shown(f"symbols-contexts-{template}", "symbol-contexts", make)
    for name, form in REFINEMENTS.items():
        def make_refined() -> Made:
            (base, _), (first, _) = refining(False, form)
            (_, _), (second, _) = refining(False, form)
            first.keeps_contexts = second.uses_contexts = True
            second.inputs = base.exported() + first.exported()
            second.templates = templates_after(first)
            return [(base, ()), (first, (0,)), (second, (0, 1))]
        yield shown(f"symbols-contexts-refined-{name}", "symbol-contexts", make_refined, (100, 40))

    def chain() -> Made:
        made, templates = [], Templates(GenericForm(1, ((-3, -1),)))
        for at, words in enumerate(("JBIG2", "T8", "lose")):
            dictionary = Alphabet(words).dictionary(templates=templates, keeps_contexts=True, uses_contexts=at > 0)
            dictionary.inputs = made[-1][0].exported() if made else []
            made.append((dictionary, (at - 1,) if at else ()))
            templates = templates_after(dictionary)
        return made
    yield shown("symbols-contexts-three-dictionaries", "symbol-contexts", chain)


def exports() -> Iterator[Case]:
    """Runs of exported symbols: all, none of the inputs, every second one, and empty runs."""
    count = len(Alphabet("JBIG2T8").symbols)
    every_second = [1] * count
    forms = {
        "all": [0, count], "first-ones": [0, 3, count - 3], "last-ones": [4, count - 4], "every-second": every_second,
        "one": [2, 1, count - 3], "empty-runs": [0, 0, 2, 1, 0, 0, 0, 2, count - 5],
    }
    for (name, runs), prefix in itertools.product(forms.items(), (False, True)):
        def make() -> Made:
            return [(Alphabet("JBIG2T8").dictionary(dictionaries.MMR, prefix=prefix, runs=runs), ())]
        coding = "prefix" if prefix else "coder"
        yield shown(f"symbols-{coding}-export-{name}", "symbol-export", make, prefix=prefix)
    inputs = {"inputs-too": lambda old, new: [0, old + new], "inputs-alone": lambda old, new: [0, old, new],
              "some-of-both": lambda old, new: [1, old - 2, 2, new - 1]}
    for (name, runs_of), prefix in itertools.product(inputs.items(), (False, True)):
        def make_both() -> Made:
            parts = (Alphabet(letters).dictionary(dictionaries.MMR, prefix=prefix) for letters in ("JBIG", "2T8l"))
            first, second = parts
            second.inputs = first.exported()
            second.runs = runs_of(len(second.inputs), len(second.new()))
            return [(first, ()), (second, (0,))]
        coding = "prefix" if prefix else "coder"
        yield shown(f"symbols-{coding}-export-{name}", "symbol-export", make_both, prefix=prefix)

    def without_new() -> Made:
        first = Alphabet("JBIG").dictionary()
        return [(first, ()), (SymbolDictionary([], first.exported(), [1, 2, 1]), (0,))]
    yield shown("symbols-export-without-new-ones", "symbol-export", without_new)


def imports() -> Iterator[Case]:
    """Text that refers to several dictionaries, in either order and to one of them twice."""
    orders_of = {"two": (0, 1), "turned": (1, 0), "twice": (0, 1, 0)}
    for (name, order), prefix in itertools.product(orders_of.items(), (False, True)):
        def draw(page: Page) -> None:
            both = [Alphabet(names).dictionary(dictionaries.MMR, prefix=prefix) for names in ("JBIG", "2T8l")]
            numbers = [put_dictionary(page, dictionary) for dictionary in both]
            symbols = sum((both[at].exported() for at in order), [])
            show(page, symbols, [numbers[at] for at in order], prefix)
        rule = "a dictionary is named twice" if name == "twice" else "-"
        coding = "prefix" if prefix else "coder"
        yield one_page(f"text-{coding}-dictionaries-{name}", "symbol-imports", draw, (80, 40), rule=rule)
    for prefix in (False, True):
        def draw_six(page: Page) -> None:
            parts = [Alphabet(name).dictionary(dictionaries.MMR, prefix=prefix) for name in "JBIG2T"]
            numbers = [put_dictionary(page, dictionary) for dictionary in parts]
            show(page, sum((part.exported() for part in parts), []), numbers, prefix)
        name = f"text-{'prefix' if prefix else 'coder'}-six-dictionaries"
        yield one_page(name, ("symbol-imports", "segment-header"), draw_six, (80, 40))


def large() -> Iterator[Case]:
    """Symbols that are pictures, and many small ones."""
    picture = letter("G", 9)
    picture.combine(letter("2", 5), 10, 14, OR)
    for prefix, collective in ((False, dictionaries.PLAIN), (True, dictionaries.PLAIN), (True, dictionaries.MMR)):
        def make() -> Made:
            classes = [HeightClass(picture.height, [NewSymbol(picture), NewSymbol(changed(picture))], collective)]
            return [(SymbolDictionary(classes, prefix=prefix), ())]
        name = f"symbols-large-{'prefix' if prefix else 'coder'}-{collective.lower()}"
        features = ("symbol-prefix" if prefix else "symbol-coder",)
        yield shown(name, features, make, (120, 70), prefix=prefix)


def cases() -> Iterator[Case]:
    for make in (by_coder, by_prefix, orders, refined_and_aggregate, contexts, exports, imports, large):
        yield from make()
