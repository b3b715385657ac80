"""Files that must be refused: faults of symbol dictionaries, of text regions, and of tables."""
from __future__ import annotations

import itertools
from collections.abc import Callable, Iterator

from testing.jbig2_encoder.bitmap import Bitmap
from testing.jbig2_encoder.dictionary import Templates
from testing.jbig2_encoder.document import Page
from testing.jbig2_encoder.fields import Change, number
from testing.jbig2_encoder.framing import TABLE
from testing.jbig2_encoder.generic import GenericForm
from testing.jbig2_encoder.prefix import Bits, custom_table, table_data
from testing.jbig2_encoder.refinement import RefinementForm
from testing.jbig2_encoder.text import Settings, TextForm, draw_text

from . import breaking as errors
from .breaking import Fault, blank, broken_page, setting, unchanged
from .case import Case
from .symbols import Made, refining, show, show_made, templates_after
from .tables import wide_table
from .texts import refined_text
from .typesetting import WORDS, Alphabet, put_dictionary, put_text, set_words

SYMBOLS, TEXTS, TABLES = "broken-symbols", "broken-text", "broken-table"
CODINGS = (("coder", False), ("prefix", True))


def dictionary_case(
    name: str, rule: str, change: Change, error: str, prefix: bool = False, make: Callable[[], Made] | None = None
) -> Case:
    """A page of the words by a dictionary of which a field is changed; its error is the page's in both modes."""
    def draw(page: Page) -> None:
        show_made(page, [(Alphabet().dictionary(prefix=prefix), ())] if make is None else make())
    return broken_page(Fault(f"symbols-{name}", SYMBOLS, rule, error, error), draw, change, size=(100, 40))


def dictionary_headers() -> Iterator[Case]:
    for place, name in ((2, "height"), (4, "width")):
        for coding, prefix in CODINGS:
            flags = prefix | 2 << place
            rule = "selection 2 of a table has no meaning (7.4.2.1.1)"
            change = setting("dictionary flags", flags)
            yield dictionary_case(f"{coding}-{name}-selection-2", rule, change, errors.INVALID_SELECTION, prefix)
    for place, name, selection in ((2, "height", 3), (4, "width", 3), (6, "size", 1), (7, "count", 1)):
        rule = "each custom selection has a table (7.4.2.1.6)"
        change = setting("dictionary flags", 1 | selection << place)
        yield dictionary_case(f"without-{name}-table", rule, change, errors.MISSING_TABLES, prefix=True)
    for field, value in itertools.product(("exported", "new"), ((1 << 20) + 1, (1 << 32) - 1)):
        rule = "a limit of this decoder: up to 2^20 symbols"
        change = setting(f"{field} symbols", value)
        yield dictionary_case(f"{field}-{value}", rule, change, errors.SYMBOL_COUNT)
    for coding, prefix in CODINGS:
        rule = "the exported symbols are as many as the header says (7.4.2.1.4)"
        change = setting("exported symbols", 3)
        yield dictionary_case(f"{coding}-exported-3", rule, change, errors.EXPORTED_COUNT, prefix=prefix)


def dictionary_pixels() -> Iterator[Case]:
    """Adaptive pixels that do not lie before the pixel."""
    rule = "adaptive pixels lie before the pixel (6.2.5.4)"
    for template, (x, y) in itertools.product(range(4), ((0, 0), (0, 1))):
        def make() -> Made:
            return [(Alphabet().dictionary(templates=Templates(GenericForm(template))), ())]

        def change(name: str, value: int | None, bits: int | None) -> int | None:
            return {"adaptive pixel x1": x, "adaptive pixel y1": y}.get(name, value)
        name = f"{template}-pixel-{'below' if y else 'here'}"
        yield dictionary_case(name, rule, change, errors.INVALID_PIXEL, make=make)


def cut_dictionaries() -> Iterator[Case]:
    for length in (0, 1, 5, 12):
        def draw(page: Page) -> None:
            alphabet = Alphabet()
            at = put_dictionary(page, alphabet.dictionary())
            page.document.segments[-1].data = page.document.segments[-1].data[:length]
            show(page, alphabet.symbols, [at])
        rule = "a dictionary's data has all of its header (7.4.2)"
        yield broken_page(Fault(f"symbols-of-{length}-bytes", SYMBOLS, rule, errors.ENDS, errors.ENDS), draw)


def contexts() -> Iterator[Case]:
    """Contexts that are used and not kept, or kept for other templates."""
    def pair(first_form: tuple, second_form: tuple, keeps: bool) -> Made:
        first = Alphabet("JBIG2").dictionary(templates=Templates(*first_form), keeps_contexts=keeps)
        templates = templates_after(first)
        templates.generic, templates.refinement = second_form
        second = Alphabet("T8").dictionary(templates=templates, uses_contexts=True)
        second.inputs = first.exported()
        return [(first, ()), (second, (0,))]

    def alone() -> Made:
        return [(Alphabet().dictionary(uses_contexts=True), ())]
    plain = (GenericForm(0), RefinementForm(0))
    rule = "contexts are those of the last dictionary that is referred to, of the same templates (7.4.2.2)"
    others = {
        "not-kept": (plain, plain, False), "other-template": (plain, (GenericForm(1), RefinementForm(0)), True),
        "other-refinement-template": (plain, (GenericForm(0), RefinementForm(1)), True),
    }
    yield dictionary_case("contexts-of-nothing", rule, unchanged, errors.INVALID_SYMBOL, make=alone)
    for name, (first, second, keeps) in others.items():
        def make() -> Made:
            return pair(first, second, keeps)
        yield dictionary_case(f"contexts-{name}", rule, unchanged, errors.INVALID_SYMBOL, make=make)


def coded_numbers() -> Iterator[Case]:
    """Numbers of dictionaries that no dictionary may have."""
    below_0, of_class = "sizes are not below 0 (6.5.6, 6.5.7)", "a height class has a height (6.5.6)"
    limit = "a limit of this decoder: symbols of up to 65535 by 65535"
    runs, data = "export runs are of the symbols (6.5.10)", "the data of a class is in the segment (6.5.9)"
    # A name, the rule, whether it is by prefix codes, the field with its value and turn, and the error.
    faults = (
        ("height-out-of-band", of_class, False, ("IADH", None), errors.CODER_OUT_OF_BAND),
        ("height-below-0", below_0, False, ("IADH", -1), errors.BITMAP_SIZE),
        ("width-below-0", below_0, False, ("IADW", -1), errors.BITMAP_SIZE),
        ("width-65536", limit, False, ("IADW", 65536), errors.BITMAP_SIZE),
        ("height-65536", limit, False, ("IADH", 65536), errors.BITMAP_SIZE),
        ("width-65536", data, True, ("IADW", 65536), errors.ENDS),
        ("size-past-the-end", data, True, ("size", 60000, 2), errors.ENDS),
        ("export-out-of-band", runs, False, ("IAEX", None), errors.PREFIX_OUT_OF_BAND),
        ("export-below-0", runs, False, ("IAEX", -1), errors.INVALID_CODE),
        ("export-past-the-end", runs, False, ("IAEX", 30, 1), errors.UNKNOWN_SYMBOL),
        ("export-past-the-end", runs, True, ("IAEX", 30, 1), errors.UNKNOWN_SYMBOL),
    )
    for name, rule, prefix, field, error in faults:
        coding = "prefix" if prefix else "coder"
        yield dictionary_case(f"{coding}-{name}", rule, setting(*field), error, prefix)
    rule = "there are no more symbols than the header says (6.5.5)"
    for coding, prefix in CODINGS:
        yield dictionary_case(f"{coding}-new-3", rule, setting("new symbols", 3), errors.TOO_MANY_NEW, prefix)


def refined_numbers() -> Iterator[Case]:
    """Numbers of refined symbols that none may have."""
    def case(name: str, rule: str, prefix: bool, field: tuple, error: str) -> Case:
        def make() -> Made:
            return refining(prefix, RefinementForm(1))
        coding = "prefix" if prefix else "coder"
        return dictionary_case(f"{coding}-{name}", rule, setting(*field), error, prefix, make)
    instances, earlier = "a symbol has instances (6.5.8.2.1)", "an id is that of an earlier symbol (6.5.8.2.2)"
    for _, prefix in CODINGS:
        yield case("instances-0", instances, prefix, ("IAAI", 0), errors.INVALID_SYMBOL)
        yield case("refines-a-later-one", earlier, prefix, ("symbol id", 20), errors.UNKNOWN_SYMBOL)
    yield case("instances-below-0", instances, False, ("IAAI", -1), errors.INVALID_SYMBOL)
    rule = "numbers of a symbol are not out of band (6.5.8.2)"
    for field in ("IAAI", "IARDX", "IARDY"):
        yield case(f"{field.lower()}-out-of-band", rule, False, (field, None), errors.CODER_OUT_OF_BAND)


def text_case(
    name: str, rule: str, change: Change, strict: str, settings: Settings = Settings(), prefix: bool = False,
    shows: Callable[[Page], Bitmap] = blank
) -> Case:
    """A page of the words by a text region of which a field is changed."""
    def draw(page: Page) -> None:
        alphabet = Alphabet()
        referred = [put_dictionary(page, alphabet.dictionary())]
        if settings.refined:
            text = refined_text(alphabet, settings, ((1, 0, 0, 0),), prefix)
        else:
            text = set_words([alphabet.ids(word) for word in WORDS], alphabet.symbols, settings, prefix=prefix)
        put_text(page, text, settings, alphabet.symbols, referred, TextForm(prefix))
    return broken_page(Fault(f"text-{name}", TEXTS, rule, strict), draw, change, shows, (80, 40))


def text_headers() -> Iterator[Case]:
    refined = Settings(refined=True)
    for place, name in ((0, "first-s"), (6, "width"), (8, "height"), (10, "x"), (12, "y")):
        rule = "selection 2 of this table has no meaning (7.4.3.1.2)"
        change = setting("Huffman flags", 2 << place)
        yield text_case(f"{name}-selection-2", rule, change, errors.INVALID_SELECTION, settings=refined, prefix=True)
    custom = ("first-s", "delta-s", "delta-t", "width", "height", "x", "y", "size")
    for place, name in enumerate(custom):
        selection = 1 if name == "size" else 3
        rule = "each custom selection has a table (7.4.3.1.6)"
        change = setting("Huffman flags", selection << 2 * place)
        yield text_case(f"without-{name}-table", rule, change, errors.MISSING_TABLES, settings=refined, prefix=True)
    for coding, prefix in CODINGS:
        for value in (1 << 20, (1 << 32) - 1):
            rule = "a limit of this decoder: instances are up to 32 times the bytes of the data"
            change = setting("instances", value)
            yield text_case(f"{coding}-instances-{value}", rule, change, errors.TOO_MANY_INSTANCES, prefix=prefix)
        rule = "the instances are as many as the header says (6.4.5)"
        change = setting("instances", 17)
        name = f"{coding}-one-instance-less"
        yield text_case(name, rule, change, errors.TOO_MANY_INSTANCES, prefix=prefix, shows=without_last)


def without_last(page: Page) -> Bitmap:
    """The words without their last letter."""
    alphabet = Alphabet()
    text = set_words([alphabet.ids(word) for word in (*WORDS[:2], WORDS[2][:-1])], alphabet.symbols, Settings())
    bitmap = blank(page)
    draw_text(text, Settings(), alphabet.symbols, bitmap)
    return bitmap


def text_numbers() -> Iterator[Case]:
    """Numbers of text that no region may have."""
    for field, turn in (("IADT", 0), ("IADT", 1), ("IAFS", 0)):
        rule = "this number is not out of band (6.4.5)"
        name = f"coder-{field.lower()}-{turn}-out-of-band"
        yield text_case(name, rule, setting(field, None, turn), errors.CODER_OUT_OF_BAND)
    rule = "this number is not out of band (6.4.5)"
    strips = Settings(strip_log=1)
    yield text_case("coder-iait-out-of-band", rule, setting("IAIT", None), errors.CODER_OUT_OF_BAND, settings=strips)
    refined = Settings(refined=True)
    for field in ("IARI", "IARDW", "IARDH", "IARDX", "IARDY"):
        name = f"coder-{field.lower()}-out-of-band"
        yield text_case(name, rule, setting(field, None), errors.CODER_OUT_OF_BAND, settings=refined)
    most = (1 << 31) - 1
    rule = "places are of 32 bits"
    for log in (1, 3):
        change, settings = setting("IADT", most, 1), Settings(strip_log=log)
        yield text_case(f"strips-of-{1 << log}-delta-t-{most}", rule, change, errors.STRIP_DELTA, settings=settings)
    yield text_case(f"delta-t-{most}", rule, setting("IADT", most, 2), errors.PLACE)
    yield text_case(f"first-s-{most}", rule, setting("IAFS", most), errors.PLACE)
    yield text_case(f"delta-s-{most}", rule, setting("IADS", most), errors.PLACE)
    for field in ("IARDW", "IARDH"):
        change = setting(field, -100)
        rule = "a refined symbol has a size (6.4.11)"
        yield text_case(f"{field.lower()}-below-0", rule, change, errors.BITMAP_SIZE, settings=refined)
        rule = "a limit of this decoder: symbols of up to 65535 by 65535"
        change = setting(field, 65536)
        yield text_case(f"{field.lower()}-65536", rule, change, errors.BITMAP_SIZE, settings=refined)
    rule = "the data of a refined symbol is in the segment (6.4.11)"
    yield text_case("size-past-the-end", rule, setting("size", 60000), errors.ENDS, settings=refined, prefix=True)


def unknown_ids() -> Iterator[Case]:
    """Ids of no symbol: strict reading refuses them, and lenient reading draws nothing for them."""
    def draw(page: Page, refined: bool) -> None:
        letters = Alphabet("JBIG2")
        # Of 5 symbols the ids have 3 bits, so that 5 to 7 are ids of none.
        referred = [put_dictionary(page, letters.dictionary())]
        settings = Settings(refined=refined)
        text = set_words([letters.ids("JBIG2")], letters.symbols, settings)
        if refined:
            text.strips[0].instances[2].refined = letters.symbols[0]
        put_text(page, text, settings, letters.symbols, referred)
    rule = "an id is that of a symbol (6.4.10)"
    yield broken_page(
        Fault("text-coder-unknown-id-refined", TEXTS, rule, errors.UNKNOWN_SYMBOL), lambda page: draw(page, True),
        change=setting("symbol id", 7, 2)
    )

    def without_one(page: Page) -> Bitmap:
        """The third letter is not drawn, and S does not move by its width; it moved by its gap."""
        letters = Alphabet("JBIG2")
        ids = letters.ids("JBIG2")
        bitmap, s = blank(page), 2
        for at, one in enumerate(ids):
            symbol = letters.symbols[one]
            if at == 2:
                # S stands at the third letter; the next delta of S counts from there.
                s += 2
                continue
            bitmap.combine(symbol, s, 3, 0)
            s += symbol.width + 1
        return bitmap
    yield broken_page(
        Fault("text-coder-unknown-id", TEXTS, rule, errors.UNKNOWN_SYMBOL), lambda page: draw(page, False),
        change=setting("symbol id", 7, 2), shows=without_one
    )


def id_codes() -> Iterator[Case]:
    """Faults in the codes of symbol ids."""
    rule = "codes have room, and a repetition has something to repeat (7.4.3.1.7)"
    for name, length in (("run-codes-overfull", 1), ("without-run-codes", 0)):
        def draw(page: Page) -> None:
            alphabet = Alphabet()
            referred = [put_dictionary(page, alphabet.dictionary())]
            text = set_words([alphabet.ids(word) for word in WORDS], alphabet.symbols, Settings(), prefix=True)
            put_text(page, text, Settings(), alphabet.symbols, referred, TextForm(True))
            segment = page.document.segments[-1]
            bits = Bits()
            for _ in range(35):
                bits.put(length, 4)
            start = 17 + 2 + 2 + 4
            segment.data = segment.data[:start] + bits.bytes() + segment.data[start + 18 :]
        yield broken_page(Fault(f"text-ids-{name}", TEXTS, rule, errors.INVALID_CODE), draw)

    def draw_ids(page: Page) -> None:
        alphabet = Alphabet()
        referred = [put_dictionary(page, alphabet.dictionary())]
        text = set_words([alphabet.ids(word) for word in WORDS], alphabet.symbols, Settings(), prefix=True)
        form = TextForm(True, id_lengths=[1] * len(alphabet.symbols))
        put_text(page, text, Settings(), alphabet.symbols, referred, form)
    yield broken_page(Fault("text-ids-overfull", TEXTS, rule, errors.INVALID_CODE), draw_ids)


def tables() -> Iterator[Case]:
    """Faults of custom tables; they are the page's answer in both modes."""
    def case(name: str, rule: str, data: bytes) -> Case:
        def draw(page: Page) -> None:
            page.put(TABLE, data)
            show(page, Alphabet().symbols, [put_dictionary(page, Alphabet().dictionary())])
        return broken_page(Fault(f"table-{name}", TABLES, rule, errors.INVALID_CODE, errors.INVALID_CODE), draw)
    rule = "a code has room for its lines (B.3)"
    yield case("overfull", rule, table_data(custom_table(0, [(1, 4), (1, 4)], 2, 2)))
    yield case("overfull-by-little", rule, table_data(custom_table(0, [(1, 4), (2, 4), (3, 4)], 3, 20)))
    rule = "ranges are of 32-bit values (B.2)"
    flags = bytes([0x70])
    yield case("range-of-32-bits", rule, flags + number(0) + number(1) + bytes([0x10, 0]))
    yield case("range-past-32-bits", rule, flags + number(0) + number(1) + bytes([0x0F, 0x80]))
    rule = "a table's data has all of its lines (B.2)"
    whole = table_data(wide_table())
    for length in (9, 10, len(whole) - 1):
        yield case(f"of-{length}-bytes", rule, whole[:length])


def cases() -> Iterator[Case]:
    for make in (
        dictionary_headers, dictionary_pixels, cut_dictionaries, contexts, coded_numbers, refined_numbers,
        text_headers, text_numbers, unknown_ids, id_codes, tables
    ):
        yield from make()
