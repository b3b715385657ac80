"""Symbol dictionaries (6.5, 7.4.2): symbols in height classes, how they are coded in either way, and their export."""
from __future__ import annotations

import dataclasses

from . import t6
from .arithmetic import ArithmeticEncoder, Contexts, Procedures
from .bitmap import Bitmap, Place, side_by_side
from .fields import field, pairs, settled
from .generic import GenericForm, encode_generic
from .prefix import STANDARD, Bits, code_length
from .refinement import RefinementForm, encode_refinement
from .text import Choices, CoderText, PrefixText, Settings, Text, chosen, encode_text, put_sized

# The tables of the text regions that put a symbol together (Table 17).
AGGREGATE_TABLES = {
    "IAFS": STANDARD[6], "IADS": STANDARD[8], "IADT": STANDARD[11], "IARDW": STANDARD[15], "IARDH": STANDARD[15],
    "IARDX": STANDARD[15], "IARDY": STANDARD[15], "size": STANDARD[1],
}
# The standard tables of each number by their selections, and the bits of a selection (7.4.2.1.1).
TABLES = (("IADH", {0: 4, 1: 5}, 2), ("IADW", {0: 2, 1: 3}, 2), ("size", {0: 1}, 1), ("IAAI", {0: 1}, 1))
# How the symbols of a height class are written with prefix codes (6.5.9).
PLAIN, MMR, MMR_WITH_END = "plain", "MMR", "MMR with an end of block"


@dataclasses.dataclass
class Templates:
    """The templates of a dictionary with their adaptive pixels, and the contexts that its symbols are coded in."""

    generic: GenericForm = dataclasses.field(default_factory=GenericForm)
    refinement: RefinementForm = dataclasses.field(default_factory=RefinementForm)
    contexts: Contexts = dataclasses.field(default_factory=dict)
    refining: Contexts = dataclasses.field(default_factory=dict)

    def copy(self) -> Templates:
        """The same with contexts of its own, for a dictionary that goes on with them."""
        return dataclasses.replace(self, contexts=dict(self.contexts), refining=dict(self.refining))


@dataclasses.dataclass
class NewSymbol:
    """A new symbol.

    With aggregation it refines the symbol numbered `refines`, which lies `shift` to the right of it and below it, or
    it is put together by `text`.
    """

    bitmap: Bitmap
    refines: int | None = None
    shift: Place = (0, 0)
    text: Text | None = None


@dataclasses.dataclass
class HeightClass:
    """New symbols of one height, from the first; `collective` is how they are written with prefix codes."""

    height: int
    symbols: list[NewSymbol]
    collective: str = PLAIN


@dataclasses.dataclass
class SymbolDictionary:
    """A symbol dictionary.

    `runs` are the lengths of runs that are exported by turns, the first one not; None exports the new symbols.
    `tables` is as in `text.TextForm`.
    """

    classes: list[HeightClass]
    inputs: list[Bitmap] = dataclasses.field(default_factory=list)
    runs: list[int] | None = None
    prefix: bool = False
    aggregates: bool = False
    templates: Templates = dataclasses.field(default_factory=Templates)
    uses_contexts: bool = False
    keeps_contexts: bool = False
    tables: Choices = dataclasses.field(default_factory=dict)

    def new(self) -> list[Bitmap]:
        return [symbol.bitmap for its_class in self.classes for symbol in its_class.symbols]

    def symbols(self) -> list[Bitmap]:
        return self.inputs + self.new()

    def export_runs(self) -> list[int]:
        return [len(self.inputs), len(self.new())] if self.runs is None else self.runs

    def exported(self) -> list[Bitmap]:
        """The symbols that others get of it."""
        symbols, chosen_ones, at = self.symbols(), [], 0
        for turn, run in enumerate(self.export_runs()):
            if turn % 2:
                chosen_ones += symbols[at : at + run]
            at += run
        return chosen_ones

    def flags(self) -> int:
        flags = self.prefix | self.aggregates << 1 | chosen(TABLES, self.tables)[1] << 2
        flags |= self.uses_contexts << 8 | self.keeps_contexts << 9
        return flags | self.templates.generic.template << 10 | self.templates.refinement.template << 12


class CoderSymbols:
    """Writes a dictionary by the arithmetic encoder."""

    def __init__(self, dictionary: SymbolDictionary) -> None:
        self.encoder = ArithmeticEncoder()
        self.procedures = Procedures(self.encoder)
        self.templates = dictionary.templates
        self.id_length = code_length(len(dictionary.symbols()))
        self.text = CoderText(self.procedures, self.templates.refining, self.id_length)

    def put(self, name: str, value: int | None) -> None:
        self.procedures.integer(name, value)

    def put_symbol(self, symbol: Bitmap) -> None:
        encode_generic(self.encoder, self.templates.contexts, symbol, self.templates.generic)

    def put_refined(self, symbol: NewSymbol, reference: Bitmap) -> None:
        self.procedures.symbol_id(symbol.refines, self.id_length)
        self.procedures.integer("IARDX", symbol.shift[0])
        self.procedures.integer("IARDY", symbol.shift[1])
        templates = self.templates
        encode_refinement(
            self.encoder, templates.refining, symbol.bitmap, reference, symbol.shift, templates.refinement
        )

    def end_class(self, its_class: HeightClass) -> None:
        pass

    def finished(self) -> bytes:
        return self.encoder.finished()


class PrefixSymbols:
    """Writes a dictionary by prefix codes: symbols by the class, or each refined or put together."""

    def __init__(self, dictionary: SymbolDictionary) -> None:
        self.bits = Bits()
        self.tables = {**chosen(TABLES, dictionary.tables)[0], "IAEX": STANDARD[1]}
        self.templates = dictionary.templates
        count = len(dictionary.symbols())
        self.id_length = max(1, code_length(count))
        self.text = PrefixText(self.bits, AGGREGATE_TABLES, [self.id_length] * count, self.templates.refining)

    def put(self, name: str, value: int | None) -> None:
        self.tables[name].put(self.bits, settled(name, value))

    def put_symbol(self, symbol: Bitmap) -> None:
        pass

    def put_refined(self, symbol: NewSymbol, reference: Bitmap) -> None:
        encoder = ArithmeticEncoder()
        templates = self.templates
        encode_refinement(encoder, templates.refining, symbol.bitmap, reference, symbol.shift, templates.refinement)
        self.bits.put(settled("symbol id", symbol.refines, self.id_length), self.id_length)
        STANDARD[15].put(self.bits, settled("IARDX", symbol.shift[0]))
        STANDARD[15].put(self.bits, settled("IARDY", symbol.shift[1]))
        put_sized(self.bits, STANDARD[1], encoder.finished())

    def end_class(self, its_class: HeightClass) -> None:
        """The collective bitmap of a height class (6.5.9)."""
        collective = side_by_side([symbol.bitmap for symbol in its_class.symbols])
        if its_class.collective == PLAIN:
            self.put("size", 0)
            self.bits.align()
            self.bits.put_bytes(collective.packed())
        else:
            ends_block = its_class.collective == MMR_WITH_END
            put_sized(self.bits, self.tables["size"], t6.encoded(collective, ends_block))

    def finished(self) -> bytes:
        return self.bits.bytes()


def put_new(
    writer: CoderSymbols | PrefixSymbols, dictionary: SymbolDictionary, symbol: NewSymbol, so_far: list[Bitmap]
) -> None:
    """Writes one new symbol after its width."""
    if not dictionary.aggregates:
        writer.put_symbol(symbol.bitmap)
    elif symbol.text is None:
        writer.put("IAAI", 1)
        writer.put_refined(symbol, so_far[symbol.refines])
    else:
        writer.put("IAAI", symbol.text.count())
        encode_text(writer.text, symbol.text, aggregate_settings(dictionary.templates.refinement), so_far)


def aggregate_settings(form: RefinementForm) -> Settings:
    """The settings of the text regions that put a symbol together (Table 17)."""
    return Settings(refined=True, template=form.template, pixels=form.pixels)


def put_classes(writer: CoderSymbols | PrefixSymbols, dictionary: SymbolDictionary) -> None:
    so_far = list(dictionary.inputs)
    height_before = 0
    for its_class in dictionary.classes:
        writer.put("IADH", its_class.height - height_before)
        height_before, width_before = its_class.height, 0
        for symbol in its_class.symbols:
            writer.put("IADW", symbol.bitmap.width - width_before)
            width_before = symbol.bitmap.width
            put_new(writer, dictionary, symbol, so_far)
            so_far.append(symbol.bitmap)
        writer.put("IADW", None)
        if not dictionary.aggregates:
            writer.end_class(its_class)


def dictionary_data(dictionary: SymbolDictionary) -> bytes:
    """The data of a symbol dictionary segment. The contexts of its templates are then as they stand at its end."""
    templates = dictionary.templates
    head = field("dictionary flags", dictionary.flags(), 2)
    if not dictionary.prefix:
        head += pairs("adaptive pixel", templates.generic.places)
    if dictionary.aggregates:
        head += templates.refinement.pixel_bytes()
    head += field("exported symbols", len(dictionary.exported())) + field("new symbols", len(dictionary.new()))
    writer = (PrefixSymbols if dictionary.prefix else CoderSymbols)(dictionary)
    put_classes(writer, dictionary)
    for run in dictionary.export_runs():
        writer.put("IAEX", run)
    return head + writer.finished()
