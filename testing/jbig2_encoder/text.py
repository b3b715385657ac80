"""Text regions (6.4, 7.4.3): strips of symbol instances, how they are coded in either way, and what they draw."""
from __future__ import annotations

import dataclasses
from collections.abc import Sequence

from .arithmetic import ArithmeticEncoder, Contexts, Procedures
from .bitmap import Bitmap, Place
from .fields import field, settled
from .prefix import STANDARD, Bits, Table, code_length, codes_of, even_lengths, put_symbol_codes
from .refinement import NOMINAL, RefinementForm, encode_refinement

# The selection and the table of some numbers by their names.
Choices = dict[str, tuple[int, Table]]
BOTTOM_LEFT, TOP_LEFT, BOTTOM_RIGHT, TOP_RIGHT = range(4)
RIGHT = (BOTTOM_RIGHT, TOP_RIGHT)
BOTTOM = (BOTTOM_LEFT, BOTTOM_RIGHT)
# The standard tables of each number by their selections, and the bits of a selection, in the order of the flags
# (7.4.3.1.2).
TABLES = (
    ("IAFS", {0: 6, 1: 7}, 2), ("IADS", {0: 8, 1: 9, 2: 10}, 2), ("IADT", {0: 11, 1: 12, 2: 13}, 2),
    ("IARDW", {0: 14, 1: 15}, 2), ("IARDH", {0: 14, 1: 15}, 2), ("IARDX", {0: 14, 1: 15}, 2),
    ("IARDY", {0: 14, 1: 15}, 2), ("size", {0: 1}, 1),
)


@dataclasses.dataclass
class Settings:
    """What a text region's flags say, and how its symbols are refined."""

    strip_log: int = 0
    corner: int = TOP_LEFT
    transposed: bool = False
    operator: int = 0
    colour: int = 0
    offset: int = 0
    refined: bool = False
    template: int = 0
    pixels: tuple[Place, Place] = NOMINAL

    @property
    def refinement(self) -> RefinementForm:
        return RefinementForm(self.template, self.pixels)

    def flags(self, prefix: bool) -> int:
        flags = prefix | self.refined << 1 | self.strip_log << 2 | self.corner << 4 | self.transposed << 6
        return flags | self.operator << 7 | self.colour << 9 | (self.offset & 31) << 10 | self.template << 15


@dataclasses.dataclass
class Instance:
    """A symbol in its place: `s` is where it starts along the strip, and `t` is added to the strip's T.

    `refined` is the bitmap that is drawn in its stead, or None. The symbol lies `shift` to the right of that bitmap
    and below it.
    """

    s: int
    symbol: int
    t: int = 0
    refined: Bitmap | None = None
    shift: Place = (0, 0)


@dataclasses.dataclass
class Strip:
    """The instances of one strip, and its T, a multiple of the strip size."""

    t: int
    instances: list[Instance]


@dataclasses.dataclass
class Text:
    """A text region's strips. The T before the first strip is -`start` strips."""

    strips: list[Strip]
    start: int = 0

    def count(self) -> int:
        return sum(len(strip.instances) for strip in self.strips)


def growth(symbol: Bitmap, settings: Settings) -> int:
    """How far S moves by a symbol that is placed (6.4.5, 3c)."""
    return (symbol.height if settings.transposed else symbol.width) - 1


def draw_text(text: Text, settings: Settings, symbols: Sequence[Bitmap], bitmap: Bitmap) -> None:
    """Draws all instances on a bitmap."""
    for strip in text.strips:
        for instance in strip.instances:
            symbol = instance.refined or symbols[instance.symbol]
            s, t = instance.s, strip.t + instance.t
            if settings.corner in (BOTTOM if settings.transposed else RIGHT):
                s += growth(symbol, settings)
            left, top = (t, s) if settings.transposed else (s, t)
            if settings.corner in RIGHT:
                left -= symbol.width - 1
            if settings.corner in BOTTOM:
                top -= symbol.height - 1
            bitmap.combine(symbol, left, top, settings.operator)


class CoderText:
    """Writes the numbers of a text region by the arithmetic encoder."""

    def __init__(self, procedures: Procedures, refining: Contexts, id_length: int) -> None:
        self.procedures = procedures
        self.refining = refining
        self.id_length = id_length

    def takes(self, name: str, value: int | None) -> bool:
        return True

    def put(self, name: str, value: int | None) -> None:
        self.procedures.integer(name, value)

    def put_t(self, value: int, strip_log: int) -> None:
        if strip_log:
            self.procedures.integer("IAIT", value)

    def put_id(self, value: int) -> None:
        self.procedures.symbol_id(value, self.id_length)

    def put_flag(self, value: int) -> None:
        self.procedures.integer("IARI", value)

    def put_refined(self, bitmap: Bitmap, reference: Bitmap, shift: Place, form: RefinementForm) -> None:
        encode_refinement(self.procedures.encoder, self.refining, bitmap, reference, shift, form)


class PrefixText:
    """Writes the numbers of a text region by prefix codes; a refinement has an encoder of its own."""

    def __init__(self, bits: Bits, tables: dict[str, Table], id_lengths: Sequence[int], refining: Contexts) -> None:
        self.bits = bits
        self.tables = tables
        self.id_codes = codes_of(id_lengths)
        self.id_lengths = id_lengths
        self.refining = refining

    def takes(self, name: str, value: int | None) -> bool:
        return self.tables[name].takes(value)

    def put(self, name: str, value: int | None) -> None:
        self.tables[name].put(self.bits, settled(name, value))

    def put_t(self, value: int, strip_log: int) -> None:
        self.bits.put(settled("IAIT", value, strip_log), strip_log)

    def put_id(self, value: int) -> None:
        value = settled("symbol id", value)
        self.bits.put(self.id_codes[value], self.id_lengths[value])

    def put_flag(self, value: int) -> None:
        self.bits.put(settled("IARI", value, 1), 1)

    def put_refined(self, bitmap: Bitmap, reference: Bitmap, shift: Place, form: RefinementForm) -> None:
        encoder = ArithmeticEncoder()
        encode_refinement(encoder, self.refining, bitmap, reference, shift, form)
        put_sized(self.bits, self.tables["size"], encoder.finished())


def put_sized(bits: Bits, table: Table, data: bytes) -> None:
    """A number of bytes by a code, and then, from a whole byte on, the bytes."""
    table.put(bits, settled("size", len(data)))
    bits.align()
    bits.put_bytes(data)


def encode_text(writer: CoderText | PrefixText, text: Text, settings: Settings, symbols: Sequence[Bitmap]) -> None:
    """Writes all strips (6.4.5)."""
    writer.put("IADT", text.start)
    strip_before, first_before = -text.start, 0
    for strip in text.strips:
        strip_at = strip.t >> settings.strip_log
        writer.put("IADT", strip_at - strip_before)
        strip_before, s = strip_at, None
        for instance in strip.instances:
            if s is None:
                writer.put("IAFS", instance.s - first_before)
                first_before = instance.s
            else:
                writer.put("IADS", instance.s - s - settings.offset)
            writer.put_t(instance.t, settings.strip_log)
            s = instance.s + put_instance(writer, instance, settings, symbols[instance.symbol])
        writer.put("IADS", None)


def put_instance(writer: CoderText | PrefixText, instance: Instance, settings: Settings, symbol: Bitmap) -> int:
    """Writes one instance from its id on, and returns how far S moves."""
    writer.put_id(instance.symbol)
    if settings.refined:
        writer.put_flag(int(instance.refined is not None))
    if instance.refined is None:
        return growth(symbol, settings)
    refined = instance.refined
    width, height = refined.width - symbol.width, refined.height - symbol.height
    writer.put("IARDW", width)
    writer.put("IARDH", height)
    writer.put("IARDX", instance.shift[0] - (width >> 1))
    writer.put("IARDY", instance.shift[1] - (height >> 1))
    writer.put_refined(refined, symbol, instance.shift, settings.refinement)
    return growth(refined, settings)


@dataclasses.dataclass
class TextForm:
    """How a text region is coded.

    `tables` has a selection and a table by a number's name, for those that are not the first standard one.
    `id_lengths` are the lengths of the symbols' codes, and `run_lengths` those of the run codes.
    """

    prefix: bool = False
    tables: Choices = dataclasses.field(default_factory=dict)
    id_lengths: Sequence[int] | None = None
    run_lengths: Sequence[int] | None = None


def chosen(names: Sequence[tuple], tables: Choices) -> tuple[dict[str, Table], int]:
    """The tables of these numbers, and the selections that name them as flags."""
    chosen_tables, flags, place = {}, 0, 0
    for name, standard, width in names:
        selection, table = tables.get(name) or (0, STANDARD[standard[0]])
        chosen_tables[name] = table
        flags |= selection << place
        place += width
    return chosen_tables, flags


def text_data(text: Text, settings: Settings, symbols: Sequence[Bitmap], form: TextForm) -> bytes:
    """The data of a text region after its region information."""
    head = field("text flags", settings.flags(form.prefix), 2)
    tables, flags = chosen(TABLES, form.tables)
    if form.prefix:
        head += field("Huffman flags", flags, 2)
    if settings.refined:
        head += settings.refinement.pixel_bytes()
    head += field("instances", text.count())
    if not form.prefix:
        encoder = ArithmeticEncoder()
        encode_text(CoderText(Procedures(encoder), {}, code_length(len(symbols))), text, settings, symbols)
        return head + encoder.finished()
    bits = Bits()
    lengths = even_lengths(len(symbols)) if form.id_lengths is None else form.id_lengths
    put_symbol_codes(bits, lengths, form.run_lengths)
    encode_text(PrefixText(bits, tables, lengths, {}), text, settings, symbols)
    return head + bits.bytes()
