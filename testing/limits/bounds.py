"""How many bytes of memory may be asked for, by the units that were paid and the bytes that were read."""
from __future__ import annotations

import dataclasses
from collections.abc import Iterable

from .trials import Taken


@dataclasses.dataclass(frozen=True)
class Bound:
    """The most bytes that may be asked for: for each unit, for each byte that is read without being paid, besides."""

    for_a_unit: int
    for_a_byte: int
    besides: int

    def excess(self, one: Taken) -> int:
        """The bytes that were asked for besides those for units and bytes; less than 0 where not all of them were."""
        return one.asked - self.for_a_unit * one.units - self.for_a_byte * one.unpaid

    def most(self, taken: Iterable[Taken]) -> tuple[int, str]:
        """The greatest excess, and what has it."""
        return max(((self.excess(one), one.name) for one in taken), default=(0, "nothing"))


# Of decoding. A symbol dictionary without symbols, which costs 5120 units, asks for some 81,300 bytes, most of them for
# the contexts of the coder. A page asks for contexts too, once.
DECODING = Bound(16, 0, 1 << 15)
# Of reading, before any unit is paid: the segments, and the standard tables. For a segment of 11 bytes, the least, some
# 648 are asked for, where lists have just grown and the segments are not in order.
READING = Bound(0, 59, 22528)
