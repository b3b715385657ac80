"""Fields: the numbers of headers and of coded data, each with a name, and a way to change one before it is written."""
from __future__ import annotations

import contextlib
from collections.abc import Callable, Iterator, Sequence
from typing import Optional

# What a field is written as: of its name, its value, and its bits or None.
Change = Callable[[str, Optional[int], Optional[int]], Optional[int]]
_change: Change | None = None


@contextlib.contextmanager
def changed_by(change: Change) -> Iterator[None]:
    """While this lasts, each field is written as `change(name, value, bits)` returns it.

    `bits` is the size of a field of fixed size, and None for a number that is coded by the integer procedures or by a
    prefix code. There the value may be None, for out of band.
    """
    global _change
    before, _change = _change, change
    try:
        yield
    finally:
        _change = before


def settled(name: str, value: int | None, bits: int | None = None) -> int | None:
    """The value of a field that is to be written."""
    return value if _change is None else _change(name, value, bits)


def number(value: int, size: int = 4) -> bytes:
    """A number of `size` bytes, the high byte first; a negative one as its two's complement."""
    return (value % 256**size).to_bytes(size, "big")


def field(name: str, value: int, size: int = 4) -> bytes:
    """A field of `size` bytes."""
    return number(settled(name, value, 8 * size), size)


def pairs(name: str, places: Sequence[tuple[int, int]]) -> bytes:
    """Places of adaptive pixels: a signed byte for x and one for y of each."""
    data = b""
    for at, (x, y) in enumerate(places, 1):
        data += field(f"{name} x{at}", x, 1) + field(f"{name} y{at}", y, 1)
    return data
