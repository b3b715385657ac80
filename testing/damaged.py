"""Damages bytes at random."""
from __future__ import annotations

import random

EDGES = (0, 1, 0x7F, 0x80, 0xFF)


def damaged(chance: random.Random, data: bytes) -> bytes:
    """The bytes with one to three faults."""
    for _ in range(chance.choice((1, 1, 1, 2, 3))):
        if not data:
            break
        place = chance.randrange(len(data))
        kind = chance.randrange(4)
        if kind == 0:
            data = data[:place] + bytes([chance.choice(EDGES)]) + data[place + 1 :]
        elif kind == 1:
            data = data[:place] + bytes([data[place] ^ 1 << chance.randrange(8)]) + data[place + 1 :]
        elif kind == 2:
            data = data[:place] + data[place + chance.randrange(1, 9) :]
        else:
            data = data[:place] + bytes(chance.randrange(256) for _ in range(4)) + data[place:]
    return data
