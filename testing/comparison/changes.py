"""Documents in which one field is written as another value: 0, 1, a limit, one past it, a flag turned, out of band."""
import random

from testing.comparison.small_documents import small_document
from testing.jbig2_encoder import fields

# How many runs are made of a document.
RUNS_OF_DOCUMENT = 64
# Sizes and counts that some rule has for its limit, of 16, 20 and 31 bits.
LIMITS = [1 << 16, (1 << 20) + 1, 1 << 31]
INTEGERS = [0, 1, -1, 2, None] + [limit + at for limit in LIMITS for at in (-1, 0)] + [-(1 << 31), -(1 << 31) - 1]


def values_for(name, value, bits):
    """What a field may be written as in place of its value."""
    if bits is None:
        values = INTEGERS if value is None else INTEGERS + [value - 1, value + 1]
    elif bits == 0:
        values = []
    else:
        values = [0, 1, value - 1, value + 1, (1 << bits) - 1, (1 << bits) - 2, 1 << bits - 1, (1 << bits - 1) - 1]
        values += [limit + at for limit in LIMITS for at in (-1, 0)]
        if "flags" in name:
            values += [value ^ 1 << bit for bit in range(bits)]
        values = [one for one in values if 0 <= one < 1 << bits]
    return [one for one in dict.fromkeys(values) if one != value]


class Changes:
    """The changes of one document's fields, in an order that depends on its number."""

    def __init__(self, document, seed):
        self.source = f"{seed}/{document}"
        self.seen = []
        with fields.changed_by(self.note):
            self.whole, self.pages = small_document(self.source)
        changes = [(place, other) for place, field in enumerate(self.seen) for other in values_for(*field)]
        random.Random(self.source).shuffle(changes)
        self.changes = changes

    def note(self, name, value, bits):
        # A coordinate may be negative: a field of bytes holds its two's complement.
        self.seen.append((name, value if bits is None else value % (1 << bits), bits))
        return value

    def changed(self, wanted):
        """The bytes with one field changed, and what was changed; from `wanted` on, the first that can be written."""
        for place, other in self.changes[wanted::RUNS_OF_DOCUMENT]:
            data = self.written(place, other)
            if data is not None and data != self.whole:
                name, value, _ = self.seen[place]
                return data, f"{name} {value} as {other}"
        return None, None

    def written(self, place, other):
        """The bytes with a field written as another value; None where a code has no word for it."""
        place_now = -1

        def change(name, value, bits):
            nonlocal place_now
            place_now += 1
            return other if place_now == place else value

        try:
            with fields.changed_by(change):
                return small_document(self.source)[0]
        except (KeyError, TypeError, StopIteration, ValueError, IndexError, OverflowError):
            return None
