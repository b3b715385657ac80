"""The arithmetic decoder of Annex E, by its flow charts, with the integers and symbol ids of Annex A."""
# Qe, the next row after a likely symbol, after an unlikely one, and whether that turns the likely symbol (Table E.1).
TABLE = """
5601 1 1 1|3401 2 6 0|1801 3 9 0|0AC1 4 12 0|0521 5 29 0|0221 38 33 0|5601 7 6 1|5401 8 14 0|4801 9 14 0|3801 10 14 0
3001 11 17 0|2401 12 18 0|1C01 13 20 0|1601 29 21 0|5601 15 14 1|5401 16 14 0|5101 17 15 0|4801 18 16 0|3801 19 17 0
3401 20 18 0|3001 21 19 0|2801 22 19 0|2401 23 20 0|2201 24 21 0|1C01 25 22 0|1801 26 23 0|1601 27 24 0|1401 28 25 0
1201 29 26 0|1101 30 27 0|0AC1 31 28 0|09C1 32 29 0|08A1 33 30 0|0521 34 31 0|0441 35 32 0|02A1 36 33 0|0221 37 34 0
0141 38 35 0|0111 39 36 0|0085 40 37 0|0049 41 38 0|0025 42 39 0|0015 43 40 0|0009 44 41 0|0005 45 42 0|0001 45 43 0
5601 46 46 0
"""
ROWS = [line.split() for line in TABLE.replace("\n", "|").strip("|").split("|")]
# The same by a state, which is twice the row and the likely symbol.
SIZE = [int(row[0], 16) for row in ROWS for _ in (0, 1)]
AFTER_LIKELY = [2 * int(row[1]) + likely for row in ROWS for likely in (0, 1)]
AFTER_UNLIKELY = [2 * int(row[2]) + (likely ^ int(row[3])) for row in ROWS for likely in (0, 1)]
# The prefix of an integer's bits: how many bits its value has, and what is added (Table A.1).
RANGES = ((2, 0), (4, 4), (6, 20), (8, 84), (12, 340), (32, 4436))


class Coder:
    """Decides over bytes; each byte after them is FF."""

    def __init__(self, data):
        self.data = data
        self.place = 0
        self.interval = 0x8000
        self.code = self.byte(0) << 16
        self.byte_in()
        self.code <<= 7
        self.shifts -= 7

    @property
    def is_past_end(self):
        """Whether the byte read last, which is at `place`, is beyond the data, or an FF that ends them: how an FF is read
        depends on the byte after it."""
        return self.place >= len(self.data) - self.data.endswith(b"\xff")

    def byte(self, place):
        return self.data[place] if place < len(self.data) else 0xFF

    def byte_in(self):
        following = self.byte(self.place + 1)
        if self.byte(self.place) != 0xFF:
            self.place += 1
            self.code += following << 8
            self.shifts = 8
        elif following > 0x8F:
            self.code += 0xFF00
            self.shifts = 8
        else:
            self.place += 1
            self.code += following << 9
            self.shifts = 7

    def decide(self, contexts, context):
        """A decision in a context of a bytearray of states."""
        state = contexts[context]
        size = SIZE[state]
        self.interval -= size
        if self.code >> 16 < size:
            is_likely = self.interval < size
            self.interval = size
        else:
            self.code -= size << 16
            if self.interval & 0x8000:
                return state & 1
            is_likely = self.interval >= size
        contexts[context] = AFTER_LIKELY[state] if is_likely else AFTER_UNLIKELY[state]
        while self.interval < 0x8000:
            if self.shifts == 0:
                self.byte_in()
            self.interval <<= 1
            self.code <<= 1
            self.shifts -= 1
        return state & 1 if is_likely else 1 ^ state & 1


class Integers:
    """The integer procedures by their names, and the ids, over one coder."""

    def __init__(self, coder, work):
        self.coder = coder
        self.work = work
        self.contexts = {}

    def read(self, name):
        """A number, or None for out of band (A.2)."""
        self.work.decide(8)
        contexts = self.contexts.setdefault(name, bytearray(512))
        before = 1

        def bits(count):
            nonlocal before
            value = 0
            for _ in range(count):
                bit = self.coder.decide(contexts, before)
                value = value << 1 | bit
                before = before << 1 | bit if before < 256 else (before << 1 | bit) & 511 | 256
            return value

        is_negative, place = bits(1), 0
        while place < 5 and bits(1):
            place += 1
        count, least = RANGES[place]
        value = (bits(count) + least) % (1 << 32)
        if is_negative and value == 0:
            return None
        value = (-value if is_negative else value) % (1 << 32)
        return value - (1 << 32) if value >> 31 else value

    def read_id(self, length):
        """An id of n bits (A.3)."""
        self.work.decide(length)
        contexts = self.contexts.setdefault("IAID", bytearray(1 << length))
        before = 1
        for _ in range(length):
            before = before << 1 | self.coder.decide(contexts, before)
        return before - (1 << length)
