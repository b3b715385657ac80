"""Bytes and bits from the front of data."""
from .answers import Fault, Refused, refuse_if


class Reader:
    """A place in bytes, counted in bits. A refused read of bytes moves nothing, one of bits moves to the end."""

    def __init__(self, data):
        self.data = data
        self.place = 0

    @property
    def byte_place(self):
        """The place in whole bytes, the next one where it lies in a byte."""
        return (self.place + 7) // 8

    @property
    def bits_left(self):
        return 8 * len(self.data) - self.place

    def number(self, size, signed=False):
        """A number of `size` bytes."""
        return int.from_bytes(self.take(size), "big", signed=signed)

    def take(self, count):
        """The next bytes, from a whole byte on."""
        start = self.byte_place
        refuse_if(start + count > len(self.data), Fault.UNEXPECTED_EOF)
        self.place = 8 * (start + count)
        return self.data[start : start + count]

    def rest(self):
        """All bytes that are left, which stay where they are."""
        return self.data[self.byte_place :]

    def bits(self, count, fault):
        """A number of `count` bits; `fault` where they end."""
        if count > self.bits_left:
            self.place = 8 * len(self.data)
            raise Refused(fault)
        value = 0
        for _ in range(count):
            value = value << 1 | self.data[self.place >> 3] >> (7 - self.place % 8) & 1
            self.place += 1
        return value

    def align(self):
        self.place = 8 * self.byte_place
