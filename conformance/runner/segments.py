"""Cuts files and streams into segments (T.88, 7.2 and Annex D), as far as their headers can be read."""
from __future__ import annotations

import dataclasses
from collections.abc import Iterable, Iterator

IDENTIFICATION = bytes.fromhex("974A42320D0A1A0A")
UNKNOWN_LENGTH = 0xFFFFFFFF
TABLES_AND_DICTIONARIES = (0, 16, 53)
PAGE_INFORMATION, END_OF_PAGE, END_OF_STRIPE, END_OF_FILE = 48, 49, 50, 51


@dataclasses.dataclass(frozen=True)
class Segment:
    """A segment: its header up to the page association, the association, and its data with the field of its length."""

    number: int
    kind: int
    beginning: bytes
    page: int
    length: bytes
    data: bytes = b""

    def on_page(self, page: int) -> bytes:
        """The segment's bytes with another page association of the same size."""
        size = 4 if self.beginning[4] & 0x40 else 1
        return self.beginning + page.to_bytes(size, "big") + self.length + self.data


class CutOff(Exception):
    """The bytes end inside a segment, or its header has no meaning."""


def header_at(data: bytes, place: int) -> tuple[Segment, int]:
    """The segment header at a place, and the place after it (7.2)."""

    def number(at: int, size: int) -> int:
        if at + size > len(data):
            raise CutOff
        return int.from_bytes(data[at : at + size], "big")

    own, flags, count = number(place, 4), number(place + 4, 1), number(place + 5, 1) >> 5
    at = place + 6
    if count == 7:
        count = number(place + 5, 4) & 0x1FFFFFFF
        at = place + 9 + (count + 8) // 8
    at += count * (1 if own <= 256 else 2 if own <= 65536 else 4)
    size = 4 if flags & 0x40 else 1
    page = number(at, size)
    number(at + size, 4)
    end = at + size + 4
    return Segment(own, flags & 63, data[place:at], page, data[at + size : end]), end


def with_data(segment: Segment, data: bytes, place: int) -> tuple[Segment, int]:
    """The segment with its data, which start at a place, and the place after them."""
    length = int.from_bytes(segment.length, "big")
    if length == UNKNOWN_LENGTH:
        length = unknown_length(data, place)
    if place + length > len(data):
        raise CutOff
    return dataclasses.replace(segment, data=data[place : place + length]), place + length


def unknown_length(data: bytes, place: int) -> int:
    """How many bytes the data have that a marker and a row count end (7.2.7)."""
    if place + 18 > len(data):
        raise CutOff
    flags = data[place + 17]
    pixels = 0 if flags & 1 else 2 if flags & 6 else 24 if flags & 16 else 8
    marker = data.find(b"\0\0" if flags & 1 else b"\xff\xac", place + 18 + pixels)
    if marker < 0:
        raise CutOff
    return marker + 6 - place


def sequential(data: bytes) -> list[Segment]:
    """The whole segments of a sequential list, up to the first that is cut off."""
    segments, place = [], 0
    try:
        while place < len(data):
            segment, place = header_at(data, place)
            segment, place = with_data(segment, data, place)
            segments.append(segment)
            if segment.kind == END_OF_FILE:
                break
    except CutOff:
        pass
    return segments


def random_access(data: bytes) -> list[Segment]:
    """The whole segments of a list with all headers first (D.2)."""
    headers, segments, place = [], [], 0
    try:
        while place < len(data):
            header, place = header_at(data, place)
            headers.append(header)
            if header.kind == END_OF_FILE:
                break
        for header in headers:
            segment, place = with_data(header, data, place)
            segments.append(segment)
    except CutOff:
        pass
    return segments


def header_length(data: bytes) -> int:
    """How many bytes the header of a file has (D.4)."""
    return 9 if data[8:9] and data[8] & 2 else 13


def cut(data: bytes) -> tuple[bytes, list[bytes]]:
    """The header of a file and the bytes of its segments. What can't be cut is one piece: data of unknown length with all
    that follows them, and a list with all headers first."""
    place, pieces = header_length(data), []
    header = data[:place]
    if not data[8:9] or not data[8] & 1:
        return header, [data[place:]]
    while place < len(data):
        try:
            segment, end = header_at(data, place)
            end += int.from_bytes(segment.length, "big")
        except CutOff:
            end = len(data)
        pieces.append(data[place:end])
        place = end
    return header, pieces


def parts_of(data: bytes) -> Iterator[tuple[int, bytes]]:
    """The type and the data of each segment of a file, as far as its headers can be read; data may be cut off."""
    place, waiting = header_length(data), []
    try:
        while place < len(data):
            segment, place = header_at(data, place)
            length = int.from_bytes(segment.length, "big")
            if data[8] & 1:
                yield segment.kind, data[place : place + length]
                place += length
            else:
                waiting.append((segment.kind, length))
                if segment.kind == END_OF_FILE:
                    break
    except CutOff:
        pass
    for kind, length in waiting:
        yield kind, data[place : place + length]
        place += length


def in_random_access(header: bytes, segments: Iterable[bytes]) -> tuple[bytes, list[bytes]]:
    """The header and the parts of the same file with all segment headers first (D.2)."""
    places = [(piece, header_at(piece, 0)[1]) for piece in segments]
    parts = [piece[:place] for piece, place in places] + [piece[place:] for piece, place in places]
    return header[:8] + bytes([header[8] & 0xFE]) + header[9:], parts


def segments_of_file(data: bytes) -> list[Segment]:
    """The whole segments of a file with a header (D.4), in the order of their bytes."""
    if len(data) < 9 or not data.startswith(IDENTIFICATION):
        return []
    place = header_length(data)
    return sequential(data[place:]) if data[8] & 1 else random_access(data[place:])


def pages_of(segments: Iterable[Segment]) -> list[int]:
    """The numbers of the pages in the order in which they first occur, by segment number."""
    in_order = sorted(segments, key=lambda segment: segment.number)
    return list(dict.fromkeys(segment.page for segment in in_order if segment.page))
