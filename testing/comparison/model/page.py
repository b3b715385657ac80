"""Segments, files and pages: which segments there are, and what they draw (7.2, 7.3, 7.4.8, 8 and Annex D)."""
import copy
import dataclasses

from . import regions
from .answers import Fault, Refused, Work, refuse_if
from .bitmap import Bitmap, refuse_large
from .bits import Reader
from .prefix import custom_table
from .symbols import MOST_SYMBOLS, DictionaryReader

IDENTIFICATION = bytes.fromhex("974A42320D0A1A0A")
UNKNOWN = 0xFFFFFFFF
TEXT, HALFTONE, GENERIC, REFINEMENT = (4, 6, 7), (20, 22, 23), (36, 38, 39), (40, 42, 43)
REGIONS = TEXT + HALFTONE + GENERIC + REFINEMENT
INTERMEDIATE = (4, 20, 36, 40)
SYMBOLS, PATTERNS, TABLES, EXTENSION = 0, 16, 53, 62
PAGE, END_OF_PAGE, END_OF_STRIPE, END_OF_FILE = 48, 49, 50, 51
KNOWN = (SYMBOLS, PATTERNS, *REGIONS, PAGE, END_OF_PAGE, END_OF_STRIPE, END_OF_FILE, 52, TABLES, 54, EXTENSION)
KEPT = (SYMBOLS, PATTERNS, TABLES, EXTENSION)


@dataclasses.dataclass
class Segment:
    """A segment; `length` is None where it is unknown. One that is cut off has the data that is there."""

    number: int
    kind: int
    referred: list
    page: int
    length: object
    data: bytes = b""
    is_cut: bool = False


@dataclasses.dataclass
class CutOff:
    """The segment at which a list ends early: its number, as far as it is there, and its fault."""

    number: object
    fault: Fault


def cut_off_at(here, fault):
    """The cut-off of the bytes from a segment on."""
    return CutOff(int.from_bytes(here[:4], "big") if len(here) >= 4 else None, fault)


@dataclasses.dataclass
class Drawn:
    """A page: its bitmap, and the numbers and faults of the segments that it lacks, the one that is cut off at the end;
    `shared_lacks` are those of the globals."""

    bitmap: Bitmap
    lacks: list
    shared_lacks: list


def segment_header(reader, strict):
    number, flags = reader.number(4), reader.number(1)
    kind = flags & 63
    refuse_if(strict and kind not in KNOWN, Fault.UNKNOWN_TYPE)
    count = reader.number(1)
    refuse_if(count >> 5 in (5, 6), Fault.INVALID_REFERRED_COUNT)
    if count >> 5 == 7:
        count = (count & 31) << 24 | reader.number(3)
        reader.take((count + 8) // 8)
    else:
        count >>= 5
    size = 1 if number <= 256 else 2 if number <= 65536 else 4
    names = Reader(reader.take(count * size))
    referred = [names.number(size) for _ in range(count)]
    refuse_if(any(name >= number for name in referred), Fault.INVALID_REFERENCE)
    page = reader.number(4 if flags & 64 else 1)
    length = reader.number(4)
    refuse_if(strict and length == UNKNOWN and kind != 38, Fault.INVALID_UNKNOWN_LENGTH)
    return Segment(number, kind, referred, page, None if length == UNKNOWN else length)


def with_data(reader, segment):
    """The segment with its data from the front of the reader (7.2.7)."""
    length = segment.length
    if length is None:
        head = Reader(reader.rest())
        head.take(17)
        flags = head.number(1)
        head.take(0 if flags & 1 else 2 if flags & 6 else 24 if flags & 16 else 8)
        marker = b"\0\0" if flags & 1 else b"\xff\xac"
        place = head.data.find(marker, head.byte_place, len(head.data) - 4)
        refuse_if(place < 0, Fault.MISSING_END_MARKER)
        length = place + 6
    return dataclasses.replace(segment, data=reader.take(length))


def by_number(segments):
    return sorted(segments, key=lambda segment: segment.number)


def sequential(data, strict):
    """The segments of a sequential list in order, and the cut-off or None."""
    segments, cut_off, reader = [], None, Reader(data)
    while reader.bits_left and cut_off is None and not (segments and segments[-1].kind == END_OF_FILE):
        here = reader.rest()
        try:
            segments.append(with_data(reader, segment_header(reader, strict)))
        except Refused as refused:
            if strict or refused.fault is not Fault.UNEXPECTED_EOF:
                raise
            cut_off = cut_off_at(here, refused.fault)
    return by_number(segments), cut_off


def random_access(data, strict):
    """The segments of a list in random access in order, of which none is cut off."""
    headers, reader = [], Reader(data)
    while reader.bits_left and not (headers and headers[-1].kind == END_OF_FILE):
        headers.append(segment_header(reader, strict))
    return by_number([with_data(reader, header) for header in headers]), None


def page_size(segments, height_without_stripes=lambda segments: 0):
    """Width, height and default pixel of a page (7.4.8)."""
    first = next((segment for segment in segments if segment.kind == PAGE), None)
    refuse_if(first is None, Fault.MISSING_PAGE_INFO)
    reader = Reader(first.data)
    width, height = reader.number(4), reader.number(4)
    reader.take(8)
    flags = reader.number(1)
    reader.take(2)
    if height == UNKNOWN:
        stripes = [segment.data for segment in segments if segment.kind == END_OF_STRIPE and len(segment.data) == 4]
        rows = [int.from_bytes(data, "big") for data in stripes if data != b"\xff" * 4]
        height = max(rows) + 1 if rows else height_without_stripes(segments)
        refuse_if(height == 0, Fault.UNKNOWN_PAGE_HEIGHT)
    refuse_if(width == 0 or height == 0, Fault.EMPTY_PAGE)
    refuse_large(width, height)
    return width, height, flags >> 2 & 1


class Names:
    """What segments left under their numbers, the page's own before those of the globals."""

    def __init__(self, shared=None):
        self.own = {}
        self.shared = shared

    def keep(self, segment, kind, value):
        self.own.setdefault((kind, segment.number), value)

    def find(self, kind, number):
        found = self.own.get((kind, number))
        return found if found is not None or self.shared is None else self.shared.find(kind, number)

    def referred(self, segment, strict):
        """The symbol dictionaries and the custom tables that a segment refers to, in order."""
        dictionaries, tables, count = [], [], 0
        for number in segment.referred:
            if (dictionary := self.find(SYMBOLS, number)) is not None:
                dictionaries.append(dictionary)
                count += len(dictionary.symbols)
                refuse_if(count > MOST_SYMBOLS, Fault.SYMBOL_COUNT)
            elif (table := self.find(TABLES, number)) is not None:
                tables.append(table)
            else:
                refuse_if(strict, Fault.INVALID_REFERENCE)
        return dictionaries, tables


class Drawing:
    """Goes through segments: keeps what they name, and draws on a page; the page is None for globals. Lenient reading notes in
    `passed_over` each segment that strict reading refuses as it stands, with its fault."""

    def __init__(self, work, strict, names, page=None):
        self.work = work
        self.strict = strict
        self.names = names
        self.page = page
        self.passed_over = []

    def decoded(self, segment):
        """What a segment comes to with the names and the page that are there, which stay as they are."""
        if segment.kind == SYMBOLS:
            referred, tables = self.names.referred(segment, self.strict)
            return DictionaryReader(self.work, segment.data, referred, tables, self.strict).decode()
        if segment.kind == PATTERNS:
            return regions.patterns(self.work, segment.data, self.strict)
        if segment.kind == TABLES:
            return custom_table(segment.data)
        if segment.kind in REGIONS:
            return self.region(segment)
        if self.strict:
            refuse_if(segment.kind not in KNOWN, Fault.UNKNOWN_TYPE)
            refuse_if(segment.kind == EXTENSION and Reader(segment.data).number(4) >> 31, Fault.UNSUPPORTED)
        return None

    def region(self, segment):
        """A region of any kind."""
        data, strict = segment.data, self.strict
        first = segment.referred[0] if segment.referred else None
        if segment.kind in TEXT:
            dictionaries, tables = self.names.referred(segment, strict)
            symbols = [symbol for dictionary in dictionaries for symbol in dictionary.symbols]
            return regions.text_region(self.work, data, symbols, tables, strict, segment.is_cut)
        if segment.kind in HALFTONE:
            found = None if first is None else self.names.find(PATTERNS, first)
            refuse_if(found is None, Fault.MISSING_PATTERN_DICTIONARY)
            return regions.Halftone(self.work, data, found, strict, segment.is_cut).decode()
        if segment.kind in GENERIC:
            return regions.generic_region(self.work, data, segment.kind, segment.length is None, strict, segment.is_cut)
        reference = None if first is None else self.names.own.get(("region", first))
        refuse_if(strict and reference is None and (first is not None or segment.kind == 40), Fault.INVALID_REFERENCE)
        return regions.refinement_region(self.work, data, reference, self.page, segment.is_cut)

    def strict_fault(self, segment):
        """What strict reading refuses a segment for, or None. Its work isn't counted: the segment is read once more."""
        try:
            Drawing(copy.copy(self.work), True, self.names, self.page).decoded(segment)
        except Refused as refused:
            return refused.fault
        return None

    def is_passed_over(self, segment):
        """Whether a segment that fails is passed over."""
        return not self.strict and segment.kind in REGIONS and segment.kind not in INTERMEDIATE

    def draw(self, segment):
        """What a segment does. One that is cut off counts where its list ends."""
        is_counted = not self.strict and not segment.is_cut
        fault = self.strict_fault(segment) if is_counted else None
        try:
            self.put(segment, self.decoded(segment))
        except Refused as refused:
            if not self.is_passed_over(segment):
                raise
            fault = refused.fault
        if is_counted and fault is not None:
            self.passed_over.append((segment.number, fault))

    def put(self, segment, value):
        """Keeps what a segment comes to, or draws it."""
        if segment.kind in (SYMBOLS, PATTERNS, TABLES):
            self.names.keep(segment, segment.kind, value)
        elif segment.kind in INTERMEDIATE:
            self.names.keep(segment, "region", value)
        elif segment.kind in REGIONS:
            self.page.combine(self.work, value.bitmap, regions.signed(value.x), regions.signed(value.y), value.operator)

    def share(self, segments):
        """Goes through segments without a page. Only dictionaries, tables and extensions are read, and a type that is not
        listed counts."""
        for segment in segments:
            if segment.kind in KEPT or segment.kind not in KNOWN:
                self.draw(segment)
        return self

    def finish(self, segments):
        """Goes through those of a page."""
        for segment in segments:
            if segment.kind in (END_OF_PAGE, END_OF_FILE):
                break
            self.draw(segment)
        return self


def drawn(drawing, segments, shared, cut_off):
    """A page by its drawing; `shared` is that of the globals, or None."""
    drawing.finish(segments)
    cut = [] if cut_off is None else [(cut_off.number, cut_off.fault)]
    return Drawn(drawing.page, drawing.passed_over + cut, [] if shared is None else shared.passed_over)


def page_drawn(work, segments, shared, strict, cut_off):
    """A page by its segments; `shared` is the drawing of the globals, or None."""
    width, height, colour = page_size(segments)
    names = Names(None if shared is None else shared.names)
    drawing = Drawing(work, strict, names, Bitmap(work, width, height, colour))
    return drawn(drawing, segments, shared, cut_off)


def file_header(reader):
    """The flags of a file, and how many pages it states or None (D.4)."""
    refuse_if(reader.take(8) != IDENTIFICATION, Fault.INVALID_HEADER)
    flags = reader.number(1)
    refuse_if(flags & 0xF0, Fault.RESERVED_BITS)
    return flags, None if flags & 2 else reader.number(4)


def has_end(segments):
    return any(segment.kind == END_OF_PAGE for segment in segments)


def segments_of_pages(segments):
    """The segments of no page, and those of each page by its number."""
    pages = {}
    for segment in segments:
        if segment.page:
            pages.setdefault(segment.page, []).append(segment)
    return [segment for segment in segments if segment.page == 0], pages


class File:
    """A file (D.4): the pages' segments in order, and those of no page."""

    def __init__(self, data, strict):
        self.strict = strict
        reader = Reader(data)
        flags, count = file_header(reader)
        segments, self.cut_off = (sequential if flags & 1 else random_access)(reader.rest(), strict)
        self.shared, self.pages = segments_of_pages(segments)
        of_pages = (*REGIONS, PAGE, END_OF_PAGE, END_OF_STRIPE)
        if strict:
            refuse_if(any(segment.kind in of_pages for segment in self.shared), Fault.MISSING_PAGE_ASSOCIATION)
        refuse_if(strict and count is not None and count != len(self.pages), Fault.PAGE_COUNT_MISMATCH)
        for own in self.pages.values():
            ends = sum(segment.kind == END_OF_PAGE for segment in own)
            refuse_if(strict and ends != 1, Fault.INVALID_END_OF_PAGE)
            page_size(own)


def read_file(data, index, strict, work=None):
    """A page of a file, or what refuses it is raised."""
    work = work or Work()
    file = File(data, strict)
    refuse_if(index >= len(file.pages), Fault.NO_SUCH_PAGE)
    shared = Drawing(work, strict, Names()).share(file.shared)
    own = list(file.pages.values())[index]
    return page_drawn(work, own, shared, strict, None if has_end(own) else file.cut_off)


def read_embedded(shared, stream, strict, work=None):
    """An embedded page; `shared` are the bytes of its globals, or None."""
    work = work or Work()
    if shared is not None:
        shared = Drawing(work, strict, Names()).share(sequential(shared, strict)[0])
    segments, cut_off = sequential(stream, strict)
    return page_drawn(work, segments, shared, strict, cut_off)


def page_of_file(data, index, strict, work=None):
    """The bitmap of a page of a file."""
    return read_file(data, index, strict, work).bitmap


def embedded_page(shared, stream, strict, work=None):
    """The bitmap of an embedded page."""
    return read_embedded(shared, stream, strict, work).bitmap
