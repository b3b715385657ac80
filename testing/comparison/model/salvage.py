"""Salvage (docs/FORMAT.md, 12.7) where a sequential list ends early: what is drawn of a page, and what it lacks."""
import dataclasses

from . import regions
from .answers import Fault, Refused, Work, refuse_if
from .bitmap import LARGEST, Bitmap
from .bits import Reader
from .page import INTERMEDIATE, REGIONS, END_OF_FILE
from .page import Drawing, Names, by_number, cut_off_at, drawn, file_header, has_end, page_size
from .page import segment_header, segments_of_pages, with_data


def is_drawn_in_part(segment):
    """Whether a segment whose data is cut off is drawn as far as it is there."""
    return segment.kind in REGIONS and segment.kind not in INTERMEDIATE


def salvaged_list(data):
    """The segments of a sequential list in order, with what is there of the last one, and the cut-off or None."""
    segments, cut_off, reader = [], None, Reader(data)
    while reader.bits_left and cut_off is None and not (segments and segments[-1].kind == END_OF_FILE):
        here, header = reader.rest(), None
        try:
            header = segment_header(reader, False)
            segments.append(with_data(reader, header))
        except Refused as refused:
            cut_off = cut_off_at(here, refused.fault)
            if header is not None and header.length is not None:
                part = dataclasses.replace(header, data=reader.rest(), is_cut=True)
                segments += [part] * is_drawn_in_part(part)
    return by_number(segments), cut_off


def lowest_end(segments):
    """The lowest end of a page's immediate regions, which is the height of a page that states none."""
    ends = [0]
    for segment in segments:
        if segment.kind in REGIONS and segment.kind not in INTERMEDIATE:
            try:
                region = regions.information_of(segment.data, segment.kind, segment.length is None)
            except Refused:
                continue
            ends.append(regions.signed(region.y) + region.height)
    return min(max(ends), LARGEST)


class Salvaging(Drawing):
    """Passes over all that fails."""

    def __init__(self, work, names, page=None):
        super().__init__(work, False, names, page)

    def is_passed_over(self, segment):
        return True


def shared_by(work, segments):
    """The drawing of segments without a page."""
    return Salvaging(work, Names()).share(segments)


def page_drawn(work, segments, shared, cut_off):
    """A page by its segments; `shared` is the drawing of the globals, or None."""
    width, height, colour = page_size(segments, lowest_end)
    names = Names(None if shared is None else shared.names)
    return drawn(Salvaging(work, names, Bitmap(work, width, height, colour)), segments, shared, cut_off)


def is_drawn(segments):
    """Whether a page of a file is not left out."""
    try:
        page_size(segments, lowest_end)
    except Refused:
        return False
    return True


def page_of_file(data, index, work=None):
    """A page of a file in sequence, or what refuses it is raised."""
    work, reader = work or Work(), Reader(data)
    flags, _ = file_header(reader)
    if not flags & 1:
        raise NotImplementedError("random access")
    segments, cut_off = salvaged_list(reader.rest())
    shared, pages = segments_of_pages(segments)
    pages = {number: own for number, own in pages.items() if is_drawn(own)}
    refuse_if(index >= len(pages), Fault.NO_SUCH_PAGE)
    own = list(pages.values())[index]
    return page_drawn(work, own, shared_by(work, shared), None if has_end(own) else cut_off)


def embedded_page(shared, stream, work=None):
    """An embedded page; `shared` are the bytes of its globals, or None."""
    work = work or Work()
    shared = None if shared is None else shared_by(work, salvaged_list(shared)[0])
    segments, cut_off = salvaged_list(stream)
    return page_drawn(work, segments, shared, cut_off)
