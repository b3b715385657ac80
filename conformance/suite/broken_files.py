"""Files that must be refused: faults of file headers, segment headers, page information and region information."""
from __future__ import annotations

from collections.abc import Iterator

from testing.jbig2_encoder.bitmap import REPLACE, Bitmap
from testing.jbig2_encoder.document import Document, Page
from testing.jbig2_encoder.fields import Change, changed_by, number
from testing.jbig2_encoder.framing import END_OF_STRIPE, EXTENSION, GENERIC, HALFTONE, PATTERN_DICTIONARY, REFINEMENT, UNKNOWN
from testing.jbig2_encoder.generic import GenericForm, generic_data, row_count
from testing.jbig2_encoder.halftone import Grid, HalftoneForm, draw_halftone, halftone_data, pattern_data
from testing.jbig2_encoder.refinement import RefinementForm, refinement_data
from testing.jbig2_encoder.text import Settings, TextForm

from . import breaking as errors
from .breaking import Edit, Fault, blank, broken, broken_page, meant, setting
from .case import PICTURE, RANDOM, Case, page_document
from .drawing import changed, dots, gray_ramp, page_picture, shapes
from .files import DRAWINGS
from .pages import put_generic
from .refinements import keep_picture
from .typesetting import WORDS, Alphabet, put_dictionary, put_text, set_words

FILE, SEGMENT, INFORMATION, REGION = "broken-file", "broken-segment", "broken-page", "broken-region"


def draw_generic(page: Page) -> None:
    put_generic(page, page_picture())


def good() -> Document:
    """A document of one page that is a generic region."""
    return page_document(draw_generic)


def file_case(
    name: str, rule: str, strict: str, lenient: str, edit: Edit | None = None, picture: Bitmap | None = None,
    document: Document | None = None, **more
) -> Case:
    return broken(
        Fault(f"file-{name}", FILE, rule, strict, lenient), document or good(), picture=picture, edit=edit, **more
    )


def file_headers() -> Iterator[Case]:
    for at in range(8):
        def edit(data: bytes) -> bytes:
            return data[:at] + bytes([data[at] ^ 1]) + data[at + 1 :]
        rule = "the identification is that of D.4.1"
        yield file_case(f"identification-byte-{at}", rule, errors.INVALID_HEADER, errors.INVALID_HEADER, edit)
    for bit in range(4, 8):
        def edit_flags(data: bytes) -> bytes:
            return data[:8] + bytes([data[8] | 1 << bit]) + data[9:]
        rule = "bits 4 to 7 of the file header's flags are 0 (D.4.2)"
        yield file_case(f"flag-{bit}", rule, errors.RESERVED_BITS, errors.RESERVED_BITS, edit_flags)
    for length in (0, 1, 7, 8, 9, 12):
        rule = "the file ends in its header"
        yield file_case(f"of-{length}-bytes", rule, errors.ENDS, errors.ENDS, lambda data: data[:length])
    for count in (0, 2, UNKNOWN):
        def edit_count(data: bytes) -> bytes:
            return data[:9] + number(count) + data[13:]
        rule = "the page count is that of the pages (D.4.3)"
        yield file_case(f"page-count-{count}", rule, errors.PAGE_COUNT, PICTURE, edit_count, page_picture())
    for ends in (0, 2):
        document = good()
        document.segments[2:3] *= ends
        rule, name = "a page ends with one end of page segment (7.4.9)", f"{ends}-ends-of-page"
        yield file_case(name, rule, errors.END_OF_PAGE, PICTURE, picture=page_picture(), document=document)


def cut_files() -> Iterator[Case]:
    """Files that end early, in their last region's header and data, as far as lenient reading differs."""
    whole = good()
    heads, region = whole.headers(), whole.segments[1]
    before = 13 + len(heads[0]) + len(whole.segments[0].data)
    places = {
        "page-header": 13 + 5, "page-data": before - 3, "region-header": before + 6,
        "region-data": before + len(heads[1]) + 40, "region-last-byte": before + len(heads[1]) + len(region.data) - 1,
    }
    for name, place in places.items():
        in_page = name.startswith("page")
        # Without a segment of its own, the file has no page.
        lenient = "no such page" if in_page else PICTURE
        rule = "the file ends in a segment"
        yield file_case(f"cut-in-{name}", rule, errors.ENDS, lenient, lambda data: data[:place], Bitmap(64, 40))
    for place in (20, 60, 100):
        rule = "the file ends in a segment"
        name = f"random-access-of-{place}-bytes"
        yield file_case(name, rule, errors.ENDS, errors.ENDS, lambda data: data[:place], kind=RANDOM)


def draw_mmr(page: Page) -> None:
    page.draw(GENERIC, page_picture(), generic_data(page_picture(), GenericForm(mmr=True)))


def draw_text(page: Page, prefix: bool) -> None:
    alphabet = Alphabet()
    referred = [put_dictionary(page, alphabet.dictionary())]
    text = set_words([alphabet.ids(word) for word in WORDS], alphabet.symbols, Settings(), prefix=prefix)
    put_text(page, text, Settings(), alphabet.symbols, referred, TextForm(prefix))


def draw_refinement(page: Page, of_page: bool) -> None:
    """A refinement of what the page shows, or of a region that it doesn't show."""
    if of_page:
        draw_generic(page)
        referred = []
    else:
        referred = [keep_picture(page, page_picture())]
    bitmap = changed(page_picture())
    data = refinement_data(bitmap, page_picture(), (0, 0), RefinementForm(typical=of_page))
    page.draw(REFINEMENT, bitmap, data, operator=REPLACE, referred=referred)


def draw_ramp(page: Page, mmr: bool) -> None:
    patterns, form = dots(2, 2, 5), HalftoneForm(mmr=mmr)
    grid, size = Grid(32, 20, right=2 * 256), (page.picture.width, page.picture.height)
    values = gray_ramp(grid.width, grid.height, len(patterns))
    referred = [page.put(PATTERN_DICTIONARY, pattern_data(patterns, GenericForm()))]
    bitmap = draw_halftone(values, grid, patterns, form, *size)
    page.draw(HALFTONE, bitmap, halftone_data(values, grid, patterns, form, size), referred=referred)


def cut_regions() -> Iterator[Case]:
    """Files that end early in the data of a region of another kind, which lenient reading drops."""
    drawings = {
        "mmr": draw_mmr, "text-coder": lambda page: draw_text(page, False),
        "text-prefix": lambda page: draw_text(page, True),
        "refinement-of-page": lambda page: draw_refinement(page, True),
        "refinement-of-region": lambda page: draw_refinement(page, False),
        "halftone-coder": lambda page: draw_ramp(page, False), "halftone-mmr": lambda page: draw_ramp(page, True),
    }
    for kind, draw in drawings.items():
        document = page_document(draw)
        region, *ends = document.segments[-3:]
        after = sum(map(len, document.headers()[-len(ends):]))
        below = page_picture() if kind == "refinement-of-page" else Bitmap(64, 40)
        for name, missing in (("data", len(region.data) // 2), ("last-byte", 1)):
            rule = "the file ends in a segment"
            yield file_case(
                f"cut-in-{kind}-{name}", rule, errors.ENDS, PICTURE, lambda data: data[: -after - missing], below, document
            )


def segment_headers() -> Iterator[Case]:
    for bits in (5, 6):
        rule = "the count of references is 0 to 4, or 7 (7.2.4)"
        with changed_by(setting("referred count", bits << 5, 1)):
            yield broken(
                Fault(f"segment-referred-count-{bits}", SEGMENT, rule, errors.REFERRED_COUNT, errors.REFERRED_COUNT),
                good()
            )
    for name, referred in (("itself", 1), ("a-later-one", 2)):
        document = good()
        document.segments[1].referred = (referred,)
        rule = "a segment refers to segments of smaller numbers (7.2.5)"
        yield broken(
            Fault(f"segment-refers-to-{name}", SEGMENT, rule, errors.INVALID_REFERENCE, errors.INVALID_REFERENCE),
            document
        )
    for kind in (1, 2, 3, 5, 8, 15, 17, 18, 19, 21, 24, 32, 35, 37, 41, 44, 47, 55, 56, 60, 61, 63):
        def draw(page: Page) -> None:
            page.put(kind, bytes(range(20)))
            draw_generic(page)
        rule = "the type is one of 7.3"
        yield broken_page(Fault(f"segment-type-{kind}", SEGMENT, rule, errors.UNKNOWN_TYPE), draw, shows=meant)


def unknown_lengths() -> Iterator[Case]:
    rule = "only an immediate generic region may have an unknown length (7.2.7)"
    for kind, name, shows in ((GENERIC + 1, "lossless", meant), (GENERIC - 2, "intermediate", blank)):
        def draw(page: Page) -> None:
            data = generic_data(page_picture(), GenericForm()) + row_count(40, False)
            page.draw(kind, page_picture(), data, hides_length=True)
        yield broken_page(
            Fault(f"segment-unknown-length-{name}", SEGMENT, rule, errors.UNKNOWN_LENGTH), draw, shows=shows
        )
    for name, form in (("coder", GenericForm()), ("mmr", GenericForm(mmr=True))):
        def draw_without(page: Page) -> None:
            """A region without its last bytes and the row count, as the last segment."""
            data = generic_data(page_picture(), form)
            page.draw(GENERIC, page_picture(), data[:60].replace(b"\0\0", b"\0\1"), hides_length=True)

        def edit(data: bytes) -> bytes:
            return data[: data.rindex(bytes.fromhex("31000100000000")) - 4]
        error, rule = errors.MISSING_END_MARKER, "data of unknown length ends with a marker (7.2.7)"
        fault = Fault(f"segment-without-end-marker-{name}", SEGMENT, rule, error, error)
        yield broken_page(fault, draw_without, edit=edit)


def references() -> Iterator[Case]:
    """Text that refers to what is not there, beside its dictionary."""
    for name in ("missing", "page-information", "region", "pattern-dictionary"):
        def draw(page: Page) -> None:
            alphabet = Alphabet()
            dictionary = put_dictionary(page, alphabet.dictionary())
            other = 0
            if name == "missing":
                page.document.next += 2
                other = dictionary + 1
            elif name == "region":
                other = put_generic(page, shapes(5, 3))
            elif name == "pattern-dictionary":
                other = page.put(PATTERN_DICTIONARY, pattern_data(dots(4, 4, 2), GenericForm()))
            text = set_words([alphabet.ids(word) for word in WORDS], alphabet.symbols, Settings())
            put_text(page, text, Settings(), alphabet.symbols, [dictionary, other])
        rule = "text refers to symbol dictionaries and tables (7.4.3)"
        yield broken_page(
            Fault(f"segment-text-refers-to-{name}", SEGMENT, rule, errors.INVALID_REFERENCE), draw, shows=meant
        )
    for name, kind in (("generic-region", GENERIC), ("end-of-stripe", END_OF_STRIPE)):
        document = good()
        page_segment = document.segments[1]
        if name == "end-of-stripe":
            document.segments.insert(2, type(page_segment)(9, kind, number(39)))
            page_segment = document.segments[2]
        page_segment.page = 0
        picture = Bitmap(64, 40) if name == "generic-region" else page_picture()
        rule = "regions, and what ends pages and stripes, belong to a page (7.2.6)"
        yield broken(
            Fault(f"segment-{name}-of-no-page", SEGMENT, rule, errors.MISSING_PAGE, PICTURE), document,
            picture=picture
        )


def pages() -> Iterator[Case]:
    def case(name: str, rule: str, change: Change, strict: str, lenient: str, **more) -> Case:
        return broken_page(
            Fault(f"page-{name}", INFORMATION, rule, strict, lenient), draw_generic, change=change, **more
        )
    for field in ("width", "height"):
        rule = "the page has pixels (7.4.8.1)"
        yield case(f"{field}-0", rule, setting(f"page {field}", 0), errors.EMPTY_PAGE, errors.EMPTY_PAGE)
        for value in (65536, 0x7FFFFFFF, UNKNOWN - 1):
            rule = "a limit of this decoder: pages of up to 65535 by 65535"
            change = setting(f"page {field}", value)
            yield case(f"{field}-{value}", rule, change, errors.BITMAP_SIZE, errors.BITMAP_SIZE)
    rule = "a page of unknown height has end of stripe segments (7.4.8.2)"
    change = setting("page height", UNKNOWN)
    yield case("unknown-height-without-stripes", rule, change, errors.UNKNOWN_PAGE_HEIGHT, errors.UNKNOWN_PAGE_HEIGHT)
    document = good()
    document.segments[0].data = document.segments[0].data[:-1]
    rule = "page information has 19 bytes (7.4.8)"
    yield broken(Fault("page-information-of-18-bytes", INFORMATION, rule, errors.ENDS, errors.ENDS), document)
    document = good()
    document.segments[0].kind = EXTENSION
    document.segments[0].data = number(0x20000000) + b"\0"
    rule = "a page has page information (7.4.8)"
    missing = errors.MISSING_PAGE_INFORMATION
    yield broken(Fault("page-without-information", INFORMATION, rule, missing, missing), document)


def regions() -> Iterator[Case]:
    for kind, draw in DRAWINGS.items():
        if kind == "refinement":
            continue
        for value in (5, 6, 7):
            rule = "operators are 0 to 4 (7.4.1.5)"
            yield broken_page(
                Fault(f"region-{kind}-operator-{value}", REGION, rule, errors.INVALID_OPERATOR), draw,
                change=setting("region flags", value)
            )
        rule = "a limit of this decoder: regions of up to 65535 by 65535"
        for field in ("width", "height"):
            yield broken_page(
                Fault(f"region-{kind}-{field}-65536", REGION, rule, errors.BITMAP_SIZE), draw,
                change=setting(f"region {field}", 65536)
            )
    rule = "a limit of this decoder: no colour extension (7.4.1.5, bit 3)"
    yield broken_page(
        Fault("region-colour-extension", REGION, rule, errors.UNSUPPORTED), draw_generic,
        change=setting("region flags", 8)
    )
    for length in (0, 16, 17, 18, 25):
        def edit_data(page: Page) -> None:
            draw_generic(page)
            page.document.segments[-1].data = page.document.segments[-1].data[:length]
        rule = "a region's data has all of its header (7.4.1, 7.4.6)"
        yield broken_page(Fault(f"region-of-{length}-bytes", REGION, rule, errors.ENDS), edit_data)


def extensions() -> Iterator[Case]:
    def case(name: str, rule: str, data: bytes, strict: str) -> Case:
        def draw(page: Page) -> None:
            page.put(EXTENSION, data)
            draw_generic(page)
        return broken_page(Fault(f"extension-{name}", "broken-extension", rule, strict), draw, shows=meant)
    rule = "an extension that must be understood is not known (7.4.15)"
    yield case("necessary", rule, number(0x80000001) + b"abc", errors.UNSUPPORTED)
    yield case("necessary-and-dependent", rule, number(0xC0000000), errors.UNSUPPORTED)
    yield case("of-3-bytes", "an extension has a type of 4 bytes (7.4.15)", bytes(3), errors.ENDS)


def cases() -> Iterator[Case]:
    for make in (
        file_headers, cut_files, cut_regions, segment_headers, unknown_lengths, references, pages, regions, extensions
    ):
        yield from make()
