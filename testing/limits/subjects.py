"""What is tried: files and embedded pages of the suite, or of files that are named."""
from __future__ import annotations

import dataclasses
import pathlib
from collections.abc import Iterator

from conformance.runner.embedding import Embedded, embedded_page, file_of
from conformance.runner.segments import pages_of, segments_of_file
from conformance.suite.all_cases import all_written
from conformance.suite.case import COLUMNS, EMBEDDED, PICTURE, Written
from testing.jbig2_encoder.fields import field
from testing.jbig2_encoder.framing import SYMBOL_DICTIONARY, TABLE, page_information, segment

from .prices import DICTIONARY, SEGMENT, TABLE_BYTE, bitmap, price
from .repeated import repeated

PROFILES = 52
# How often the segments of a page are repeated.
TIMES = 20
PAGES, PAGE, SUM, STRICT, LENIENT = map(COLUMNS.index, ("pages", "page", "picture", "strict", "lenient"))


@dataclasses.dataclass(frozen=True)
class Subject:
    """A file, or an embedded page where there is no file.

    `wanted` has what each page comes to in lenient and in strict reading, the sum of its PBM file or the text of an
    error. `units` is what each page takes by docs/FORMAT.md, 12.6. They are None where nothing is known.
    """

    name: str
    page: Embedded
    file: bytes | None = None
    wanted: tuple[tuple[str, str], ...] | None = None
    units: int | None = None

    @property
    def length(self) -> int:
        """How many bytes are read."""
        return len(self.page.stream + self.page.shared if self.file is None else self.file)


def results_of(case: Written) -> tuple[tuple[str, str], ...]:
    """What the pages of a case come to."""
    words = ((line[SUM], line[LENIENT], line[STRICT]) for line in case.lines)
    return tuple(tuple(picture if word == PICTURE else word for word in both) for picture, *both in words)


def forms_of(name: str, file: bytes, pages: int, wanted: tuple | None = None) -> Iterator[Subject]:
    """A file, and each of its pages as an embedded one."""
    yield Subject(name, Embedded(b""), file, wanted)
    for index in range(pages):
        yield Subject(f"{name}, page {index} embedded", embedded_page(file, index))


def subjects_of_case(case: Written) -> Iterator[Subject]:
    """The subjects of a case: as it is written, and in the other form."""
    wanted = results_of(case)
    if case.lines[0][COLUMNS.index("kind")] != EMBEDDED:
        yield from forms_of(case.name, case.files[f"{case.name}.jb2"], len(case.lines), wanted)
        return
    shared = case.files.get(f"{case.name}.globals.jb2", b"")
    page = Embedded(case.files[f"{case.name}.page.jb2"], shared)
    yield Subject(case.name, page, wanted=wanted)
    yield Subject(f"{case.name} as a file", Embedded(b""), file_of(page))


def made_up() -> Iterator[Subject]:
    """Pages with what asks for the most memory for its work: lines of a table, symbol dictionaries without symbols, and
    segments without data; and with a faulty table. Each is also a file, and what a page or a file shares."""
    page, lines, many = segment(0, 48, page_information(8, 1)), 1 << 16, 1025
    table = bytes(5) + lines.to_bytes(4, "big") + bytes(lines // 4 + 1)
    dictionary = field("flags", 2, 2) + bytes.fromhex("03FFFDFF02FEFEFE FFFFFFFF") + bytes(8)
    for name, kind, data, times, more in (
        ("a table of many lines", TABLE, table, 1, price(TABLE_BYTE) * len(table)),
        ("symbol dictionaries without symbols", SYMBOL_DICTIONARY, dictionary, many, price(DICTIONARY)),
        ("segments without data", PROFILES, b"", many, 0),
        ("a table without data", TABLE, b"", 1, 0),
    ):
        own, shared = (b"".join(segment(1 + at, kind, data, page=page) for at in range(times)) for page in (1, 0))
        # The page's information is a segment, too.
        alone = 2 * bitmap(8) + price(SEGMENT)
        units = alone + (price(SEGMENT) + more) * times
        whole = Embedded(page + own)
        yield Subject(name, whole, units=units)
        yield Subject(f"{name}, shared", Embedded(page, shared), units=alone)
        yield Subject(f"{name}, as a file", Embedded(b""), file_of(whole), units=units)
        yield Subject(f"{name}, shared in a file", Embedded(b""), file_of(Embedded(page, shared)))


def of_suite(with_repeated: bool = False) -> list[Subject]:
    """The subjects of all cases, and pages that are made up."""
    subjects = [subject for case in all_written() for subject in subjects_of_case(case)]
    more = list(made_up())
    for subject in subjects if with_repeated else ():
        page = repeated(subject.page, TIMES)
        if subject.file is None and page:
            more.append(Subject(f"{subject.name}, {TIMES} times", page))
    return subjects + more


def of_files(names: list[str]) -> list[Subject]:
    """The subjects of files with a file header."""
    files = [(name, pathlib.Path(name).read_bytes()) for name in names]
    counts = [len(pages_of(segments_of_file(file))) for _, file in files]
    return [subject for (name, file), count in zip(files, counts) for subject in forms_of(name, file, count)]
