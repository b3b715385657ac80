"""A suite of a few files for the tests of the runner, with its manifest."""
from __future__ import annotations

import dataclasses
import hashlib
import pathlib

from conformance.runner.manifest import Entry, read_sample, Sample
from conformance.runner.pictures import of_numbers
from conformance.runner.segments import in_random_access
from testing.error_texts import TEXTS
from testing.jbig2_encoder.bitmap import Bitmap
from testing.jbig2_encoder.framing import HEADER, file_header, page_information, region_information, segment
from testing.jbig2_encoder.t6 import encoded

CROSS = (0b100010001, 0b010101010, 0b001000100)
RING = (0b111, 0b101, 0b111)


def bitmap_of(rows: tuple[int, ...], width: int) -> Bitmap:
    """A bitmap of rows that are numbers."""
    bitmap = Bitmap(width, len(rows))
    bitmap.rows = [[row >> width - 1 - x & 1 for x in range(width)] for row in rows]
    return bitmap


def page_segments(rows: tuple[int, ...], width: int, first: int = 0, page: int = 1) -> list[bytes]:
    """A page with one region by T.6, and its end."""
    region = region_information(width, len(rows)) + b"\x01" + encoded(bitmap_of(rows, width), True)
    parts = [(48, page_information(width, len(rows))), (38, region), (49, b"")]
    return [segment(first + at, kind, data, page=page) for at, (kind, data) in enumerate(parts)]


END_OF_FILE = segment(9, 51, b"", page=0)
TABLE = segment(0, 53, bytes.fromhex("00 00000000 00000000 40"), page=0)


def entry(name: str, rows: tuple[int, ...], width: int, **changes: object) -> Entry:
    """The manifest's line of a file whose picture is known; its size and sum are still open."""
    picture = of_numbers(list(rows), width)
    side, answers = (width, len(rows)), ("picture", "picture")
    plain = Entry(name, (name,), "7.2", "sequential", 0, 0, "", *side, picture.digest, *answers, "-", "picture")
    return dataclasses.replace(plain, **changes)


def write(folder: pathlib.Path, line: Entry, *contents: bytes) -> Sample:
    """Writes a file, or the streams of an embedded page, and reads it as the runner does."""
    names = [f"{line.name}.jb2"]
    if line.is_embedded:
        names = [f"{line.name}.page.jb2", f"{line.name}.globals.jb2"]
    for name, content in zip(names, contents):
        (folder / name).write_bytes(content)
    joined = b"".join(contents)
    return read_sample(folder, dataclasses.replace(line, size=len(joined), sha256=hashlib.sha256(joined).hexdigest()))


def written(folder: pathlib.Path) -> dict[str, Sample]:
    """A page in each organisation, the second of two pages, and a file that is cut off."""
    parts = page_segments(CROSS, 9)
    header, pieces = in_random_access(HEADER, [*parts, END_OF_FILE])
    two = file_header(2) + b"".join([*parts, *page_segments(RING, 3, 3, 2), END_OF_FILE])
    embedded = b"".join(segment(1 + at, part[4], part[11:]) for at, part in enumerate(parts[:2]))
    end = TEXTS["Parse(UnexpectedEof)"]
    nothing = dataclasses.replace(entry("cut-off", CROSS, 9), picture="-", width=None, height=None)
    cut_off = dataclasses.replace(nothing, strict=end, lenient=end, rule="D.4", others="any")
    return {
        "sequential": write(folder, entry("sequential", CROSS, 9), HEADER + b"".join(parts) + END_OF_FILE),
        "random": write(folder, entry("random", CROSS, 9, kind="random"), header + b"".join(pieces)),
        "second": write(folder, entry("second", RING, 3, page=1), two),
        "embedded": write(folder, entry("embedded", CROSS, 9, kind="embedded"), embedded),
        "shared": write(folder, entry("shared", CROSS, 9, kind="embedded"), embedded, TABLE),
        "cut-off": write(folder, cut_off, HEADER[:9]),
    }


COLUMNS = "name features section kind pages page size sha256 width height picture strict lenient rule others".split()


def write_manifest(folder: pathlib.Path, samples: list[Sample]) -> None:
    """Writes the manifest of these samples beside their files."""
    lines = ["\t".join(COLUMNS)]
    for sample in samples:
        values = {**dataclasses.asdict(sample.entry), "features": ",".join(sample.entry.features), "pages": 1}
        lines.append("\t".join("-" if values[column] is None else str(values[column]) for column in COLUMNS))
    (folder / "manifest.tsv").write_text("".join(line + "\n" for line in lines), encoding="utf-8")
