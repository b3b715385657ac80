"""The table of prices in docs/FORMAT.md, 12.6."""
from __future__ import annotations

import functools
import pathlib
import re

FORMAT = pathlib.Path(__file__).resolve().parents[2] / "docs" / "FORMAT.md"
# Names of rows.
BITMAP, WORD, COPIED = "a bitmap", "a word of a bitmap", "an exported symbol that is copied"
SEGMENT = "each segment of the globals, or of the page before its end"
NUMBER = "a number that a segment refers to"
BYTES = "a generic region, a halftone, a pattern dictionary"
CUT_OFF = "a generic or text region that is cut off (12.7)"
REFERRED = "a symbol that a text region or dictionary refers to"
INSTANCE = "an instance of a text region"
DICTIONARY, NEW = "a symbol dictionary", "a new symbol that a dictionary states"
TABLE_BYTE, CLASS, RUN = "a byte of a custom table", "a height class", "an export run"


@functools.cache
def rows() -> dict[str, int | None]:
    """The rows of the table: the number of each, where it has one."""
    section = FORMAT.read_text("utf-8").split("### 12.6 ")[1].split("\n### ")[0]
    found = re.findall(r"(?m)^\| ([^|]+) \| (?:(\d+)\b)?[^|]* \|$", section)[1:]
    return {name: int(number) if number else None for name, number in found}


def price(row: str) -> int:
    """The number of a row."""
    return rows()[row]


def bitmap(width: int, height: int = 1) -> int:
    """What a bitmap costs."""
    return price(BITMAP) + price(WORD) * max(1, (width + 63) // 64) * height
