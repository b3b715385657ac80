"""The text of each error as crates/jbig2_base/specs/ErrorTexts.antt defines it, by the error's name in docs/FORMAT.md.

usage: python3 -m testing.error_texts

prints them for tests in C: a line for each, such as #define TEXT_OF_FORMAT_INVALID_HEADER and the text.
"""
from __future__ import annotations

import pathlib
import re

DEFINITION = "crates/jbig2_base/specs/ErrorTexts.antt"
LINE = re.compile(r'(?m)^\w+_text (\w+)\.(\w+) =\s+codes\s+"([^"]*)"$')


def named(enum: str, variant: str) -> str:
    """The name of an error: `Format(InvalidHeader)`, or its variant where the outermost enum has it, Decode or errors."""
    enum = enum.capitalize()
    return variant if enum in ("Decode", "Errors") else f"{enum}({variant})"


def in_c(name: str) -> str:
    """FORMAT_INVALID_HEADER for `Format(InvalidHeader)`."""
    return re.sub(r"(?<=[a-z])(?=[A-Z])", "_", name.rstrip(")").replace("(", "_")).upper()


def read_texts() -> dict[str, str]:
    """The texts in the order of the definition, which is that of the numbers."""
    definition = (pathlib.Path(__file__).resolve().parents[1] / DEFINITION).read_text("utf-8")
    return {named(enum, variant): text for enum, variant, text in LINE.findall(definition)}


TEXTS = read_texts()


def main() -> None:
    for name, text in TEXTS.items():
        print(f'#define TEXT_OF_{in_c(name)} "{text}"')


if __name__ == "__main__":
    main()
