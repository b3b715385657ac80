"""The manifest of the suite, and the writing of its files."""
from __future__ import annotations

import pathlib
from collections.abc import Sequence

from .case import COLUMNS, Written


def manifest_of(written: Sequence[Written]) -> str:
    """The manifest as text: a line of names, and a line for each page of each case."""
    lines = [COLUMNS] + [line for case in written for line in case.lines]
    return "".join("\t".join(map(str, line)) + "\n" for line in lines)


def write(written: Sequence[Written], folder: pathlib.Path) -> None:
    """Writes all files of the suite, and the manifest, into a folder that is made if there is none."""
    folder.mkdir(parents=True, exist_ok=True)
    for case in written:
        for name, data in case.files.items():
            (folder / name).write_bytes(data)
    (folder / "manifest.tsv").write_text(manifest_of(written), encoding="utf-8", newline="\n")
