"""The manifest of the suite: a line for each page of a file, with the expected picture or the broken rule."""
from __future__ import annotations

import csv
import dataclasses
import hashlib
import pathlib

from .embedding import Embedded, embedded_page, file_of
from .mistake import Mistake
from .pictures import plain

PICTURE = "picture"
ANY = "any"


@dataclasses.dataclass(frozen=True)
class Entry:
    """A line of the manifest: page `page` of a file; `width` and `height` are None where no picture is meant."""

    name: str
    features: tuple[str, ...]
    section: str
    kind: str
    page: int
    size: int
    sha256: str
    width: int | None
    height: int | None
    picture: str
    strict: str
    lenient: str
    rule: str
    others: str

    @property
    def feature(self) -> str:
        """The feature that the file has in front."""
        return self.features[0]

    @property
    def label(self) -> str:
        """The file's name, with the page where it isn't the first."""
        return f"{self.name}, page {self.page}" if self.page else self.name

    @property
    def is_embedded(self) -> bool:
        """Whether the page is kept as in a PDF file, without a file header."""
        return self.kind == "embedded"

    @property
    def must_be_drawn(self) -> bool:
        """Whether every decoder has to draw the picture that is meant."""
        return self.others == PICTURE

    @property
    def is_plain(self) -> bool:
        """Whether the picture that is meant has one colour."""
        if self.width is None or self.height is None:
            return False
        return self.picture in [plain(self.width, self.height, colour).digest for colour in (0, 1)]


def entry_of(line: dict[str, str]) -> Entry:
    """An entry from the columns of a line. Its name is that of files in the suite's folder, and of none elsewhere."""
    if pathlib.PurePath(line["name"]).name != line["name"]:
        raise ValueError
    sides = [None if line[side] == "-" else int(line[side]) for side in ("width", "height")]
    features = tuple(line["features"].split(","))
    words = ("name", "section", "kind", "sha256", "picture", "strict", "lenient", "rule", "others")
    numbers = ("page", "size")
    return Entry(
        features=features,
        width=sides[0],
        height=sides[1],
        **{word: line[word] for word in words},
        **{number: int(line[number]) for number in numbers},
    )


def read_manifest(path: pathlib.Path) -> list[Entry]:
    """The entries of a manifest."""
    try:
        with path.open(newline="", encoding="utf-8") as file:
            return [entry_of(line) for line in csv.DictReader(file, delimiter="\t", quoting=csv.QUOTE_NONE)]
    except OSError as fault:
        raise Mistake(f"there is no suite in {path.parent} ({fault.strerror}: {path})") from fault
    except (AttributeError, KeyError, ValueError) as fault:
        raise Mistake(f"{path} is no manifest of a suite") from fault


@dataclasses.dataclass(frozen=True)
class Sample:
    """An entry with its bytes: those of a file, or those of an embedded page."""

    entry: Entry
    file: bytes
    page: Embedded

    @property
    def globals(self) -> bytes:
        """What an embedded page shares; nothing for a page of a file."""
        return self.page.shared if self.entry.is_embedded else b""


def read_sample(folder: pathlib.Path, entry: Entry) -> Sample:
    """The bytes of an entry, from the folder that the suite was made into."""
    try:
        sample, data = read_files(folder, entry)
    except OSError as fault:
        raise Mistake(f"the suite lacks a file ({fault.strerror}: {fault.filename})") from fault
    if hashlib.sha256(data).hexdigest() != entry.sha256:
        raise Mistake(f"{folder / entry.name} is another file than the one of the manifest")
    return sample


def read_files(folder: pathlib.Path, entry: Entry) -> tuple[Sample, bytes]:
    """An entry with its bytes, and those that its sum is of."""
    if entry.is_embedded:
        shared = folder / f"{entry.name}.globals.jb2"
        stream = (folder / f"{entry.name}.page.jb2").read_bytes()
        page = Embedded(stream, shared.read_bytes() if shared.exists() else b"")
        return Sample(entry, file_of(page), page), page.stream + page.shared
    data = (folder / f"{entry.name}.jb2").read_bytes()
    return Sample(entry, data, embedded_page(data, entry.page)), data
