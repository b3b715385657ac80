"""A case of the suite: one file with a name, what it is for, and what result is expected."""
from __future__ import annotations

import dataclasses
import hashlib
from collections.abc import Callable, Iterator, Sequence
from typing import Union

from testing.jbig2_encoder.bitmap import Bitmap
from testing.jbig2_encoder.document import Document, Page
from testing.jbig2_encoder.pictures import pbm

from .features import FEATURES

# The names of features, the one in front first, or one name alone; and what draws on a page.
Features = Union[str, tuple[str, ...]]
Drawing = Callable[[Page], object]
PICTURE = "picture"
# What any decoder is asked for: the picture, or anything but a crash.
DRAW, ANY = "picture", "any"
SEQUENTIAL, RANDOM, EMBEDDED = "sequential", "random", "embedded"
COLUMNS = tuple(
    "name features section kind pages page size sha256 width height picture strict lenient rule others".split()
)


@dataclasses.dataclass
class Written:
    """What is written of a case: its lines of the manifest, field by field, and its files by their names."""

    name: str
    lines: list[tuple]
    files: dict[str, bytes]


@dataclasses.dataclass
class Case:
    """A file of the suite.

    `features` has the one in front first. `files` has the bytes of each file by its ending. `pictures` are the bitmaps
    of its pages, None for a page that is not meant to be drawn; `strict` and `lenient` are what reading it here comes
    to: `picture`, or the text of an error. `rule` is what the standard leaves open, or the rule that the file breaks;
    with such a rule other decoders may answer anything, but for a crash.
    """

    name: str
    features: tuple[str, ...]
    files: dict[str, bytes]
    pictures: list[Bitmap | None]
    kind: str = SEQUENTIAL
    strict: str = PICTURE
    lenient: str = PICTURE
    rule: str = "-"

    def written(self) -> Written:
        """The case as it is written."""
        pictures = [None if picture is None else pbm(picture) for picture in self.pictures]
        files = {f"{self.name}{ending}": data for ending, data in self.files.items()}
        shown = {f"{self.name}.{page}.pbm": picture for page, picture in enumerate(pictures) if picture is not None}
        return Written(self.name, list(self.lines(pictures)), {**files, **shown})

    def lines(self, pictures: Sequence[bytes | None]) -> Iterator[tuple]:
        """The fields of its lines of the manifest, one for each page; `pictures` are its PBM files."""
        whole = b"".join(self.files.values())
        section = FEATURES[self.features[0]][0]
        others = DRAW if self.rule == "-" else ANY
        for page, (bitmap, picture) in enumerate(zip(self.pictures, pictures)):
            size = ("-", "-", "-")
            if bitmap is not None:
                size = (bitmap.width, bitmap.height, hashlib.sha256(picture).hexdigest())
            yield (
                self.name, ",".join(self.features), section, self.kind, len(self.pictures), page, len(whole),
                hashlib.sha256(whole).hexdigest(), *size, self.strict, self.lenient, self.rule, others,
            )


def case_of(name: str, features: Features, document: Document, kind: str = SEQUENTIAL, **more) -> Case:
    """A case of a finished document; `features` may be one word."""
    features = (features,) if isinstance(features, str) else tuple(features)
    if kind == EMBEDDED:
        page, shared = document.embedded()
        files = {".page.jb2": page, **({".globals.jb2": shared} if shared else {})}
    else:
        files = {".jb2": document.random_access() if kind == RANDOM else document.sequential()}
    more.setdefault("pictures", [page.picture for page in document.pages])
    return Case(name, features, files, kind=kind, **more)


def page_document(draw: Drawing, size: tuple[int, int] = (64, 40), first: int = 0, **information) -> Document:
    """A document with one page, on which `draw(page)` draws.

    Its segments are numbered from `first`, and `information` is as in `Document.start_page`.
    """
    document = Document(first)
    page = document.start_page(*size, **information)
    draw(page)
    page.end()
    document.end_file()
    return document


def one_page(
    name: str, features: Features, draw: Drawing, size: tuple[int, int] = (64, 40), kind: str = SEQUENTIAL,
    rule: str = "-", **information
) -> Case:
    """A case with one page, made as by `page_document`."""
    return case_of(name, features, page_document(draw, size, **information), kind, rule=rule)
