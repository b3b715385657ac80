"""Has mutool and gs draw damaged pages over this library and over the system's, and compares both with the picture of the
undamaged page.

    shown.py SUITE [--count COUNT] [--seed SEED] [--list] [FILE.jb2 ..]

SUITE is a folder that conformance/make has filled; of it those pages are taken that the system's library draws right. With
FILE.jb2, files of a page each, these are taken in their place. COUNT streams (250) are made of them, damaged in five ways in
turn: a dictionary that is refused, with a region that needs it; bytes after the last segment; globals that are refused and
that the page doesn't need; an unknown height without stripes; and damage at random.

Status 1 where the system's library shows a part of a page, and all of it right, and this library shows nothing. --list
names each page of which one library shows more than the other.
"""
from __future__ import annotations

import argparse
import concurrent.futures
import dataclasses
import pathlib
import random
import sys
import tempfile

from bindings.dropin.tests.hostile import SOME_PEERS, Stream
from bindings.dropin.tests.pages import wrong_in_pdf
from bindings.dropin.tests.peers import OURS, PEERS, SYSTEM, Library, Peer, pictures_by
from conformance.runner.embedding import embedded_page, image_of
from conformance.runner.pdf import Image
from conformance.runner.pictures import Picture, pictures_of
from conformance.runner.segments import END_OF_FILE, END_OF_PAGE, PAGE_INFORMATION, UNKNOWN_LENGTH, sequential
from testing.damaged import damaged
from testing.jbig2_encoder.framing import segment
from testing.samples import image_of_sample, samples_of

SYMBOLS, TEXT, PATTERNS, HALFTONE = 0, 6, 16, 22
# What begins the data of each region here: 8 by 1 pixels at the origin.
REGION = bytes.fromhex("00000008 00000001 00000000 00000000 00")
# Dictionaries that can't be read: they want a table that isn't there, end early, or export more than they have.
BAD_SYMBOLS = tuple(
    map(bytes.fromhex, ("0009 00000001 00000001 5F80800040", "0001 0000", "0001 00000009 00000001 5F80800040"))
)
BAD_PATTERNS = tuple(map(bytes.fromhex, ("01 00 01 00000000", "01 08", "01 08 01 00000000 FFFFFFFF")))
# One instance of a symbol by prefix codes, and a halftone of one cell by MMR.
ONE_SYMBOL = REGION + bytes.fromhex("0011 0000 00000001 01") + bytes(17) + bytes.fromhex("0004")
ONE_PATTERN = REGION + bytes.fromhex("01 00000001 00000001") + bytes(12)
AFTER_A_STREAM = (b" " * 16, b"\r\nendstream\r\nendobj\r\n", b"%%EOF and more of a file", b"\xff" * 20, bytes(40))


@dataclasses.dataclass(frozen=True)
class Whole:
    """A page before it is damaged, and its picture."""

    name: str
    image: Image
    picture: Picture


def with_a_bad_dictionary(chance: random.Random, image: Image) -> Image:
    """A dictionary that is refused and a region that needs it: in front of all regions, or after them."""
    own = sequential(image.stream)
    number = 1 + max([part.number for part in own + sequential(image.shared)], default=0)
    if chance.random() < 0.5:
        dictionary = segment(number, SYMBOLS, chance.choice(BAD_SYMBOLS))
        region = segment(number + 1, TEXT, ONE_SYMBOL, [number])
    else:
        dictionary = segment(number, PATTERNS, chance.choice(BAD_PATTERNS))
        region = segment(number + 1, HALFTONE, ONE_PATTERN, [number])
    parts = [part.on_page(part.page) for part in own if part.kind not in (END_OF_PAGE, END_OF_FILE)]
    place = chance.choice((1, len(parts)))
    return dataclasses.replace(image, stream=b"".join(parts[:place] + [dictionary, region] + parts[place:]))


def with_bytes_after_it(chance: random.Random, image: Image) -> Image:
    """Bytes that are no segment, after the last one."""
    junk = chance.choice((*AFTER_A_STREAM, bytes(chance.randrange(256) for _ in range(chance.randrange(16, 64)))))
    return dataclasses.replace(image, stream=image.stream + junk)


def with_bad_globals(chance: random.Random, image: Image) -> Image:
    """Globals that are refused, after those that the page needs."""
    bad = chance.choice((*AFTER_A_STREAM, *(segment(200, SYMBOLS, data, page=0) for data in BAD_SYMBOLS)))
    return dataclasses.replace(image, shared=image.shared + bad)


def with_an_unknown_height(chance: random.Random, image: Image) -> Image:
    """A page that doesn't say its height, with or without the word that it has stripes."""
    stream = b""
    for part in sequential(image.stream):
        if part.kind == PAGE_INFORMATION and len(part.data) == 19:
            striping = chance.choice((part.data[17:], b"\x80\x10", b"\xff\xff"))
            data = part.data[:4] + UNKNOWN_LENGTH.to_bytes(4, "big") + part.data[8:17] + striping
            part = dataclasses.replace(part, data=data)
        stream += part.on_page(part.page)
    return dataclasses.replace(image, stream=stream)


def with_damage(chance: random.Random, image: Image) -> Image:
    """Bytes that are changed, cut out or put in, in the stream or in the globals."""
    if image.shared and chance.random() < 0.3:
        return dataclasses.replace(image, shared=damaged(chance, image.shared))
    return dataclasses.replace(image, stream=damaged(chance, image.stream))


WAYS = (with_a_bad_dictionary, with_bytes_after_it, with_bad_globals, with_an_unknown_height, with_damage)


def wholes_of_suite(suite: pathlib.Path) -> list[Whole]:
    """The pages of the suite that aren't of one colour and that the system's library draws right."""
    samples = [sample for sample in samples_of(suite) if not sample.entry.is_plain]
    wrong = set(wrong_in_pdf(0, SYSTEM, samples))
    wholes = []
    for sample in samples:
        if sample.entry.label not in wrong:
            [picture] = pictures_of((suite / f"{sample.entry.name}.{sample.entry.page}.pbm").read_bytes())
            wholes.append(Whole(sample.entry.label, image_of_sample(sample), picture))
    return wholes


def wholes_of_files(paths: list[pathlib.Path]) -> list[Whole]:
    """The first pages of files, if both libraries draw the same of them."""
    wholes = []
    for path in paths:
        image = image_of(embedded_page(path.read_bytes(), 0))
        ours, theirs = (shown_by(PEERS[0], library, image) for library in (OURS, SYSTEM))
        if ours is None or ours != theirs:
            print(f"{path.name}: left out, since the libraries don't draw the same of it undamaged")
        else:
            wholes.append(Whole(path.name, image, ours))
    return wholes


def shown_by(peer: Peer, library: Library, image: Image) -> Picture | None:
    """What a peer shows of a page."""
    with tempfile.TemporaryDirectory() as room:
        _, [picture] = pictures_by(peer, library, [image], pathlib.Path(room))
    return picture


def right_part(picture: Picture | None, whole: Whole) -> int:
    """The black pixels of a picture as a number, if it shows something and nothing that the undamaged page hasn't; else 0."""
    meant = whole.picture
    if picture is None or picture.is_plain or (picture.width, picture.height) != (meant.width, meant.height):
        return 0
    black = int.from_bytes(picture.rows, "big")
    return 0 if black & ~int.from_bytes(meant.rows, "big") else black


@dataclasses.dataclass(frozen=True)
class Shown:
    """What is shown of a damaged page by a peer over both libraries."""

    name: str
    ours: int
    theirs: int
    is_blank: bool
    is_whole: bool

    @property
    def verdict(self) -> str:
        """Which library shows more of what is right."""
        if self.theirs and self.is_blank:
            return "blank here"
        if self.theirs & ~self.ours:
            return "less here"
        return "more here" if self.ours & ~self.theirs else "the same" if self.ours else "neither"


def compared(peer: Peer, whole: Whole, stream: Stream) -> Shown:
    """Draws a damaged page over both libraries."""
    ours, theirs = (shown_by(peer, library, stream.image) for library in (OURS, SYSTEM))
    is_blank = ours is None or ours.is_plain
    return Shown(
        f"{peer.name}: {stream.name}",
        right_part(ours, whole),
        right_part(theirs, whole),
        is_blank,
        ours == whole.picture,
    )


def damaged_pages(chance: random.Random, wholes: list[Whole], count: int) -> list[tuple[Whole, Stream]]:
    """Damaged streams, in the five ways in turn."""
    pages = []
    for number in range(count):
        whole, way = chance.choice(wholes), WAYS[number % len(WAYS)]
        name = f"{whole.name} {way.__name__.replace('_', ' ')}, number {number}"
        pages.append((whole, Stream(name, way(chance, whole.image))))
    return pages


def main() -> int:
    """Draws all, and prints what is blank here and a line of counts for each peer."""
    parser = argparse.ArgumentParser(usage=__doc__)
    parser.add_argument("suite", type=pathlib.Path)
    parser.add_argument("files", type=pathlib.Path, nargs="*")
    parser.add_argument("--count", type=int, default=250)
    parser.add_argument("--seed", type=int, default=1)
    parser.add_argument("--list", action="store_true")
    options = parser.parse_args()
    wholes = wholes_of_files(options.files) if options.files else wholes_of_suite(options.suite)
    pages = damaged_pages(random.Random(options.seed), wholes, options.count)
    blank = 0
    for peer in SOME_PEERS:
        with concurrent.futures.ThreadPoolExecutor() as pool:
            found = list(pool.map(lambda page: compared(peer, *page), pages))
        for shown in found:
            if shown.verdict == "blank here" or (options.list and shown.verdict in ("less here", "more here")):
                print(f"{shown.name}: {shown.verdict}")
        counts = {verdict: sum(shown.verdict == verdict for shown in found) for verdict in ("less here", "more here")}
        lost = sum(shown.verdict == "blank here" for shown in found)
        rightly = sum(bool(shown.theirs) for shown in found)
        blank += lost
        print(
            f"{peer.name}: {len(found)} damaged pages, {rightly} shown in part or whole by libjbig2dec0, {lost} of them"
            f" blank here, {counts['less here']} with less here, {counts['more here']} with more here;"
            f" {sum(shown.is_whole for shown in found)} whole here"
        )
    return 1 if blank else 0


if __name__ == "__main__":
    sys.exit(main())
