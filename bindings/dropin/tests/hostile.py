"""Has mutool, gs and jbig2dec draw streams and files that are cut off, empty, damaged or no JBIG2 at all.

    hostile.py SUITE [--count COUNT] [--seed SEED]

SUITE is a folder that conformance/make has filled. COUNT streams and COUNT files are damaged at random. Nothing may
crash; mutool and gs end with the status that they have over the system's library; jbig2dec writes a page, or says why not
and has status 1, also under limits of memory; and what is drawn of a file in lenient reading is what jbig2-decode draws
(PROGRAM may name a built one), to which salvage adds pages, and the whole rows of regions that are cut off, alone. Status 1
where it is otherwise.
"""
from __future__ import annotations

import argparse
import concurrent.futures
import dataclasses
import pathlib
import random
import sys
import tempfile

from bindings.dropin.tests.peers import LENIENT, LIMITS, OURS, PEERS, SYSTEM, UNLIMITED, Library, Peer, pictures_by
from conformance.runner.decoders import own_program
from conformance.runner.limits import Ended, run
from conformance.runner.manifest import Sample
from conformance.runner.pdf import Image
from conformance.runner.pictures import NoPicture, Picture, pictures_of
from testing.damaged import damaged
from testing.error_texts import TEXTS
from testing.samples import image_of_sample, rich_sample, samples_of

SOME_PEERS = [peer for peer in PEERS if peer.name in ("mutool draw", "gs")]
LIMITS_OF_MEMORY = [*range(0, 20000, 500), *range(20000, 200000, 20000), 1 << 30]


@dataclasses.dataclass(frozen=True)
class Stream:
    """A stream that is tried, and what is odd about it."""

    name: str
    image: Image


def made_by_hand(image: Image) -> list[Stream]:
    """Cuts of a page's stream, and streams that were never one."""
    size = len(image.stream)
    oddities = {f"cut off after {size * cut // 15} bytes": image.stream[: size * cut // 15] for cut in range(15)}
    oddities |= {
        "a newline after it": image.stream + b"\n",
        "text after it": image.stream + b"\nendstream\nendobj\n",
        "spaces after it": image.stream + b" " * 16,
        "zeros after it": image.stream + bytes(40),
        "page information alone": image.stream[:30],
        "no page information": image.stream[30:],
        "no width": image.stream[:11] + bytes(4) + image.stream[15:],
        "an unknown height": image.stream[:15] + b"\xff" * 4 + image.stream[19:],
        "text": b"no JBIG2 at all, but a sentence that is as long as a header",
        "zeros": bytes(1000),
        "ones": b"\xff" * 1000,
    }
    streams = [Stream(name, dataclasses.replace(image, stream=stream)) for name, stream in oddities.items()]
    for name, shared in (("cut off", image.shared[:-9]), ("text", b"no globals at all"), ("none", b"")):
        streams.append(Stream(f"globals: {name}", dataclasses.replace(image, shared=shared)))
    for name, change in (("larger", 7), ("smaller", -3)):
        other = dataclasses.replace(image, width=max(1, image.width + change), height=max(1, image.height + change))
        streams.append(Stream(f"{name} in the PDF file", other))
    return streams


def damaged_streams(chance: random.Random, samples: list[Sample], count: int) -> list[Stream]:
    """Pages whose stream or globals are damaged."""
    streams = []
    for number in range(count):
        sample = chance.choice(samples)
        image = image_of_sample(sample)
        if image.shared and chance.random() < 0.3:
            image = dataclasses.replace(image, shared=damaged(chance, image.shared))
            streams.append(Stream(f"globals of {sample.entry.label}, damage {number}", image))
        else:
            image = dataclasses.replace(image, stream=damaged(chance, image.stream))
            streams.append(Stream(f"{sample.entry.label}, damage {number}", image))
    return streams


def by_program(library: Library, words: list[str], room: pathlib.Path) -> tuple[Ended, list[Picture]]:
    """How the program jbig2dec ended, and the pages that it wrote."""
    out = room / "out.pbm"
    out.unlink(missing_ok=True)
    ended = library.run(["jbig2dec", "-t", "pbm", "-o", str(out), *words])
    try:
        return ended, pictures_of(out.read_bytes())
    except (NoPicture, FileNotFoundError):
        return ended, []


def is_like(ours: Ended, theirs: Ended) -> bool:
    """Whether a status over both libraries is the same. Of globals that it can't read the system's library says so while
    they come in, and this one with the page: then mutool shows a black page, and not none."""
    is_later = ours.status == 0 and b"cannot decode jbig2 globals" in theirs.errors
    return ours.status == theirs.status or is_later or theirs.has_crashed or theirs.is_late


def faults_of_stream(stream: Stream) -> list[str]:
    """What is wrong with the ways in which the programs end on a stream."""
    with tempfile.TemporaryDirectory() as name:
        room = pathlib.Path(name)
        ended, pictures = page_by_program(stream.image, room)
        if ended.is_late:
            return [f"{stream.name}: too long"]
        faults = []
        if (ended.status, len(pictures)) not in ((0, 1), (1, 0)) or (ended.status and not ended.errors):
            faults.append(f"jbig2dec: status {ended.status}, {len(pictures)} pages, {ended.message!r}")
        for peer in SOME_PEERS:
            if peer.program == "gs":
                _, pictures = page_by_program(as_gs_reads(stream.image), room)
            faults += [f"{peer.name}: {fault}" for fault in faults_of_peer(peer, stream, pictures, room)]
    return [f"{stream.name}: {fault}" for fault in faults]


def as_gs_reads(image: Image) -> Image:
    """gs looks for the stream's end itself, and hands in the newline before it."""
    return dataclasses.replace(image, stream=image.stream.split(b"\nendstream")[0] + b"\n")


def page_by_program(image: Image, room: pathlib.Path, options: list[str] | None = None) -> tuple[Ended, list[Picture]]:
    """What the program jbig2dec draws of a page's two streams."""
    (room / "page").write_bytes(image.stream)
    (room / "globals").write_bytes(image.shared)
    words = [str(room / "globals"), str(room / "page")] if image.shared else ["-e", str(room / "page")]
    return by_program(OURS, (options or []) + words, room)


def faults_of_peer(peer: Peer, stream: Stream, pictures: list[Picture], room: pathlib.Path) -> list[str]:
    """What is wrong with the way in which a peer ends; `pictures` is what the program jbig2dec draws."""
    ours, [drawn] = pictures_by(peer, OURS, [stream.image], room)
    theirs, _ = pictures_by(peer, SYSTEM, [stream.image], room)
    if ours.is_late:
        return ["too long"]
    if ours.has_crashed:
        return [f"crashed, {ours.message!r}"]
    faults = []
    if not is_like(ours, theirs):
        faults.append(f"status {ours.status}, {theirs.status} over the system's library")
    if not pictures and "refused" not in (ours.errors + ours.output).decode(errors="replace"):
        faults.append("no message for a page that is refused")
    is_size = bool(pictures) and (pictures[0].width, pictures[0].height) == (stream.image.width, stream.image.height)
    if is_size and drawn != pictures[0]:
        faults.append("another picture than by jbig2dec")
    return faults


def faults_of_limit(sample: Sample, limit: int) -> list[str]:
    """Whether the program jbig2dec, with a limit of memory, writes the meant picture or says that there is no memory."""
    image = image_of_sample(sample)
    with tempfile.TemporaryDirectory() as name:
        ended, pictures = page_by_program(image, pathlib.Path(name), ["-M", str(limit)])
    if ended.status == 0 and [picture.digest for picture in pictures] == [sample.entry.picture]:
        return []
    if ended.status == 1 and not pictures and TEXTS["OutOfMemory"] in ended.errors.decode(errors="replace"):
        return []
    return [f"limit of {limit} bytes: status {ended.status}, {len(pictures)} pages, {ended.message!r}"]


def is_part(some: list[Picture], all_of_them: list[Picture], has_cut: bool) -> bool:
    """Whether pictures are among others in the same order. Where a region is cut off, salvage draws more of its page, so
    that only has the same size."""
    rest = iter(all_of_them)
    if has_cut:
        sizes = ((other.width, other.height) for other in rest)
        return all((picture.width, picture.height) in sizes for picture in some)
    return all(picture in rest for picture in some)


def faults_of_file(name: str, data: bytes) -> list[str]:
    """Whether jbig2dec draws the pages of a file that jbig2-decode draws of it, and no fewer in salvage. Where the limit of
    work refuses some, it is tried without that limit."""
    with tempfile.TemporaryDirectory() as folder:
        room = pathlib.Path(folder)
        path = room / "file.jb2"
        path.write_bytes(data)
        meant: list[Picture] = []
        listed = run([own_program(), "pages", str(path)], LIMITS)
        for index in range(len(listed.output.splitlines())):
            ended = run([own_program(), "pbm", str(path), str(index)], LIMITS)
            if ended.is_late:
                return [f"{name}: too long"]
            meant += pictures_of(ended.output)
        ended, pictures = by_program(LENIENT, [str(path)], room)
        is_limited = pictures != meant and b"the limit of work" in ended.errors
        if is_limited:
            ended, pictures = by_program(UNLIMITED, [str(path)], room)
        salvaged, more = by_program(OURS, [str(path)], room)
    if ended.is_late:
        return [f"{name}: too long"]
    if ended.has_crashed:
        return [f"{name}: crashed, {ended.message!r}"]
    if pictures != meant:
        return [f"{name}: {len(pictures)} pages, of which jbig2-decode draws {len(meant)}, or others"]
    has_cut = f"a segment is left out: {TEXTS['Parse(UnexpectedEof)']}".encode() in salvaged.errors
    if salvaged.has_crashed or not (is_limited or salvaged.is_late or is_part(meant, more, has_cut)):
        return [f"{name}: {len(more)} pages in salvage, which lack some of {len(meant)}, {salvaged.message!r}"]
    return [] if pictures or ended.errors else [f"{name}: no message"]


def main() -> int:
    """Tries all, and prints the faults and a line of counts."""
    parser = argparse.ArgumentParser(usage=__doc__)
    parser.add_argument("suite", type=pathlib.Path)
    parser.add_argument("--count", type=int, default=20)
    parser.add_argument("--seed", type=int, default=1)
    options = parser.parse_args()
    chance = random.Random(options.seed)
    samples = samples_of(options.suite)
    streams = made_by_hand(image_of_sample(rich_sample(samples)))
    streams += damaged_streams(chance, samples, options.count)
    whole = [sample for sample in samples if not sample.entry.is_embedded]
    files = []
    for number in range(options.count):
        sample = chance.choice(whole)
        files.append((f"{sample.entry.name}, damage {number}", damaged(chance, sample.file)))
    with concurrent.futures.ThreadPoolExecutor() as pool:
        found = [*pool.map(faults_of_stream, streams), *pool.map(lambda file: faults_of_file(*file), files)]
        found += pool.map(lambda limit: faults_of_limit(rich_sample(samples), limit), LIMITS_OF_MEMORY)
    late = sum(fault.endswith(": too long") for faults in found for fault in faults)
    wrong = [fault for faults in found for fault in faults if not fault.endswith(": too long")]
    print("".join(f"{fault}\n" for fault in wrong), end="")
    counts = f"{len(streams)} hostile streams, {len(files)} hostile files, {len(LIMITS_OF_MEMORY)} limits of memory"
    print(f"{counts}: {len(wrong)} faults, {late} stopped as too long")
    return 1 if wrong else 0


if __name__ == "__main__":
    sys.exit(main())
