"""The programs of Debian that decode by libjbig2dec.so.0, over this library or over the one that the system has."""
from __future__ import annotations

import dataclasses
import pathlib
import shlex
import shutil

from conformance.runner.limits import Ended, Limits, run
from conformance.runner.pdf import Image, pdf_of
from conformance.runner.pictures import NoPicture, Picture, pictures_of
from bindings.dropin.tests.root import ROOT

# Four times as long may pass, on a machine that does other things too.
LIMITS = Limits(seconds=60, memory=4 << 30)
PACKAGES = {"mutool": "mupdf-tools", "gs": "ghostscript", "jbig2dec": "jbig2dec"}


@dataclasses.dataclass(frozen=True)
class Library:
    """A libjbig2dec.so.0: in a folder, or the system's own; with settings of the environment."""

    name: str
    folder: pathlib.Path | None = None
    settings: tuple[str, ...] = ()

    def run(self, words: list[str], limits: Limits = LIMITS) -> Ended:
        """Runs a program over this library."""
        head = ["env", f"LD_LIBRARY_PATH={self.folder}", *self.settings] if self.folder else []
        return run(head + words, limits)


OURS = Library("this library", ROOT / "bindings" / "dropin" / "out")
LENIENT = Library("this library, reading leniently", OURS.folder, ("HAYRO_JBIG2_READING=lenient",))
UNLIMITED = Library("that without a limit of work", OURS.folder, (*LENIENT.settings, "HAYRO_JBIG2_WORK_LIMIT=0"))
SYSTEM = Library("libjbig2dec0")


@dataclasses.dataclass(frozen=True)
class Peer:
    """A program that draws the pages of a PDF file {pdf} as PBM files {out}, which has %d in it."""

    name: str
    command: str

    @property
    def program(self) -> str:
        """The program's own name."""
        return self.command.split()[0]

    def drawn(self, library: Library, pdf: pathlib.Path, room: pathlib.Path, limits: Limits = LIMITS) -> Ended:
        """Draws all pages into an empty folder."""
        words = shlex.split(self.command)
        names = {"{pdf}": str(pdf), "{out}": str(room / "%d.pbm")}
        return library.run([names.get(word, word) for word in words], limits)


# Threads draw bands. Without -A 0 mutool itself draws the edges of some bands otherwise.
PEERS = (
    Peer("mutool draw", "mutool draw -q -F pbm -r 72 -o {out} {pdf}"),
    Peer("mutool draw -T 4", "mutool draw -q -F pbm -A 0 -B 16 -T 4 -r 72 -o {out} {pdf}"),
    Peer("mutool convert", "mutool convert -F pbm -O resolution=72 -o {out} {pdf}"),
    Peer("gs", "gs -q -dSAFER -dBATCH -dNOPAUSE -sDEVICE=pbmraw -r72 -o {out} {pdf}"),
)


def missing() -> list[str]:
    """What is not installed, as Debian's packages."""
    return [package for program, package in PACKAGES.items() if shutil.which(program) is None]


def picture_in(path: pathlib.Path) -> Picture | None:
    """The picture in a file, None where there is none."""
    try:
        return next(iter(pictures_of(path.read_bytes())), None)
    except (NoPicture, FileNotFoundError):
        return None


def pictures_by(
    peer: Peer, library: Library, images: list[Image], room: pathlib.Path
) -> tuple[Ended, list[Picture | None]]:
    """What a peer draws of a PDF file with these images, a picture for each."""
    folder = room / f"{peer.name} {library.name}".replace(" ", "-")
    folder.mkdir()
    pdf = folder / "pages.pdf"
    pdf.write_bytes(pdf_of(images))
    ended = peer.drawn(library, pdf, folder)
    pictures = [picture_in(folder / f"{page}.pbm") for page in range(1, len(images) + 1)]
    shutil.rmtree(folder)
    return ended, pictures


def pictures_of_file(library: Library, file: pathlib.Path, room: pathlib.Path) -> list[Picture]:
    """What mutool draws of a JBIG2 file, for whose pages it takes 96 pixels an inch."""
    library.run(["mutool", "draw", "-q", "-r", "96", "-F", "pbm", "-o", str(room / "%d.pbm"), str(file)])
    pictures = []
    while picture := picture_in(room / f"{len(pictures) + 1}.pbm"):
        (room / f"{len(pictures) + 1}.pbm").unlink()
        pictures.append(picture)
    return pictures


def pictures_by_program(library: Library, words: list[str], room: pathlib.Path) -> list[Picture]:
    """What the program jbig2dec draws of its input files `words`: the pages of a file, or that of two streams."""
    out = room / "jbig2dec.pbm"
    out.unlink(missing_ok=True)
    library.run(["jbig2dec", "-q", "-t", "pbm", "-o", str(out), *words])
    try:
        return pictures_of(out.read_bytes())
    except (NoPicture, FileNotFoundError):
        return []
