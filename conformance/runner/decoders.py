"""The decoders that are known by name, and how their commands are filled in.

Words of a command: {in} the file, {out} where the picture goes (standard output if no word has it), {page} the page
from 0, {pdf} a PDF file of this page alone, {program} this repository's own. In a command for embedded pages {in} is
the page's stream and {globals} what it shares; that word is left out if it shares nothing. Without such a command a
file is made of the page. {stream} and {shared} are the two streams that such a PDF file has of any page, the second of
no bytes if nothing is shared, {width} and {height} the size that it says.
"""
from __future__ import annotations

import dataclasses
import os
import pathlib
import shlex
import shutil
import subprocess

from .mistake import Mistake

ROOT = pathlib.Path(__file__).resolve().parents[2]
# What the scripts of conformance/peers make, and bindings/dropin/build.
PEERS = ROOT / "conformance" / "out"
DROPIN = ROOT / "bindings" / "dropin" / "out" / "libjbig2dec.so.0"
PDFJS = ROOT / "conformance" / "peers" / "pdfjs.mjs"
# The streams of a PDF file and its size, for decoders that take these.
OF_PDF = "{stream} {shared} {width} {height} {out}"
# The words of a command that stand for the data.
INPUTS = ("{in}", "{pdf}", "{stream}")
JBIG2DEC = "jbig2dec -t pbm -o {out}"
OURS = f"env LD_LIBRARY_PATH={shlex.quote(str(DROPIN.parent))} {JBIG2DEC}"
GS = "gs -q -dSAFER -dBATCH -dNOPAUSE -sDEVICE=pbmraw -r72"


@dataclasses.dataclass(frozen=True)
class Decoder:
    """A decoder: its command, the one for embedded pages if that is another, its word for strict reading if the
    manifest has its answers by both readings, its Debian package, and the decoder whose library it calls. `maker` is
    the script that makes it, and `made` a file that is there then: of a source package the one with its version."""

    name: str
    command: str
    embedded: str = ""
    strict: str = ""
    package: str = ""
    library: str = ""
    maker: str = ""
    made: pathlib.Path | None = None

    def takes_stream(self, has_globals: bool) -> bool:
        """Whether it has a command for an embedded page; one without {globals} is for pages that share nothing."""
        return bool(self.embedded) and ("{globals}" in self.embedded or not has_globals)

    def missing(self) -> str | None:
        """The program, where it isn't there."""
        if self.made and not self.made.exists():
            return f"{self.name}, which {self.maker} makes,"
        program = shlex.split(self.command)[0].replace("{program}", own_program())
        return None if shutil.which(program) else program

    def version(self) -> str:
        """The version of its Debian package."""
        if self.package and self.made:
            return self.made.read_text(encoding="utf-8").strip()
        if not self.package:
            return "this tree"
        words = ["dpkg-query", "-W", "-f", "${Version}", self.package]
        asked = subprocess.run(words, capture_output=True, text=True) if shutil.which(words[0]) else None
        return asked.stdout if asked and asked.returncode == 0 else "of an unknown version"


def peer(name: str, command: str, package: str, script: str) -> Decoder:
    """A decoder that takes the streams of a PDF file and its size, made by a script of conformance/peers."""
    words = f"{command} {OF_PDF}"
    return Decoder(name, words, package=package, maker=f"conformance/peers/{script}", made=PEERS / name / "version")


DECODERS = (
    Decoder("jbig2-decode", "{program} pbm {in} {page}", "{program} embedded {in}", strict="--strict"),
    Decoder("jbig2dec", f"{JBIG2DEC} {{in}}", f"{JBIG2DEC} -e {{globals}} {{in}}", package="jbig2dec"),
    Decoder("mutool", "mutool draw -q -F pbm -r 72 -o {out} {pdf} 1", package="mupdf-tools", library="jbig2dec"),
    Decoder("gs", f"{GS} -sOutputFile={{out}} {{pdf}}", package="ghostscript", library="jbig2dec"),
    Decoder("pdfimages", "pdfimages {pdf} {out}", package="poppler-utils"),
    Decoder("drop-in", f"{OURS} {{in}}", f"{OURS} -e {{globals}} {{in}}", maker="bindings/dropin/build", made=DROPIN),
    peer("pdfium", shlex.quote(str(PEERS / "pdfium-jbig2")), "chromium", "pdfium"),
    peer("pdf.js", f"node {shlex.quote(str(PDFJS))}", "pdf.js", "pdfjs"),
)


def own_program() -> str:
    """This repository's program: PROGRAM may name a built one."""
    return os.environ.get("PROGRAM", str(ROOT / "jbig2-decode"))


def decoder_of(words: list[str]) -> Decoder:
    """The decoder of that name, or of a command whose words are given."""
    for decoder in DECODERS:
        if words == [decoder.name]:
            return decoder
    if not any(name in word for word in words for name in INPUTS):
        names = ", ".join(decoder.name for decoder in DECODERS)
        raise Mistake(
            f"{shlex.join(words)} is none of {names}, and has none of {', '.join(INPUTS)}; options stand before the command"
        )
    command = shlex.join(words)
    return Decoder(words[0], command, command if "{globals}" in command else "")
