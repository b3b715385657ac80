"""Writes pictures by the command `hayro-jbig2 write`, and compares what is read back with them.

usage: python3 -m testing.comparison.written [--count COUNT] [--seed SEED] [--scans FOLDER] [--tool PROGRAM] [--no-suite]

Written are the pictures of the conformance suite, the pages of the JBIG2, PDF and PBM files of a folder, and made-up
ones, each as a JBIG2 file, by one of the settings, and as a page of a PDF file. The files are read by `hayro-jbig2`, in
strict reading, and by jbig2dec; the PDF files by `hayro-jbig2`, Poppler (pdfimages) and pdf.js (libjs-pdf and Node). Says
which reader is not here. Needs make; without --tool it builds the command.
"""
import argparse
import collections
import concurrent.futures
import dataclasses
import hashlib
import itertools
import os
import pathlib
import random
import shutil
import subprocess
import sys
import tempfile

from testing.comparison.root import ROOT
from conformance.runner.pictures import NoPicture, of_numbers, pictures_of

PDF_JS = pathlib.Path("/usr/share/javascript/pdf/build")
# How many pictures are written at once. pdf.js takes long for large files.
BATCH = 250
MMR = ["--coding=mmr"]
SETTINGS = [
    MMR, *([f"--template={number}", typical] for number in range(4) for typical in ("--typical", "--no-typical"))
]


def lines(chance, width, height):
    """Rows of runs, of which many are as the one above."""
    rows = []
    while len(rows) < height:
        row, at = 0, 0
        while at < width:
            run = min(chance.randrange(1, 40), width - at)
            row = row << run | chance.choice((0, (1 << run) - 1))
            at += run
        rows += [row] * chance.choice((1, 1, 1, 2, 5))
    return rows[:height]


def noise(chance, width, height):
    share = chance.choice((1, 2, 3))
    rows = []
    for _ in range(height):
        row = chance.getrandbits(width)
        for _ in range(share - 1):
            row &= chance.getrandbits(width)
        rows.append(row)
    return rows


def plain(chance, width, height):
    return [chance.choice((0, (1 << width) - 1))] * height


def made_up(count, seed):
    """Pictures of all sizes; most are small."""
    chance = random.Random(seed)
    for number in range(count):
        most = chance.choice((9, 70, 70, 300, 300, 2000 if number % 50 == 0 else 130))
        width, height = chance.randrange(1, most + 1), chance.randrange(1, most + 1)
        if number % 500 == 0:
            width, height = chance.choice(((65535, 3), (3, 65535)))
        rows = chance.choice((lines, lines, noise, plain))(chance, width, height)
        yield f"made-up {number}", of_numbers(rows, width)


def suite():
    with tempfile.TemporaryDirectory() as folder:
        subprocess.run([os.path.join(ROOT, "conformance", "make"), folder], check=True)
        for path in sorted(pathlib.Path(folder).rglob("*.pbm")):
            for picture in pictures_of(path.read_bytes()):
                yield path.name, picture


def scans(tool, folder):
    for path in sorted(pathlib.Path(folder).rglob("*")):
        data = b""
        if path.suffix == ".pbm":
            data = path.read_bytes()
        elif path.suffix in (".jb2", ".jbig2", ".pdf"):
            data = subprocess.run([tool, path, "-q", "-f", "pbm", "-o", "-"], capture_output=True, check=False).stdout
        for number, picture in enumerate(pictures_of(data), 1):
            yield f"{path.name} {number}", picture


def read_by_us(tool, words):
    ended = subprocess.run([tool, "--strict", "-f", "pbm", "-o", "-", *words], capture_output=True, check=False)
    if ended.returncode != 0:
        raise NoPicture(ended.stderr.decode(errors="replace"))
    return pictures_of(ended.stdout)


def read_by_jbig2dec(path):
    out = path.with_suffix(".theirs.pbm")
    subprocess.run(["jbig2dec", "-t", "pbm", "-o", out, path], capture_output=True, check=False)
    return pictures_of(out.read_bytes())[0] if out.exists() else None


def read_by_poppler(pdf):
    stem = pdf.with_suffix("")
    subprocess.run(["pdfimages", pdf, stem], capture_output=True, check=False)
    return [pictures_of(path.read_bytes())[0] for path in sorted(pdf.parent.glob(f"{stem.name}-*.pbm"))]


def white_where(wanted, picture):
    """The picture, but for rows that are wanted white: of MMR data Poppler 22.12 shows black runs of rows above there."""
    if len(picture.rows) != len(wanted.rows):
        return picture
    white = bytes((wanted.width + 7) // 8)
    starts = range(0, len(wanted.rows), len(white))
    rows = (white if wanted.rows.startswith(white, at) else picture.rows[at : at + len(white)] for at in starts)
    return dataclasses.replace(picture, rows=b"".join(rows))


def sums_by_pdf_js(pdf):
    """What pdf.js draws: `digest` of each picture."""
    words = ["node", pathlib.Path(__file__).with_name("written_pdfjs.mjs"), PDF_JS, pdf]
    ended = subprocess.run(words, capture_output=True, check=False)
    return ended.stdout.decode().split("\n")[:-1]


def sum_of(picture):
    return f"{picture.width} {picture.height} {hashlib.sha256(picture.rows).hexdigest()}"


class Comparison:
    """Pictures that are written and read back, and how many of them differ by each reader."""

    def __init__(self, tool):
        self.tool = tool
        self.same, self.other = collections.Counter(), collections.Counter()
        self.pixels = self.bytes = self.written = 0
        self.has_pdf = b"reads PDF: libqpdf" in subprocess.run([tool, "--version"], capture_output=True, check=True).stdout
        programs = {"jbig2dec": "jbig2dec", "Poppler": "pdfimages", "pdf.js": "node"}
        self.readers = {name for name, program in programs.items() if shutil.which(program)}
        if not (PDF_JS / "pdf.worker.js").exists():
            self.readers.discard("pdf.js")
        for name in sorted(set(programs) - self.readers):
            print(f"not here: {name}")

    def compare(self, reader, names, read, wanted):
        """Each picture that is wanted, beside what was read; there may be fewer, or more."""
        for name, got, want in itertools.zip_longest(names, read, wanted):
            if got == want:
                self.same[reader] += 1
            else:
                self.other[reader] += 1
                print(f"{reader}: {name or 'one more'} is another")

    def take(self, named, settings):
        names, pictures = [name for name, _ in named], [picture for _, picture in named]
        with tempfile.TemporaryDirectory() as folder:
            room = pathlib.Path(folder)
            inputs = [room / f"{number:04}.pbm" for number in range(len(pictures))]
            for path, picture in zip(inputs, pictures):
                path.write_bytes(picture.pbm)
            pdf = room / "all.pdf"
            for output in f"{room}/files/", pdf:
                subprocess.run([self.tool, "write", *inputs, *settings, "-o", output], check=True)
            files = sorted((room / "files").iterdir())
            self.written += len(files)
            self.pixels += sum(picture.width * picture.height for picture in pictures)
            self.bytes += sum(path.stat().st_size for path in files)
            self.read(names, pictures, files, pdf, settings == MMR)

    def read(self, names, pictures, files, pdf, is_mmr):
        self.compare("ours, files", names, read_by_us(self.tool, files), pictures)
        if self.has_pdf:
            self.compare("ours, PDF", names, read_by_us(self.tool, [pdf]), pictures)
        if "jbig2dec" in self.readers:
            with concurrent.futures.ThreadPoolExecutor() as threads:
                self.compare("jbig2dec", names, list(threads.map(read_by_jbig2dec, files)), pictures)
        if "Poppler" in self.readers:
            read = read_by_poppler(pdf)
            if is_mmr:
                read = [*map(white_where, pictures, read), *read[len(pictures) :]]
            self.compare("Poppler", names, read, pictures)
        if "pdf.js" in self.readers:
            self.compare("pdf.js", names, sums_by_pdf_js(pdf), [sum_of(picture) for picture in pictures])

    def end(self):
        print(f"{self.written} pictures of {self.pixels} pixels were written as files of {self.bytes} bytes")
        for reader in sorted(self.same | self.other):
            print(f"{reader}: {self.same[reader]} are the same, {self.other[reader]} others")
        return 1 if self.other else 0


def batches(pictures):
    batch = []
    for picture in pictures:
        batch.append(picture)
        if len(batch) == BATCH:
            yield batch
            batch = []
    if batch:
        yield batch


def main():
    words = argparse.ArgumentParser(description=__doc__, formatter_class=argparse.RawDescriptionHelpFormatter)
    words.add_argument("--count", type=int, default=1000)
    words.add_argument("--seed", type=int, default=1)
    words.add_argument("--scans")
    words.add_argument("--tool", default=os.path.join(ROOT, "bindings", "c", "out", "hayro-jbig2"))
    words.add_argument("--no-suite", action="store_true")
    given = words.parse_args()
    if given.scans and not os.path.isdir(given.scans):
        words.error(f"there is no folder {given.scans}")
    if given.tool == words.get_default("tool"):
        subprocess.run(["make", "--quiet", "-C", os.path.join(ROOT, "bindings", "c")], check=True, stdout=subprocess.DEVNULL)
    comparison = Comparison(given.tool)
    sources = [made_up(given.count, given.seed)]
    if not given.no_suite:
        sources.append(suite())
    if given.scans:
        sources.append(scans(given.tool, given.scans))
    number = 0
    for source in sources:
        for batch in batches(source):
            comparison.take(batch, SETTINGS[number % len(SETTINGS)])
            number += 1
    sys.exit(comparison.end())


if __name__ == "__main__":
    main()
