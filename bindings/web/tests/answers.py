#!/usr/bin/env python3
"""Writes into a folder of .jb2 files what the page is compared with: PDF files of their pages, and answers.json.

usage: bindings/web/tests/answers.py PROGRAM FOLDER

PROGRAM is jbig2-decode. A page of answers.json is its width, its height and the sum of its packed rows, or the text of the
error, as PROGRAM has them; "files" has the pages of each file by both readings, "pdf" the images of each PDF file in any order.
Some PDF files are written by pikepdf, where it is installed.
"""
import concurrent.futures
import hashlib
import json
import os
import pathlib
import subprocess
import sys
import tempfile

from conformance.runner.embedding import Embedded, embedded_page, file_of
from conformance.runner.segments import pages_of, segments_of_file
from write_pdf import pdf_of_images

ROOT = pathlib.Path(__file__).resolve().parents[3]
READINGS = {"lenient": [], "strict": ["--strict"]}
IMAGES_IN_A_FILE = 50
# Writes a PDF file anew with streams of objects.
REWRITE = "import pikepdf, sys; pikepdf.open(sys.argv[1]).save(sys.argv[2], object_stream_mode=pikepdf.ObjectStreamMode.generate)"


class Program:
    """What jbig2-decode makes of files."""

    def __init__(self, path):
        self.path = path

    def run(self, *words):
        """What the program writes, or the text of its error."""
        done = subprocess.run([self.path, *words], capture_output=True)
        return done.stdout if done.returncode == 0 else done.stderr.decode().strip().removeprefix("error: ")

    def page(self, *words):
        """A page as answers.json has it."""
        made = self.run(*words)
        if isinstance(made, str):
            return made
        _, size, rows = made.split(b"\n", 2)
        return [*map(int, size.split()), hashlib.sha256(rows).hexdigest()]

    def pages(self, file, options):
        """The pages of a file, or its error."""
        listed = self.run(*options, "pages", file)
        if isinstance(listed, str):
            return listed
        return [self.page(*options, "pbm", file, str(index)) for index in range(len(listed.splitlines()))]

    def embedded(self, page, options):
        """The page of a PDF file's streams, or its error, by a file that is made of them."""
        with tempfile.NamedTemporaryFile() as file:
            file.write(file_of(page))
            file.flush()
            return self.page(*options, "pbm", file.name, "0")

    def answers(self, path):
        """What the program makes of one file of the folder by both readings."""
        if is_embedded(path):
            return {name: [self.embedded(streams_of(path), options)] for name, options in READINGS.items()}
        if not path.read_bytes().startswith(b"\x97JB2"):
            return {name: [self.run(*options, "embedded", path)] for name, options in READINGS.items()}
        return {name: self.pages(path, options) for name, options in READINGS.items()}


def is_embedded(path):
    return path.name.endswith(".page.jb2")


def streams_of(path):
    """The streams of an embedded page of the suite."""
    shared = path.with_name(path.name.replace(".page.", ".globals."))
    return Embedded(path.read_bytes(), shared.read_bytes() if shared.exists() else b"")


def streams_of_pages(path):
    """The pages of a file as a PDF file has them."""
    if is_embedded(path):
        return [streams_of(path)]
    data = path.read_bytes()
    return [embedded_page(data, index) for index in range(len(pages_of(segments_of_file(data))))]


def write_pdf_files(folder, images):
    """Writes PDF files of these images, with their sizes, in two or three forms, and returns the pages of each."""
    answers, python = {}, python_with_pikepdf()
    if python is None:
        print("web: no PDF file was written by pikepdf, which is not installed")
    for begin in range(0, len(images), IMAGES_IN_A_FILE):
        some = images[begin : begin + IMAGES_IN_A_FILE]
        pages = [page for _, page in some]
        streams = [(page[0], page[1], stream) for stream, page in some]
        for form in ("plain", "packed"):
            path = folder / f"{form}-{begin:04}.pdf"
            path.write_bytes(pdf_of_images(streams, packed=form == "packed"))
            answers[path.name] = pages
            if python is not None and form == "plain":
                again = folder / f"pikepdf-{begin:04}.pdf"
                subprocess.run([python, "-c", REWRITE, path, again], check=True)
                answers[again.name] = pages
    return answers


def python_with_pikepdf():
    """An interpreter that has pikepdf, or None. Debian's is for Debian's Python."""
    for python in (sys.executable, "/usr/bin/python3"):
        if os.path.exists(python) and subprocess.run([python, "-c", "import pikepdf"], capture_output=True).returncode == 0:
            return python
    return None


def main():
    program, folder = Program(sys.argv[1]), pathlib.Path(sys.argv[2])
    paths = sorted(path for path in folder.glob("*.jb2") if not path.name.endswith(".globals.jb2"))
    streams = [page for path in paths for page in streams_of_pages(path)]
    with concurrent.futures.ThreadPoolExecutor() as pool:
        files = dict(zip([path.name for path in paths], pool.map(program.answers, paths)))
        pages = list(pool.map(lambda page: program.embedded(page, []), streams))
    images = [(stream, page) for stream, page in zip(streams, pages) if not isinstance(page, str)]
    answers = {"files": files, "pdf": write_pdf_files(folder, images)}
    (folder / "answers.json").write_text(json.dumps(answers))


if __name__ == "__main__":
    main()
