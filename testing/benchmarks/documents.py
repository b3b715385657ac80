"""Times documents with shared globals: by the library for C, with handles and without, from Rust, Python and Node, and by
libjbig2dec.

    testing/benchmarks/documents [--pages N] [--rounds N] [--only TEXT] FILE.jb2 ..

Each file has a page. Its dictionaries and tables are the globals of a document of N pages (200), all the same page; the
last document has pages of 8 by 1 pixels over the globals of the first file. The ways take turns, in one thread, and with a
thread for each core, which Node has not. Of the processor's time, and of the time that passed, the least of the rounds (5)
counts. The pictures are compared. What isn't installed, and ways whose name hasn't TEXT, are left out.
"""
from __future__ import annotations

import argparse
import ctypes.util
import importlib.util
import os
import pathlib
import shutil
import subprocess
import sys
import tempfile

from conformance.runner.embedding import SMALL, embedded_page, image_of
from conformance.runner.pdf import Image

HERE = pathlib.Path(__file__).resolve().parent
ROOT = HERE.parent.parent
PEER = "libjbig2dec"
ONE_THREAD = "Node, calls on bytes"


def ways_built(room: pathlib.Path) -> dict[str, list[str]]:
    """The beginning of the command of each way, by its name."""
    subprocess.run([ROOT / "bindings" / "c" / "build"], check=True)
    program = str(room / "documents")
    words = ["-std=gnu11", "-Wall", "-Wextra", "-O2", f"-I{ROOT}/bindings/c", f"-I{ROOT}/bindings/dropin/source", "-pthread"]
    sources = [str(HERE / "documents.c"), str(ROOT / "bindings" / "c" / "out" / "libhayro_jbig2.a")]
    subprocess.run([os.environ.get("CC", "cc"), *words, *sources, "-ldl", "-o", program], check=True)
    ways = {"calls on bytes": [program, "bytes"], "handles": [program, "handles"]}
    if shutil.which("cargo"):
        program = rust_program(room)
        ways |= {"Rust, packed rows": [program, "packed"], "Rust, calls on a Decoder": [program, "calls"]}
    if importlib.util.find_spec("pip"):
        ways["Python, a pool of threads"] = python_words(room)
    if shutil.which("node"):
        ways[ONE_THREAD] = ["node", str(HERE / "documents_module.mjs")]
    peer = ctypes.util.find_library("jbig2dec")
    if peer:
        ways[PEER] = [str(room / "documents"), peer]
    return ways


def rust_program(room: pathlib.Path) -> str:
    """documents.rs, over the crate of bindings/rust/."""
    target = room / "target"
    words = ["--offline", "--quiet", "--release", "--target-dir", str(target)]
    subprocess.run(["cargo", "build", *words], cwd=ROOT / "bindings" / "rust", check=True)
    program, crate = str(room / "documents-rs"), f"hayro_jbig2={target}/release/libhayro_jbig2.rlib"
    words = ["--edition", "2024", "-O", "--extern", crate, "-o", program]
    subprocess.run(["rustc", *words, str(HERE / "documents.rs")], check=True)
    return program


def python_words(room: pathlib.Path) -> list[str]:
    """documents_pool.py, over the package of bindings/python/."""
    installed = str(room / "installed")
    words = ["--quiet", "install", "--no-index", "--no-deps", "--root-user-action=ignore", "--target", installed]
    subprocess.run([sys.executable, "-m", "pip", *words, str(ROOT / "bindings" / "python")], check=True)
    return ["env", f"PYTHONPATH={installed}", sys.executable, str(HERE / "documents_pool.py")]


class Document:
    """Draws a document of equal pages by each way."""

    def __init__(self, image: Image, pages: int, room: pathlib.Path) -> None:
        self.pages, self.room = pages, room
        self.inputs = [str(room / "globals"), str(room / "stream")]
        for name, content in zip(self.inputs, (image.shared, image.stream)):
            pathlib.Path(name).write_bytes(content)

    def drawn(self, way: list[str], threads: int) -> tuple[float, float, bytes]:
        """The seconds that passed, those of the processor, and the picture."""
        out = self.room / "out.pbm"
        words = [*way, str(threads), str(self.pages), *self.inputs, str(out)]
        passed, used = subprocess.run(words, check=True, stdout=subprocess.PIPE).stdout.split()
        return float(passed), float(used), out.read_bytes()

    def timed(self, ways: dict[str, list[str]], threads: int, rounds: int) -> None:
        """Prints a line for each way."""
        ways = {name: way for name, way in ways.items() if threads == 1 or name != ONE_THREAD}
        runs = [[self.drawn(way, threads) for way in ways.values()] for _ in range(rounds)]
        for name, turns in zip(ways, zip(*runs)):
            passed, used = (min(column) for column in list(zip(*turns))[:2])
            print(f"    {name}: {used:.3f} s of the processor, {passed:.3f} s, {self.pages / passed:.0f} pages a second")
        if len({picture for turn in runs for _, _, picture in turn}) > 1:
            sys.exit("    the pictures differ")


def main() -> None:
    """Prints a paragraph for each document."""
    parser = argparse.ArgumentParser(usage=__doc__)
    parser.add_argument("--pages", type=int, default=200)
    parser.add_argument("--rounds", type=int, default=5)
    parser.add_argument("--only", default="")
    parser.add_argument("files", nargs="+", type=pathlib.Path)
    options = parser.parse_args()
    images = {str(file): image_of(embedded_page(file.read_bytes(), 0)) for file in options.files}
    first = next(iter(images))
    images[f"pages of 8 by 1 over the globals of {first}"] = Image(8, 1, SMALL, images[first].shared)
    with tempfile.TemporaryDirectory() as name:
        room = pathlib.Path(name)
        ways = {name: way for name, way in ways_built(room).items() if options.only in name}
        for name, image in images.items():
            document = Document(image, options.pages, room)
            for threads in sorted({1, len(os.sched_getaffinity(0))}):
                print(f"{name}: {options.pages} pages, {len(image.shared)} bytes of globals, {threads} threads")
                document.timed(ways, threads, options.rounds)
                sys.stdout.flush()


if __name__ == "__main__":
    main()
