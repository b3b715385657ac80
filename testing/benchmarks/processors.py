"""usage: testing/benchmarks/processors [--rounds N] [--pages N] FILE.jb2 ..

What this machine gives: each kind of work by one process, then by as many at once as there are processors, in turns. The
kinds are arithmetic alone, steps through 8 MB (processors.c), and pages of a document with shared globals of each file's first
page, by handles and by libjbig2dec (documents.c), in processes of their own and in the threads of one.

For each it prints, from the least of N rounds (5): how many times the speed of one, which only a machine with nothing else
to do tells, and how many times one's seconds of the processor each takes. If that is 1.2, four give at most 4 / 1.2.
"""
from __future__ import annotations

import argparse
import ctypes.util
import os
import pathlib
import subprocess
import sys
import tempfile

from conformance.runner.embedding import embedded_page, image_of

HERE = pathlib.Path(__file__).resolve().parent
ROOT = HERE.parent.parent
COUNT = len(os.sched_getaffinity(0))


def at_once(words: list[str], count: int) -> tuple[float, float]:
    """The most seconds that passed for one of these processes, and the mean of their seconds of the processor."""
    running = [subprocess.Popen(words, stdout=subprocess.PIPE, text=True) for _ in range(count)]
    times = [[float(word) for word in process.communicate()[0].split()] for process in running]
    if any(process.returncode != 0 for process in running):
        sys.exit(f"processors: {' '.join(words)} failed")
    return max(passed for passed, _ in times), sum(used for _, used in times) / count


def built(room: pathlib.Path) -> None:
    """Compiles processors.c and documents.c."""
    compiler = [os.environ.get("CC", "cc"), "-std=gnu11", "-Wall", "-Wextra", "-O2", "-pthread"]
    subprocess.run([ROOT / "bindings" / "c" / "build"], check=True)
    subprocess.run([*compiler, str(HERE / "processors.c"), "-o", str(room / "processors")], check=True)
    sources = [str(HERE / "documents.c"), str(ROOT / "bindings" / "c" / "out" / "libhayro_jbig2.a")]
    folders = [f"-I{ROOT}/bindings/c", f"-I{ROOT}/bindings/dropin/source"]
    subprocess.run([*compiler, *folders, *sources, "-ldl", "-o", str(room / "documents")], check=True)


def kinds(files: list[pathlib.Path], pages: int, room: pathlib.Path) -> dict[str, list[list[str]]]:
    """By its name the command of each kind of work: of one, and of a thread for each processor where it has threads."""
    found = {name: [[str(room / "processors"), name, str(pages)]] for name in ("arithmetic", "memory")}
    ways = {"handles": "handles"}
    if ctypes.util.find_library("jbig2dec"):
        ways["libjbig2dec"] = ctypes.util.find_library("jbig2dec")
    for number, file in enumerate(files):
        image = image_of(embedded_page(file.read_bytes(), 0))
        inputs = [room / f"{number}.globals", room / f"{number}.stream"]
        inputs[0].write_bytes(image.shared)
        inputs[1].write_bytes(image.stream)
        for name, way in ways.items():
            end = [*map(str, inputs), os.devnull]
            # Each thread draws as many pages as a process of its own.
            counts = [["1", str(pages)], [str(COUNT), str(COUNT * pages)]]
            found[f"{file}, {name}"] = [[str(room / "documents"), way, *numbers, *end] for numbers in counts]
    return found


def main() -> None:
    """Prints a line for each kind."""
    parser = argparse.ArgumentParser(usage=__doc__)
    parser.add_argument("--rounds", type=int, default=5)
    parser.add_argument("--pages", type=int, default=100)
    parser.add_argument("files", nargs="*", type=pathlib.Path)
    options = parser.parse_args()
    with tempfile.TemporaryDirectory() as folder:
        room = pathlib.Path(folder)
        built(room)
        for name, commands in kinds(options.files, options.pages, room).items():
            turns: dict[str, list[tuple[float, float]]] = {"one": [], "processes": [], "threads": []}
            for _ in range(options.rounds):
                turns["one"].append(at_once(commands[0], 1))
                turns["processes"].append(at_once(commands[0], COUNT))
                for command in commands[1:]:
                    passed, used = at_once(command, 1)
                    turns["threads"].append((passed, used / COUNT))
            one = [min(column) for column in zip(*turns.pop("one"))]
            said = []
            for way, times in turns.items():
                if times:
                    passed, used = (min(column) for column in zip(*times))
                    speed = f"{COUNT * one[0] / passed:.2f} times the speed"
                    said.append(f"{COUNT} {way} {speed}, {used / one[1]:.2f} of the processor each")
            print(f"{name}: one {one[1]:.3f} s; " + "; ".join(said))
            sys.stdout.flush()


if __name__ == "__main__":
    main()
