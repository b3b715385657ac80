"""Measures the most memory that drawing files takes here, beside the least that the crate hayro-jbig2 0.4.0 needs for them.

usage: python3 -m testing.comparison.memory [--strict] [--seconds S] [--memory MIB] [--decisions N] [FILE ..]
       python3 -m testing.comparison.memory [--strict] [--seconds S] [--memory MIB] [--decisions N]
           --damaged COUNT [--first FIRST] [--seed SEED]

Files have a file header. --damaged makes files as testing/comparison/damage.py does, those of its runs FIRST to FIRST + COUNT
- 1. All pages of a file are drawn in one context by the library for C, which asks testing/comparison/peak.c for memory; that
counts the bytes that are alive at once, without those of the file. The crate isn't run: crate_memory.py says from the headers
what it has alive at least. A file for which the library takes more than twice that and 64 KiB besides is printed, and kept if
it was damaged. Then its symbols are decoded by testing/comparison/model, and counted too. Status 0 means that no file is still
above. The model stops after N decisions of the coder, 30 million if nothing else is said; what it has counted by then may be
too little. testing/comparison/README.md says what the library takes that the crate doesn't. Run bindings/c/build first. CC may
name a compiler.
"""
import argparse
import functools
import os
import random
import subprocess
import sys
import tempfile

from testing.comparison.compare import kept
from testing.comparison.corpus import own_corpus
from testing.comparison.crate_memory import Walk, bitmap_bytes
from testing.comparison.damage import SIZE_OF_CORPUS, damaged
from testing.comparison.limited import Runner
from testing.comparison.model.answers import Refused, TooMuch, Work
from testing.comparison.model.bitmap import Bitmap
from testing.comparison.model.page import END_OF_FILE, END_OF_PAGE, KEPT, Drawing, File, Names, page_size
from testing.comparison.root import ROOT

ALLOWED = 1 << 16
# The decisions for which symbols are decoded in Python, and the pixels for each of them.
MOST_DECISIONS, PIXELS = 30_000_000, 7
HERE = os.path.join(ROOT, "testing", "comparison")


def build(folder):
    """Builds peak.c with the library."""
    program = os.path.join(folder, "peak")
    words = [os.environ.get("CC", "cc"), "-std=c11", "-O2", "-I" + os.path.join(ROOT, "bindings", "c"),
             os.path.join(HERE, "peak.c")]
    subprocess.run([*words, os.path.join(ROOT, "bindings", "c", "out", "libhayro_jbig2.a"), "-o", program], check=True)
    return program


def refusing(drawing, segments):
    """The number of the segment that is refused where they are decoded, or -1; None where that takes too much work."""
    for segment in segments:
        try:
            if drawing.page is None and segment.kind in KEPT:
                drawing.draw(segment)
            elif drawing.page is not None:
                if segment.kind in (END_OF_PAGE, END_OF_FILE):
                    break
                drawing.draw(segment)
        except Refused:
            return segment.number
        except TooMuch:
            return None
    return -1


def least_bytes(data, strict, shared_first, pages, work=None):
    """The fewest bytes that the crate has alive at once; symbols are counted if there is `work` to decode them. `pages` are the
    error of each page and the number of the first segment that was passed over in it, `shared_first` that of what they share;
    -1 where none was, or where it isn't known. With `work` it is found."""
    file = File(data, strict)
    assert len(file.pages) == len(pages)
    drawn = all(error == 0 for error, _ in pages)
    is_sure = drawn or shared_first < 0 and not strict
    decoded = Drawing(work, strict, Names())
    if work and not drawn:
        found = refusing(decoded, file.shared)
        is_sure, shared_first = found == -1, -1 if found is None else found
    shared = Walk(Names(), 0, strict, work)
    if not shared.go(file.shared, shared_first, is_sure):
        return shared.most
    most = shared.most
    for (error, first), segments in zip(pages, file.pages.values()):
        width, height, black = page_size(segments)
        if work and error and first < 0 and width * height < work.pixels:
            page = Bitmap(work, width, height, black)
            found = refusing(Drawing(work, strict, Names(decoded.names), page), segments)
            first = -1 if found is None else found
        walk = Walk(Names(shared.names), shared.alive + bitmap_bytes(width, height), strict, work)
        walk.page, walk.black = (width, height), black
        walk.go(segments, first, error == 0)
        most = max(most, walk.most)
    return most


class Measured:
    """What peak.c printed of a file."""

    def __init__(self, text):
        first, *lines = text.decode().splitlines()
        self.most = int(first)
        self.is_refused = lines[0].startswith("refused")
        self.shared = -1 if self.is_refused else int(lines[-1].split()[1])
        self.pages = [] if self.is_refused else [tuple(map(int, line.split())) for line in lines[:-1]]

    @property
    def is_drawn(self):
        return not self.is_refused and all(error == 0 for error, _ in self.pages)


class Tally:
    """What the files so far have come to."""

    def __init__(self, decisions):
        self.decisions = decisions
        self.counts = dict.fromkeys(("files", "drawn", "refused", "stopped", "above", "above with symbols"), 0)
        self.highest = (0.0, "none")

    def note(self, name, measured, least_of, save):
        """Counts a file, and prints it where it takes more than is allowed. `least_of` says what the crate takes, of work to
        decode symbols or of none."""
        self.counts["drawn"] += measured.is_drawn
        least = least_of(None)
        if measured.most > 2 * least + ALLOWED:
            self.counts["above"] += 1
            line = f"{save(name)}: {measured.most} bytes, the crate at least {least}"
            work = Work(self.decisions, PIXELS * self.decisions)
            least = least_of(work)
            is_above = measured.most > 2 * least + ALLOWED
            self.counts["above with symbols"] += is_above
            stopped = ", where the model stopped" * work.is_used_up
            print(f"{line}, with symbols {least}{stopped}{', still above' * is_above}", flush=True)
        # Where the crate takes next to nothing, a ratio says nothing.
        self.highest = max(self.highest, (measured.most / max(least, ALLOWED), name))

    def line(self):
        said = ", ".join(f"{count} {name}" for name, count in self.counts.items())
        return f"{said}; the highest ratio is {self.highest[0]:.2f} ({self.highest[1]})"


def given_files(names):
    for name in names:
        with open(name, "rb") as file:
            yield name, file.read(), lambda name: name


def damaged_files(options):
    samples = own_corpus(SIZE_OF_CORPUS, options.seed)
    for turn in range(options.first, options.first + options.damaged):
        chance = random.Random(options.seed << 40 | turn)
        data = damaged(chance, chance.choice(samples))
        yield f"damaged-{options.seed}-{turn}", data, lambda name, data=data: kept(data, name)


def least_of_file(data, strict, measured, work):
    """What the crate takes at least; nothing for a file that is refused."""
    return 0 if measured.is_refused else least_bytes(data, strict, measured.shared, measured.pages, work)


def measure_all(runner, files, strict, decisions):
    tally = Tally(decisions)
    for name, data, save in files:
        tally.counts["files"] += 1
        ended = runner.run(data, ["--strict", None] if strict else [None])
        if ended.is_slow:
            tally.counts["stopped"] += 1
            continue
        if ended.signal or ended.status:
            sys.exit(f"{save(name)}: status {ended.status}, signal {ended.signal}, {ended.fault!r}")
        measured = Measured(runner.beginning(1 << 20))
        if measured.is_refused:
            tally.counts["refused"] += 1
        tally.note(name, measured, functools.partial(least_of_file, data, strict, measured), save)
    return tally


def main():
    parser = argparse.ArgumentParser(usage=__doc__)
    parser.add_argument("--strict", action="store_true")
    parser.add_argument("--seconds", type=int, default=10)
    parser.add_argument("--memory", type=int, default=3072)
    parser.add_argument("--decisions", type=int, default=MOST_DECISIONS)
    parser.add_argument("--damaged", type=int, default=0)
    parser.add_argument("--first", type=int, default=0)
    parser.add_argument("--seed", type=int, default=1)
    parser.add_argument("files", nargs="*")
    options = parser.parse_args()
    files = damaged_files(options) if options.damaged else given_files(options.files)
    with tempfile.TemporaryDirectory() as folder:
        runner = Runner(build(folder), folder, options.seconds, options.memory << 20)
        tally = measure_all(runner, files, options.strict, options.decisions)
    print(tally.line())
    return 1 if tally.counts["above with symbols"] else 0


if __name__ == "__main__":
    sys.exit(main())
