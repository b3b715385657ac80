"""Damages files at random, and runs the built jbig2-decode on them under limits of time and memory.

usage: python3 -m testing.comparison.damage [--count COUNT] [--first FIRST] [--seed SEED] [--seconds S] [--memory MIB] [FILE ...]

Without files it takes a corpus of its own. Each run has a number, and depends on it, the seed and the files alone: runs FIRST
to FIRST + COUNT - 1 are made. So after a stop `--first` goes on with the number that was printed last, and two cores share the
work by two calls. First each undamaged file that jbig2dec draws is drawn by both. PROGRAM may name a built jbig2-decode.
"""
import argparse
import collections
import os
import random
import re
import subprocess
import sys
import tempfile
import time

from testing.comparison.compare import kept, our_picture, their_picture
from testing.comparison.corpus import given_corpus, own_corpus
from testing.comparison.limited import MOST_OUTPUT, Runner
from testing.comparison.root import ROOT
from conformance.runner.limits import folder_in_memory
from conformance.runner.segments import parts_of
from testing.error_texts import TEXTS
from testing.jbig2_encoder.pictures import pixels

SIZE_OF_CORPUS = 400
EDGES = (b"\0", b"\x7f", b"\x80", b"\xff")
NUMBERS = (0, 1, 255, 256, 65535, 65536, 1 << 20, (1 << 31) - 1, 1 << 31, (1 << 32) - 1)
REPORT = 20000
FAULT = re.compile(rb"error: [^\n]+\n")
MEMORY = f"error: {TEXTS['OutOfMemory']}"
LARGE, MOST = 1 << 24, 65535 * 65535
HEADING = re.compile(rb"P4\n(\d+) (\d+)\n")


def replace_byte(chance, data):
    place = chance.randrange(len(data))
    byte = chance.choice(EDGES) if chance.random() < 0.5 else bytes([chance.randrange(256)])
    return data[:place] + byte + data[place + 1 :]


def turn_bit(chance, data):
    place = chance.randrange(len(data))
    return data[:place] + bytes([data[place] ^ 1 << chance.randrange(8)]) + data[place + 1 :]


def write_number(chance, data):
    place, size = chance.randrange(len(data)), chance.choice((1, 2, 4))
    return data[:place] + (chance.choice(NUMBERS) % 256**size).to_bytes(size, "big") + data[place + size :]


def cut_off(chance, data):
    return data[: chance.randrange(len(data))]


def take_out(chance, data):
    place = chance.randrange(len(data))
    return data[:place] + data[place + chance.randrange(1, 9) :]


def put_in(chance, data):
    place, start = chance.randrange(len(data)), chance.randrange(len(data))
    return data[:place] + data[start : start + chance.randrange(1, 33)] + data[place:]


DAMAGES = (replace_byte, replace_byte, turn_bit, turn_bit, write_number, cut_off, take_out, put_in)


def moved(chance, segments):
    """Segments of which two are swapped, or one is doubled or left out."""
    segments = segments[:]
    kind, place, other = chance.randrange(3), chance.randrange(len(segments)), chance.randrange(len(segments))
    if kind == 0:
        segments[place], segments[other] = segments[other], segments[place]
    elif kind == 1:
        segments.insert(other, segments[place])
    else:
        del segments[place]
    return segments


def damaged(chance, sample):
    """The file with one to three faults, in a quarter of the cases with a segment moved before."""
    segments = sample.segments
    if chance.random() < 0.25:
        segments = moved(chance, segments)
    data = sample.header + b"".join(segments)
    for _ in range(chance.choice((1, 1, 1, 2, 3))):
        if data:
            data = chance.choice(DAMAGES)(chance, data)
    return data


def words_of(chance, sample, data):
    """What the program is asked, and of which bytes."""
    command = chance.choice(("pages", "embedded", "embedded", "calls", "pbm", "pbm", "pbm"))
    words = ["--strict", command, None] if chance.random() < 0.5 else [command, None]
    if command == "embedded":
        return words, data[len(sample.header) :]
    if command != "pages":
        words.append(str(chance.randrange(sample.pages) if chance.random() < 0.95 else sample.pages))
    return words, data


def area(part):
    """Width times height, which are eight bytes."""
    return int.from_bytes(part[:4], "big") * int.from_bytes(part[4:8], "big")


def asks_for_much(data):
    """Whether a file may take long: by a region of 2^24 pixels or more, by a halftone of as many cells, or by a symbol
    dictionary, whose sizes are in its coded data. All are decoded in full (docs/FORMAT.md, 12.5)."""
    for kind, part in parts_of(data):
        if kind == 0 or 4 <= kind <= 43 and kind != 16 and LARGE <= area(part) <= MOST:
            return True
        if kind in (20, 22, 23) and LARGE <= area(part[18:]) <= MOST:
            return True
    return False


def wrong(runner, ended, words):
    """What is wrong with the way in which a run ended, or None."""
    if ended.signal:
        return f"was ended by signal {ended.signal}"
    if ended.status == 1 and ended.output >= MOST_OUTPUT:
        return None
    if ended.status == 1 and FAULT.fullmatch(ended.fault) and not ended.output:
        return None
    if ended.status or ended.fault:
        return f"ended with status {ended.status}, {ended.output} bytes and {ended.fault!r}"
    if "pbm" in words:
        heading = HEADING.match(runner.beginning(32))
        if not heading:
            return "wrote no picture"
        width, height = int(heading[1]), int(heading[2])
        if ended.output != heading.end() + (width + 7) // 8 * height:
            return f"wrote {ended.output} bytes for {width} by {height} pixels"
    return None


def undamaged(program, samples, folder):
    """How many files were drawn here and by jbig2dec, and how many differ."""
    name, theirs_name = os.path.join(folder, "whole.jb2"), os.path.join(folder, "whole.pbm")
    compared = differing = 0
    for sample in samples:
        if not sample.is_common:
            continue
        with open(name, "wb") as file:
            file.write(sample.bytes())
        theirs, _ = their_picture(name, theirs_name)
        if theirs:
            compared += 1
            ours, fault = our_picture(program, name)
            if pixels(ours) != pixels(theirs):
                differing += 1
                print(f"{sample.name} differs ({kept(sample.bytes(), f'whole-{compared}')}): {fault}")
    return compared, differing


class Tally:
    """What the runs so far have come to."""

    def __init__(self):
        self.answers = collections.Counter()
        self.wrong = self.stopped = 0
        self.slowest = (0.0, 0)
        self.largest = (0, 0)
        self.began = time.monotonic()

    def note(self, turn, ended):
        answer = ended.fault.decode(errors="replace").strip()
        self.answers["stopped" if ended.is_slow else "drawn" if ended.status == 0 else answer] += 1
        self.slowest = max(self.slowest, (ended.seconds, turn))
        self.largest = max(self.largest, (ended.memory, turn))

    def line(self, first, following):
        seconds = time.monotonic() - self.began
        count = following - first
        memory = self.answers[MEMORY]
        return (
            f"runs {first} to {following - 1}: {self.wrong} wrong, {self.stopped} stopped at large work, "
            f"{self.answers['drawn']} drawn, {memory} out of memory, "
            f"slowest {self.slowest[0]:.2f} s (run {self.slowest[1]}), largest {self.largest[0] >> 20} MiB "
            f"(run {self.largest[1]}), {count / seconds:.0f} a second; go on with --first {following}"
        )


def run_all(runner, samples, options):
    tally = Tally()
    for turn in range(options.first, options.first + options.count):
        chance = random.Random(options.seed << 40 | turn)
        sample = chance.choice(samples)
        words, data = words_of(chance, sample, damaged(chance, sample))
        ended = runner.run(data, words)
        tally.note(turn, ended)
        whole = sample.header + data if "embedded" in words else data
        if ended.is_slow and asks_for_much(whole):
            tally.stopped += 1
            continue
        fault = wrong(runner, ended, words)
        if fault:
            tally.wrong += 1
            outcome = " ".join(word or kept(data, f"damaged-{options.seed}-{turn}") for word in words)
            print(f"run {turn} ({sample.name}) {fault}: {outcome}", flush=True)
        if (turn + 1) % REPORT == 0:
            print(tally.line(options.first, turn + 1), flush=True)
    print(tally.line(options.first, options.first + options.count))
    for answer, count in tally.answers.most_common():
        print(f"{count:9} {answer}")
    return tally.wrong


def built_program():
    """The program itself: the script ./jbig2-decode looks at all sources in each run."""
    if "PROGRAM" in os.environ:
        return os.environ["PROGRAM"]
    words = [os.path.join(ROOT, "tools", "build", "program"), "jbig2-decode"]
    return subprocess.run(words, check=True, stdout=subprocess.PIPE, text=True).stdout.rstrip("\n")


def options_of():
    parser = argparse.ArgumentParser()
    parser.add_argument("--count", type=int, default=20000)
    parser.add_argument("--first", type=int, default=0)
    parser.add_argument("--seed", type=int, default=1)
    parser.add_argument("--seconds", type=int, default=10)
    parser.add_argument("--memory", type=int, default=3072, help="in MiB")
    parser.add_argument("files", nargs="*")
    return parser.parse_args()


def main():
    options = options_of()
    program = built_program()
    samples = given_corpus(options.files) if options.files else own_corpus(SIZE_OF_CORPUS, options.seed)
    with tempfile.TemporaryDirectory(dir=folder_in_memory(MOST_OUTPUT)) as folder:
        compared, differing = undamaged(program, samples, folder)
        print(f"{len(samples)} files, {compared} of them drawn by jbig2dec too, {differing} differ", flush=True)
        runner = Runner(program, folder, options.seconds, options.memory << 20)
        count = run_all(runner, samples, options)
    return 1 if differing or count else 0


if __name__ == "__main__":
    sys.exit(main())
