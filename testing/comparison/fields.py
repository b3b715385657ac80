"""Makes small files in which one field has another value, and compares what jbig2-decode makes of them with a model.

usage: python3 -m testing.comparison.fields [--count COUNT] [--first FIRST] [--seed SEED] [--library FILE] [--write FILE]
       python3 -m testing.comparison.fields --again FILE .. [--library FILE]

The encoder hands each field that it writes to this script: headers' flags, sizes, counts and references, coded integers
and ids, code lengths and what tables say. One of them is written as 0, 1, a limit, one past it, or with a flag turned;
all that follows is coded as it was. The model in testing/comparison/model reads each file strictly and leniently, and says the
picture or the error; jbig2-decode has to do the same. Each run has a number, and depends on it and the seed alone.
PROGRAM may name a built jbig2-decode; --library is the library for C, shared or as an archive, which is called in place
of it and is faster. A file that is read otherwise is stored, and its line names it. --write writes the files with the
expected results, and --again compares such files once more, without the encoder and the model.
"""
import argparse
import collections
import dataclasses
import gzip
import hashlib
import json
import sys
import tempfile
import time

from testing.comparison.changes import RUNS_OF_DOCUMENT, Changes
from testing.comparison.compare import kept
from testing.comparison.damage import built_program
from testing.comparison.drawing import Library, Program
from testing.comparison.limited import MOST_OUTPUT
from testing.comparison.model.answers import Refused, TooMuch
from testing.comparison.model.page import page_of_file
from conformance.runner.limits import folder_in_memory

REPORT = 5000
DRAWN = "drawn "


@dataclasses.dataclass
class Run:
    """A file with a changed field, one of its pages, and the answers that are meant, strictly and leniently: an error's
    text, or the sum of the picture. None for a file that asks for more work than the model does."""

    number: int
    change: str
    data: bytes
    page: int
    meant: tuple


def summary(picture, error):
    """An answer in one line."""
    return error if error is not None else DRAWN + hashlib.sha256(picture).hexdigest()


def meant_by_model(data, index, strict):
    """What the model says of a page: the bytes of a PBM file, or the text of the error."""
    try:
        page = page_of_file(data, index, strict)
    except Refused as refused:
        return b"", refused.fault.text
    return b"P4\n%d %d\n" % (page.width, page.height) + page.packed(), None


def both_answers(data, index):
    """The model's answers. Its lenient reading differs only in what it doesn't refuse, so what it draws strictly it
    doesn't read again; None where it is too much work."""
    try:
        strict = meant_by_model(data, index, True)
        lenient = strict if strict[1] is None else meant_by_model(data, index, False)
    except TooMuch:
        return None
    return summary(*strict), summary(*lenient)


def made_runs(options):
    """The runs of these numbers. A document may have too few changes for all of its numbers."""
    changes, document = None, None
    for number in range(options.first, options.first + options.count):
        if number // RUNS_OF_DOCUMENT != document:
            document = number // RUNS_OF_DOCUMENT
            changes = Changes(document, options.seed)
        data, what = changes.changed(number % RUNS_OF_DOCUMENT)
        if data is not None:
            page = number % changes.pages
            yield Run(number, what, data, page, both_answers(data, page))


def written_runs(names):
    """The runs that `--write` wrote."""
    for name in names:
        with gzip.open(name, "rt", encoding="ascii") as file:
            for line in file:
                number, change, data, page, *meant = json.loads(line)
                yield Run(number, change, bytes.fromhex(data), page, tuple(meant))


def difference(decoder, run):
    """What the decoder does otherwise than is meant, or None."""
    for strict, meant in zip((True, False), run.meant):
        found = summary(*decoder.answer(run.data, run.page, strict))
        if found != meant:
            return f"{'strictly' if strict else 'leniently'}: {found}, not {meant}"
    return None


class Tally:
    """What the runs so far have come to."""

    def __init__(self):
        self.answers = collections.Counter()
        self.compared = self.wrong = self.left_out = 0
        self.began = time.monotonic()

    def note(self, run):
        self.compared += 1
        for mode, meant in zip(("strict", "lenient"), run.meant):
            self.answers[f"{mode}: {'drawn' if meant.startswith(DRAWN) else meant}"] += 1

    def line(self, last):
        speed = self.compared / (time.monotonic() - self.began)
        return (
            f"to run {last}: {self.compared} files compared, {self.wrong} wrong; {self.left_out} left out, "
            f"which ask for more work than the model does; {speed:.0f} a second"
        )


def compare_all(decoder, runs, options, out):
    """Compares all runs, and writes them where they are asked for."""
    tally, number = Tally(), None
    for run in runs:
        number = run.number
        if run.meant is None:
            tally.left_out += 1
            continue
        if out:
            out.write(json.dumps([run.number, run.change, run.data.hex(), run.page, *run.meant]) + "\n")
        tally.note(run)
        if fault := difference(decoder, run):
            tally.wrong += 1
            name = kept(run.data, f"fields-{options.seed}-{run.number}")
            print(f"run {run.number} ({run.change}), page {run.page}, {fault}: {name}", flush=True)
        if tally.compared % REPORT == 0:
            print(tally.line(number), flush=True)
    print(tally.line(number))
    for answer, count in sorted(tally.answers.items()):
        print(f"{count:9} {answer}")
    return tally.wrong


def options_of():
    parser = argparse.ArgumentParser()
    parser.add_argument("--count", type=int, default=2000)
    parser.add_argument("--first", type=int, default=0)
    parser.add_argument("--seed", type=int, default=1)
    parser.add_argument("--library", metavar="FILE")
    parser.add_argument("--write", metavar="FILE")
    parser.add_argument("--again", metavar="FILE", nargs="+")
    return parser.parse_args()


def main():
    options = options_of()
    with tempfile.TemporaryDirectory(dir=folder_in_memory(MOST_OUTPUT)) as folder:
        decoder = Library(options.library, folder) if options.library else Program(built_program(), folder)
        runs = written_runs(options.again) if options.again else made_runs(options)
        out = gzip.open(options.write, "wt", encoding="ascii") if options.write else None
        wrong = compare_all(decoder, runs, options, out)
        if out:
            out.close()
    return 1 if wrong else 0


if __name__ == "__main__":
    sys.exit(main())
