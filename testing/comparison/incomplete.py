"""Cuts files and damages their segments' headers, and looks whether each incomplete page says so.

usage: python3 -m testing.comparison.incomplete [COUNT [SEED]]

A file is cut off, or the header of one of its segments has another number, type, length, page or reference; half of the files
have two such faults. Each page is decoded strictly, leniently and in salvage by the Python package. A page that lenient reading
or salvage returns must be the strict page, or have `is_complete` false, or be refused strictly for reasons of a closed list
(docs/FORMAT.md, 12.2) that cost no pixel. These are mended in the file, until strict reading reads the same page, and counted.
PYTHONPATH may name a folder with the installed package, as `python3 -m pip install --target FOLDER ./bindings/python` makes it.
"""
import collections
import random
import sys

import hayro_jbig2

from testing.comparison.compare import kept
from testing.comparison.corpus import own_corpus
from testing.comparison.forgiven import reasons_of
from conformance.runner.segments import CutOff, header_at

SIZE_OF_CORPUS = 400
NUMBERS = (0, 1, 2, 3, 255, 1 << 16, (1 << 32) - 1)
TYPES = (0, 4, 6, 7, 16, 20, 22, 23, 36, 38, 39, 40, 42, 43, 48, 49, 50, 51, 52, 53, 62, 63)
WRONG = ("ANOTHER PAGE", "COMPLETE")
READINGS = {"lenient": {}, "salvage": {"salvage": True}}


def with_number(chance, data, place, size, near):
    """The data with another number at a place: one near to it, or any."""
    value = int.from_bytes(data[place : place + size], "big")
    other = value + chance.choice((-3, -2, -1, 1, 2, 3)) if near else chance.choice(NUMBERS)
    return data[:place] + (other % 256**size).to_bytes(size, "big") + data[place + size :]


def damaged_segment(chance, segment):
    """A segment with one field of its header changed. Data that is apart stays as it is."""
    try:
        header, end = header_at(segment, 0)
    except CutOff:
        return segment
    references = len(header.beginning) - 6
    kind = chance.choice(("number", "type", "length", "length", "page", "reference", "reference"))
    if kind == "number":
        return with_number(chance, segment, 0, 4, chance.random() < 0.7)
    if kind == "type":
        return segment[:4] + bytes([segment[4] & 0xC0 | chance.choice(TYPES)]) + segment[5:]
    if kind == "page":
        return with_number(chance, segment, len(header.beginning), end - 4 - len(header.beginning), chance.random() < 0.7)
    if kind == "reference" and references > 0:
        return with_number(chance, segment, 6 + chance.randrange(references), 1, chance.random() < 0.7)
    return with_number(chance, segment, end - 4, 4, chance.random() < 0.7)


def damaged(chance, sample):
    """The damaged bytes of a file."""
    segments = list(sample.segments)
    cuts = False
    for _ in range(chance.choice((1, 2))):
        if chance.random() < 0.4:
            cuts = True
            continue
        at = chance.randrange(len(segments))
        segments[at] = damaged_segment(chance, segments[at])
    data = sample.header + b"".join(segments)
    return data[: chance.randrange(len(sample.header), len(data))] if cuts else data


def decoded(data, index, **how):
    """A page, or the name of its fault."""
    try:
        return hayro_jbig2.decode(data, page=index, warn=False, work_limit=1 << 26, **how)
    except hayro_jbig2.Jbig2Error as error:
        return getattr(error, "variant", type(error).__name__)


def judged(data, index, how):
    """How a page that isn't read strictly stands to the strict one."""
    page = decoded(data, index, **how)
    if isinstance(page, str):
        return "refused"
    if not page.is_complete:
        return "incomplete"
    strict = decoded(data, index, strict=True)
    if not isinstance(strict, str):
        return "the strict page" if strict == page else "ANOTHER PAGE"
    reasons = reasons_of(data, page, strict, lambda data, index: decoded(data, index, strict=True))
    return f"complete; strictly refused for: {reasons}" if reasons else f"COMPLETE, strictly refused: {strict}"


def main():
    count, seed = (int(word) for word in (sys.argv[1:] + ["20000", "1"][len(sys.argv) - 1 :])[:2])
    samples = own_corpus(SIZE_OF_CORPUS, seed)
    seen, wrong = {name: collections.Counter() for name in READINGS}, 0
    for run in range(count):
        chance = random.Random(f"{seed}/{run}")
        turn = chance.randrange(len(samples))
        data = damaged(chance, samples[turn])
        for name, how in READINGS.items():
            for index in range(samples[turn].pages):
                verdict = judged(data, index, how)
                seen[name][verdict] += 1
                if verdict.startswith(WRONG):
                    wrong += 1
                    print(f"run {run}, page {index}, {name}: {verdict}, {kept(data, f'incomplete-{seed}-{run}')}")
    for name, verdicts in seen.items():
        print(f"{name}:")
        for verdict, times in verdicts.most_common():
            print(f"  {times:7} {verdict}")
    print(f"{count} files, {wrong} pages that say nothing")
    return wrong > 0


if __name__ == "__main__":
    sys.exit(main())
