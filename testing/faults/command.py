"""Has each request for memory, each read and each write of the built programs fail in turn, one fault a run.

usage: tools/try-refusals [--state | ROW ...]

The programs are those that tools/build/program names. The C compiler (CC, or cc) builds testing/faults/faults.c, which is
loaded before the C library and counts. Each line names a row (run by jbig2-row) or a command of jbig2-decode, with the number
of faults that were tried. The last line counts them. Status 0 means that all of this holds:

- Memory: a row, and a page of the size of a scan, ask for at most the bytes that testing/faults/most-bytes.tsv states.
- A refused request of a row: the row's own result, or `OutOfMemory` without a call. Then row 5's page is drawn in the same
  context, and the row holds. A request before the row, while arguments are read and the context is made: that error.
- A refused request of jbig2-decode: its usual output, or that error, status 1 and no output.
- A failed read: `error: cannot read file`, status 1. An interrupted read, and reads of one byte, change nothing.
- A failed write: the output before it, and status 1. An interrupted write, and writes of one byte, change nothing.

With names of rows, the requests of these rows alone are tried. With --state no fault is tried, and the table of bytes is
written again.
"""
import errno
import os
import sys
import tempfile
import time

from testing.error_texts import TEXTS
from testing.faults.memory import table, write_pages, write_table
from testing.faults.runs import Faults, built

ROOT = os.path.dirname(os.path.dirname(os.path.dirname(os.path.realpath(__file__))))
DATA = os.path.join(ROOT, "crates", "jbig2_decode", "data")
OUT_OF_MEMORY = f"error: {TEXTS['OutOfMemory']}\n".encode()
UNREADABLE = b"error: cannot read file\n"
EXAMPLE = [["pages"], *([command, index] for command in ("calls", "pbm") for index in "0123")]


def row_faults(faults, program, row):
    """What a row asks for, the requests after whose refusal memory was missing, and those that went wrong."""
    words = [program, row]
    held = (0, b"row %s ok\n" % row.encode(), b"")
    ended, counts = faults.run(words)
    if ended != held:
        return counts, [], [0]
    refused, wrong = [], []
    for number in range(1, counts["requests"] + 1):
        ended, _ = faults.run(words, refused_request=number)
        if ended == (1, b"", OUT_OF_MEMORY):
            refused.append(number)
        elif ended != held:
            wrong.append(number)
    return counts, refused, wrong


def command_faults(faults, words):
    """How many requests, reads and writes of these words there are, and the faults that were answered wrongly."""
    held, counts = faults.run(words)
    status, out, err = held
    wrong = []

    def expect(answers, name, **plan):
        if faults.run(words, **plan)[0] not in answers:
            wrong.append(name)

    for number in range(1, counts["requests"] + 1):
        expect([held, (1, b"", OUT_OF_MEMORY)], f"request {number}", refused_request=number)
    for number in range(1, counts["reads"] + 1):
        expect([(1, b"", UNREADABLE)], f"read {number}", failed_read=number, error=errno.EIO)
        expect([held], f"interrupted read {number}", failed_read=number, error=errno.EINTR)
    for number in range(1, counts["writes"] + 1):
        expect([held], f"interrupted write {number}", failed_write=number, error=errno.EINTR)
        ended, _ = faults.run(words, failed_write=number, error=errno.ENOSPC)
        # Where the fault's own line cannot be written, the status still says that there was one.
        if ended[0] != max(status, 1) or not out.startswith(ended[1]) or not err.startswith(ended[2]) or ended[1:] == held[1:]:
            wrong.append(f"write {number}")
    expect([held], "reads and writes of one byte", moves_one_byte=1)
    return counts, wrong


def row_names():
    with open(os.path.join(ROOT, "crates", "jbig2_bench", "stdout"), encoding="ascii") as file:
        return [line.split()[1] for line in file]


def try_rows(faults, names):
    program = built("jbig2-row")
    names = names or row_names()
    most = table()
    # Each row begins alike: words and a context. A row's own request that ended the run would come after the last of those.
    before = max(row_faults(faults, program, "5")[1], default=0)
    count = failed = 0
    for name in names:
        counts, refused, wrong = row_faults(faults, program, name)
        wrong += [number for number in refused if number > before]
        if counts["bytes"] > most[f"row {name}"]:
            wrong.append(f"{counts['bytes']} bytes")
        shown = f", wrong at {wrong}" if wrong else ""
        print(f"row {name}: {counts['requests']} requests, the first {before} before the row{shown}", flush=True)
        count += counts["requests"]
        failed += bool(wrong)
    return len(names), count, failed


def bytes_of_pages(faults, folder):
    """The bytes that each page of the size of a scan asks for."""
    for name, file in write_pages(folder).items():
        (status, out, err), counts = faults.run([built("jbig2-decode"), "pbm", file, "0"])
        if status or err or not out:
            sys.exit(f"try-refusals: the page {name} is not drawn: {err}")
        yield f"page {name}", counts["bytes"]


def try_pages(faults, folder):
    most = table()
    failed = 0
    for name, count in bytes_of_pages(faults, folder):
        print(f"{name}: {count} bytes, at most {most[name]}", flush=True)
        failed += count > most[name]
    return failed


def state_bytes(faults, folder):
    program = built("jbig2-row")
    counts = {f"row {row}": faults.run([program, row])[1]["bytes"] for row in row_names()}
    counts.update(bytes_of_pages(faults, folder))
    write_table(counts)


def commands():
    """Words of both programs."""
    page, example = (os.path.join(DATA, name) for name in ("page.jb2", "t88-h1.jb2"))
    decode = [[], ["embedded", os.path.join(DATA, "no such file")]]
    for strict in ([], ["--strict"]):
        decode.append([*strict, "embedded", page])
        decode += [[*strict, command, example, *index] for command, *index in EXAMPLE]
    yield from (("jbig2-decode", words) for words in decode)
    yield from (("jbig2-row", words) for words in (["no", "words"], ["5"]))


def try_commands(faults):
    count = failed = total = 0
    for name, words in commands():
        counts, wrong = command_faults(faults, [built(name), *words])
        note = f", wrong at {', '.join(wrong)}" if wrong else ""
        shown = " ".join(os.path.basename(word) for word in words) or "(no words)"
        asked = f"{counts['requests']} requests, {counts['reads']} reads, {counts['writes']} writes"
        print(f"{name} {shown}: {asked}{note}", flush=True)
        count += counts["requests"]
        failed += bool(wrong)
        total += 1
    return total, count, failed


def main():
    began = time.monotonic()
    names = sys.argv[1:]
    if any(name.startswith("-") and name != "--state" for name in names) or "--state" in names[1:]:
        sys.exit(__doc__)
    with tempfile.TemporaryDirectory() as folder:
        faults = Faults(folder)
        if names == ["--state"]:
            state_bytes(faults, folder)
            return 0
        rows, requests, failed = try_rows(faults, names)
        total, others, wrong = (0, 0, 0) if names else try_commands(faults)
        wrong += 0 if names else try_pages(faults, folder)
    seconds = time.monotonic() - began
    print(
        f"{rows} rows and {total} commands, {requests + others} requests refused, {faults.runs} runs in {seconds:.0f} s: "
        f"{failed + wrong} wrong"
    )
    return 1 if failed + wrong else 0


if __name__ == "__main__":
    sys.exit(main())
