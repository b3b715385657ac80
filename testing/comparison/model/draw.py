"""Draws a page of a file by the model, as `jbig2-decode pbm` does, with the same errors; slowly.

usage: python3 -m testing.comparison.model.draw [--strict] FILE INDEX
"""
import sys

from testing.comparison.model.answers import Refused, Work
from testing.comparison.model.page import page_of_file


def main():
    words = sys.argv[1:]
    strict = words[:1] == ["--strict"]
    if len(words) != 2 + strict:
        print(__doc__, file=sys.stderr)
        return 2
    with open(words[-2], "rb") as file:
        data = file.read()
    try:
        page = page_of_file(data, int(words[-1]), strict, Work(10**8, 10**10))
    except Refused as refused:
        print(f"error: {refused.fault.text}", file=sys.stderr)
        return 1
    sys.stdout.buffer.write(b"P4\n%d %d\n" % (page.width, page.height) + page.packed())
    return 0


if __name__ == "__main__":
    sys.exit(main())
