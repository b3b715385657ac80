"""Writes made-up files of all kinds into a folder, as 000.jb2, 001.jb2 and so on, for tests of the library's callers.

usage: python3 -m testing.comparison.write_corpus FOLDER [COUNT [SEED]]
"""
import os
import sys

from testing.comparison.corpus import own_corpus


def main():
    folder = sys.argv[1]
    count = int(sys.argv[2]) if len(sys.argv) > 2 else 100
    seed = int(sys.argv[3]) if len(sys.argv) > 3 else 1
    os.makedirs(folder, exist_ok=True)
    # The last file of a corpus is the example of T.88 H.1.
    for turn, sample in enumerate(own_corpus(count - 1, seed)):
        with open(os.path.join(folder, f"{turn:03}.jb2"), "wb") as file:
            file.write(sample.bytes())


if __name__ == "__main__":
    main()
