"""Writes the conformance suite into a folder, the same bytes each time.

usage: conformance/make [FOLDER]

Without FOLDER it prints the manifest alone. FOLDER gets each file of the suite with the pictures of its pages, and
manifest.tsv, which says what they are; conformance/README.md says how to read it.
"""
import pathlib
import sys

from conformance.suite.all_cases import all_written
from conformance.suite.manifest import manifest_of, write


def main():
    if len(sys.argv) > 2 or sys.argv[1:2] in (["-h"], ["--help"]):
        sys.exit(__doc__)
    folder = pathlib.Path(sys.argv[1]) if len(sys.argv) == 2 else None
    if folder and folder.exists() and not folder.is_dir():
        sys.exit(f"conformance/make: {folder} is no folder")
    written = all_written()
    if not folder:
        sys.stdout.write(manifest_of(written))
        return
    try:
        write(written, folder)
    except OSError as fault:
        sys.exit(f"conformance/make: {fault}")


if __name__ == "__main__":
    main()
