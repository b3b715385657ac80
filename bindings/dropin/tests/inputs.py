"""Writes the inputs of the C program `calls` and of the runs in Valgrind into a folder.

    inputs.py SUITE FOLDER

SUITE is a folder that conformance/make has filled. FOLDER gets `stream`, `globals` and `picture.pbm` of a page, and
`pages.pdf` with a page of each feature.
"""
from __future__ import annotations

import argparse
import pathlib

from conformance.runner.pdf import pdf_of
from testing.samples import image_of_sample, rich_sample, samples_of


def main() -> None:
    """Writes the files."""
    parser = argparse.ArgumentParser(usage=__doc__)
    parser.add_argument("suite", type=pathlib.Path)
    parser.add_argument("folder", type=pathlib.Path)
    options = parser.parse_args()
    samples = samples_of(options.suite)
    rich = rich_sample(samples)
    image = image_of_sample(rich)
    picture = options.suite / f"{rich.entry.name}.{rich.entry.page}.pbm"
    (options.folder / "stream").write_bytes(image.stream)
    (options.folder / "globals").write_bytes(image.shared)
    (options.folder / "picture.pbm").write_bytes(picture.read_bytes())
    first = {sample.entry.feature: sample for sample in reversed(samples)}
    (options.folder / "pages.pdf").write_bytes(pdf_of([image_of_sample(sample) for sample in first.values()]))


if __name__ == "__main__":
    main()
