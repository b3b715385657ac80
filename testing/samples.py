"""The pages of the conformance suite that every decoder has to draw."""
from __future__ import annotations

import pathlib

from conformance.runner.embedding import image_of
from conformance.runner.manifest import Sample, read_manifest, read_sample
from conformance.runner.pdf import Image


def samples_of(suite: pathlib.Path) -> list[Sample]:
    """These pages, of a folder that conformance/make has filled."""
    entries = read_manifest(suite / "manifest.tsv")
    return [read_sample(suite, entry) for entry in entries if entry.must_be_drawn and entry.picture != "-"]


def image_of_sample(sample: Sample) -> Image:
    """A page as a PDF file has it."""
    return image_of(sample.page, sample.entry.height)


def rich_sample(samples: list[Sample]) -> Sample:
    """The longest page among those that have globals."""
    return max(samples, key=lambda sample: (bool(image_of_sample(sample).shared), len(sample.page.stream)))
