"""The text of conformance/RESULTS.md around its tables."""
from __future__ import annotations

from .tables import Column, Reasons, feature_table, parted, reason_table, refusal_table

INTRODUCTION = """
`conformance/run --table all` makes this page. It shows which features of T.88 each decoder draws as
expected. The files are made up and small, and each has one main feature. Many of these features are
rare. So the numbers say how much of the standard a decoder knows. They do not measure what it does
with the files of scanners.

`conformance/make FOLDER` writes the files, and `conformance/manifest.tsv` describes them. The
expected picture is known from how a file was made. A page is right if all of its pixels are
the expected ones.
"""

METHOD = """
`jbig2-decode` and `jbig2dec` take the file itself. `drop-in` is Debian's program jbig2dec with the
library of `bindings/dropin/` in the place of its own. Of an embedded page these two take both streams, and
`jbig2-decode` a file that is made of them if something is shared. The others take a PDF file that
the runner writes: the image's stream has the page's segments without ends of pages and of the file,
/JBIG2Globals has the segments of no page, and a point is a pixel. Of `pdfium` and `pdf.js` only the
decoder was run, on the two streams and with the size of such a file. A viewer may fail by its
library: Debian's mutool and gs decode by libjbig2dec, pdfimages by Poppler's own decoder.

- *right*: the expected picture.
- *wrong*: another picture.
- *nothing*: no picture though the status is 0, or one of a single colour where the expected one
  has both, since viewers show that when they refuse.
- *refused*: no picture, and a status other than 0.
- *crash*: ended by a signal. *too long*: stopped after 20 seconds of processor time.
"""

REFUSED = """
Each of these files breaks a rule, or shows what the standard leaves open. A decoder may do with it
what it likes, as long as it ends with a picture or a refusal. The manifest has the results of
strict and of lenient reading here, and `jbig2-decode` passes only if both are exactly so; the
table shows lenient reading.
"""

REASONS = """
For each feature that a decoder does not draw as expected: the smallest such file, and why. The
reasons come from runs with changed flags and with files made for it; no decoder's source was read.
A reason in quotes is the decoder's message.
"""


def versions(columns: list[Column]) -> list[str]:
    """The version of each decoder."""
    return [f"- `{column.decoder.name}`: {column.decoder.version()}{package(column)}" for column in columns]


def package(column: Column) -> str:
    """The Debian package that a decoder comes in, and what makes it."""
    decoder = column.decoder
    if not decoder.package:
        return f", by `{decoder.maker}`" if decoder.maker else ""
    made = f", by `{decoder.maker}` of the sources" if decoder.maker else ""
    return f" (Debian's `{decoder.package}`{made})"


def counts(columns: list[Column]) -> str:
    """How many pages and files there are."""
    drawn, others = parted(columns[0].outcomes)
    files = len({outcome.entry.name for outcome in drawn})
    return f"{len(drawn)} pages of {files} files to draw, and {len(others)} pages that may have any result."


def text_of(columns: list[Column], reasons: Reasons) -> str:
    """The whole page, for these decoders."""
    parts = ["# What decoders make of the conformance suite", INTRODUCTION.strip(), counts(columns)]
    parts += ["\n".join(versions(columns)), METHOD.strip()]
    parts += ["## Files to draw", "\n".join(feature_table(columns))]
    if refused := refusal_table(columns):
        parts += ["## Pages that may have any result", REFUSED.strip(), "\n".join(refused)]
    parts += ["## Where a decoder is wrong", REASONS.strip()]
    by_name = {column.decoder.name: column for column in columns}
    for column in columns:
        library = by_name.get(column.decoder.library)
        lines = reason_table(column, reasons, library)
        parts += [f"### {column.decoder.name}"]
        if library:
            parts += [f"It misses the same pages as {library.decoder.name}{', but for these:' if lines else '.'}"]
        parts += ["\n".join(lines)] if lines else [] if library else ["Nothing."]
    return "\n\n".join(parts)
