"""Tables of what decoders made of the suite: as text for one decoder, as Markdown for several."""
from __future__ import annotations

import collections
import csv
import dataclasses
import pathlib
import typing

from .decoders import Decoder
from .trial import Outcome, Verdict

# Why a decoder is wrong, by its name and the feature.
Reasons = typing.Dict[typing.Tuple[str, str], str]
# What a decoder may make of a file of the second part, in the words of its column.
OF_REFUSED = {Verdict.RIGHT: "picture", Verdict.WRONG: "picture", Verdict.NOTHING: "nothing"}


def by_feature(outcomes: list[Outcome]) -> dict[str, list[Outcome]]:
    """The outcomes by the feature in front, in the order of the manifest."""
    groups: dict[str, list[Outcome]] = {}
    for outcome in outcomes:
        groups.setdefault(outcome.entry.feature, []).append(outcome)
    return groups


def parted(outcomes: list[Outcome]) -> tuple[list[Outcome], list[Outcome]]:
    """The outcomes of files that have to be drawn, and those of the others."""
    drawn = [outcome for outcome in outcomes if outcome.entry.must_be_drawn]
    return drawn, [outcome for outcome in outcomes if not outcome.entry.must_be_drawn]


def aligned(lines: list[list[str]]) -> list[str]:
    """Lines of cells as text, the first column to the left and the others to the right."""
    widths = [max(map(len, column)) for column in zip(*lines)]
    texts = []
    for first, *others in lines:
        texts.append("  ".join([first.ljust(widths[0]), *map(str.rjust, others, widths[1:])]))
    return texts


def counted(outcomes: list[Outcome]) -> list[str]:
    """How many outcomes there are, and how many of each verdict."""
    counts = collections.Counter(outcome.verdict for outcome in outcomes)
    return [str(len(outcomes))] + [str(counts[verdict] or "") for verdict in Verdict]


def text_table(outcomes: list[Outcome]) -> list[str]:
    """A line for each feature with the number of each verdict; a second table for files that need not be drawn."""
    lines = []
    for title, part in zip(("files to draw", "files that may have any result"), parted(outcomes)):
        if part:
            rows = [[title, "pages", *(verdict.value for verdict in Verdict)]]
            rows += [[feature, *counted(group)] for feature, group in by_feature(part).items()]
            lines += [*aligned([*rows, ["all", *counted(part)]]), ""]
    return lines


def cell(outcomes: list[Outcome]) -> str:
    """What a decoder made of a feature: the one verdict on its pages, or the number of each."""
    counts = collections.Counter(outcome.verdict for outcome in outcomes)
    if len(counts) == 1:
        return outcomes[0].verdict.value
    return ", ".join(f"{counts[verdict]} {verdict.value}" for verdict in Verdict if counts[verdict])


def cell_of_refused(outcomes: list[Outcome]) -> str:
    """What a decoder made of files that break a rule."""
    counts = collections.Counter(OF_REFUSED.get(outcome.verdict, outcome.verdict.value) for outcome in outcomes)
    if len(counts) == 1:
        return next(iter(counts))
    return ", ".join(f"{count} {word}" for word, count in sorted(counts.items()))


def markdown(rows: list[list[str]]) -> list[str]:
    """Rows of cells as a Markdown table, the first row its heading."""
    lines = ["| " + " | ".join(row) + " |" for row in rows]
    return [lines[0], "|" + "---|" * len(rows[0]), *lines[1:]]


@dataclasses.dataclass(frozen=True)
class Column:
    """A decoder with its outcomes, in the order of the manifest."""

    decoder: Decoder
    outcomes: list[Outcome]


def feature_table(columns: list[Column]) -> list[str]:
    """A line for each feature and a cell for each decoder; the last line counts the pages that are right."""
    groups = [by_feature(parted(column.outcomes)[0]) for column in columns]
    rows = [["Feature", "Pages", *(column.decoder.name for column in columns)]]
    for feature, group in groups[0].items():
        rows.append([feature, str(len(group)), *(cell(each[feature]) for each in groups)])
    rights = [sum(outcome.verdict is Verdict.RIGHT for outcome in parted(column.outcomes)[0]) for column in columns]
    rows.append(["all, right", str(sum(map(len, groups[0].values()))), *map(str, rights)])
    return markdown(rows)


def refusal_table(columns: list[Column]) -> list[str]:
    """The same for files that break a rule."""
    groups = [by_feature(parted(column.outcomes)[1]) for column in columns]
    if not groups[0]:
        return []
    rows = [["Feature", "Files", *(column.decoder.name for column in columns)]]
    for feature, group in groups[0].items():
        rows.append([feature, str(len(group)), *(cell_of_refused(each[feature]) for each in groups)])
    return markdown(rows)


def read_reasons(path: pathlib.Path) -> Reasons:
    """Why a decoder is wrong, by the decoder and the feature."""
    with path.open(newline="", encoding="utf-8") as file:
        lines = csv.DictReader(file, delimiter="\t", quoting=csv.QUOTE_NONE)
        return {(line["decoder"], line["feature"]): line["reason"] for line in lines}


def smallest(outcomes: list[Outcome]) -> Outcome:
    """The outcome of the smallest file."""
    return min(outcomes, key=lambda outcome: (outcome.entry.size, outcome.entry.name))


def failures(column: Column) -> dict[str, list[Outcome]]:
    """What a decoder did not draw as meant, by the feature."""
    drawn = parted(column.outcomes)[0]
    return by_feature([outcome for outcome in drawn if outcome.verdict is not Verdict.RIGHT])


def pages_of(outcomes: list[Outcome] | None) -> set[tuple[str, int]]:
    """The pages that outcomes are of."""
    return {(outcome.entry.name, outcome.entry.page) for outcome in outcomes or []}


def reason_table(column: Column, reasons: Reasons, library: Column | None = None) -> list[str]:
    """A line for each feature that a decoder doesn't draw as meant: the smallest file, what it made of it, and why.
    Features of which its library misses the same pages are left out."""
    rows = [["Feature", "Smallest file", "Bytes", "Made of it", "Why"]]
    known = failures(library) if library else {}
    for feature, outcomes in failures(column).items():
        if pages_of(outcomes) == pages_of(known.get(feature)):
            continue
        least = smallest(outcomes)
        name = column.decoder.name
        reason = reasons.get((name, feature)) or reasons.get((column.decoder.library, feature)) or said(least)
        rows.append([feature, f"`{least.entry.label}`", str(least.entry.size), least.verdict.value, reason])
    return markdown(rows) if len(rows) > 1 else []


def unused(reasons: Reasons, columns: list[Column]) -> list[str]:
    """The reasons of features that their decoder draws as meant."""
    failing = {(column.decoder.name, feature) for column in columns for feature in failures(column)}
    return [f"{decoder} {feature}" for decoder, feature in reasons if (decoder, feature) not in failing]


def said(outcome: Outcome) -> str:
    """What a decoder's own message says, where no reason is known."""
    message = outcome.message.replace("|", "/")
    return f'it says "{message}"' if message else "it says nothing"
