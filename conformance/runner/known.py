"""A list of known failures, so that a run of a decoder's own tests fails where there are others."""
from __future__ import annotations

import dataclasses
import pathlib

from .manifest import Entry
from .mistake import Mistake
from .trial import Outcome

HEAD = "# Pages that a decoder fails, by conformance/run --write-known: name, page and what is against the manifest.\n"
# Name and page of an entry.
Place = tuple[str, int]


def place_of(entry: Entry) -> Place:
    """The page that an entry is of."""
    return entry.name, entry.page


@dataclasses.dataclass(frozen=True)
class Known:
    """The known failures of a file: of each page what is against the manifest, or nothing where any fault will do."""

    faults: dict[Place, str]

    def has(self, outcome: Outcome) -> bool:
        """Whether this failure is known."""
        return self.faults.get(place_of(outcome.entry)) in ("", outcome.fault)

    def mended(self, outcomes: list[Outcome]) -> list[Outcome]:
        """The outcomes that are as the manifest says, though they are in the list."""
        return [each for each in outcomes if each.is_allowed and place_of(each.entry) in self.faults]

    def elsewhere(self, entries: list[Entry]) -> list[Place]:
        """What the list has of no page among these."""
        places = set(map(place_of, entries))
        return [place for place in self.faults if place not in places]


def read_known(path: pathlib.Path) -> Known:
    """The list in a file: lines of a name, a page and a fault with tabs between them. The last two may be missing, and
    lines that begin with # are comments."""
    try:
        text = path.read_text(encoding="utf-8")
    except (OSError, UnicodeDecodeError) as fault:
        raise Mistake(f"the known failures can't be read: {fault}") from fault
    faults = {}
    for number, line in enumerate(text.splitlines(), 1):
        if not line.strip() or line.startswith("#"):
            continue
        words = line.split("\t")
        if len(words) > 3 or not all(map(str.isdecimal, words[1:2])):
            raise Mistake(f"{path}, line {number}: NAME, PAGE and FAULT are to stand there, with tabs between them")
        faults[words[0], int(words[1]) if words[1:] else 0] = words[2] if words[2:] else ""
    return Known(faults)


def known_text(outcomes: list[Outcome]) -> str:
    """The list of what fails in a run."""
    failed = [outcome for outcome in outcomes if not outcome.is_allowed]
    return HEAD + "".join(f"{each.entry.name}\t{each.entry.page}\t{each.fault}\n" for each in failed)
