"""What a run came to, for other programs and for the eye: TSV, JUnit's XML, and the pictures that are wrong."""
from __future__ import annotations

import pathlib
import xml.etree.ElementTree as xml

from .known import Known
from .pictures import Picture
from .trial import Outcome

COLUMNS = ("name", "page", "feature", "expected", "verdict", "state", "fault", "message")


def state_of(outcome: Outcome, known: Known) -> str:
    """`passed`, `failed`, or `known` for a known failure."""
    if outcome.is_allowed:
        return "passed"
    return "known" if known.has(outcome) else "failed"


def tsv_text(outcomes: list[Outcome], known: Known) -> str:
    """A line for each page, under a line of the columns' names."""
    lines = [COLUMNS]
    for outcome in outcomes:
        entry = outcome.entry
        place = (entry.name, str(entry.page), entry.feature, entry.others)
        lines.append((*place, outcome.verdict.value, state_of(outcome, known), outcome.fault, outcome.message))
    return "".join("\t".join(line) + "\n" for line in lines)


def junit_text(name: str, outcomes: list[Outcome], known: Known) -> str:
    """The pages as the test cases of one suite, as CI services read them; a known failure counts as skipped."""
    states = [state_of(outcome, known) for outcome in outcomes]
    counts = {"tests": len(states), "failures": states.count("failed"), "errors": 0, "skipped": states.count("known")}
    suite = xml.Element("testsuite", name=f"conformance of {name}", **{word: str(n) for word, n in counts.items()})
    for outcome, state in zip(outcomes, states):
        case = xml.SubElement(suite, "testcase", classname=outcome.entry.feature, name=outcome.entry.label)
        if state == "failed":
            xml.SubElement(case, "failure", message=outcome.fault, type=outcome.verdict.value).text = outcome.message
        elif state == "known":
            xml.SubElement(case, "skipped", message=f"a known failure: {outcome.fault}")
    top = xml.Element("testsuites")
    top.append(suite)
    xml.indent(top)
    return xml.tostring(top, encoding="unicode", xml_declaration=True) + "\n"


def keep_pictures(folder: pathlib.Path, suite: pathlib.Path, outcomes: list[Outcome]) -> int:
    """Writes each wrong picture into a folder, beside the expected one and, if they have the same size, the pixels that
    differ. Returns how many are wrong."""
    folder.mkdir(parents=True, exist_ok=True)
    count = 0
    for outcome in outcomes:
        if outcome.is_allowed or outcome.picture is None or outcome.entry.width is None:
            continue
        count += 1
        stem = f"{outcome.entry.name}.{outcome.entry.page}"
        expected = (suite / f"{stem}.pbm").read_bytes()
        (folder / f"{stem}.drawn.pbm").write_bytes(outcome.picture.pbm)
        (folder / f"{stem}.expected.pbm").write_bytes(expected)
        if expected.startswith(outcome.picture.pbm[: -len(outcome.picture.rows)]):
            (folder / f"{stem}.difference.pbm").write_bytes(difference(outcome.picture, expected).pbm)
    return count


def difference(picture: Picture, expected: bytes) -> Picture:
    """The pixels in which a picture differs from a PBM file of its size."""
    meant = expected[-len(picture.rows) :]
    rows = bytes(one ^ other for one, other in zip(picture.rows, meant))
    return Picture(picture.width, picture.height, rows)
