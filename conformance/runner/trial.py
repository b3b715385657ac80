"""Runs one decoder on one page of the suite, and judges what comes of it."""
from __future__ import annotations

import dataclasses
import enum
import pathlib
import shlex
import tempfile

from .decoders import Decoder, own_program
from .embedding import pdf_of, size_in_pdf
from .limits import MEMORY, Ended, Limits, printable, run
from .manifest import PICTURE, Entry, Sample
from .pictures import NoPicture, Picture, pictures_of


class Verdict(enum.Enum):
    """What a decoder made of a page. A picture of one colour where another is meant counts as nothing: some programs
    show an empty page where they refuse a picture."""

    RIGHT = "right"
    WRONG = "wrong"
    NOTHING = "nothing"
    REFUSED = "refused"
    CRASH = "crash"
    LATE = "too long"


@dataclasses.dataclass(frozen=True)
class Outcome:
    """What a decoder made of an entry: the verdict, its message, and whether the manifest allows it. `fault` says
    what is against the manifest. `picture` is what it drew."""

    entry: Entry
    verdict: Verdict
    message: str
    fault: str = ""
    picture: Picture | None = None

    @property
    def is_allowed(self) -> bool:
        """Whether the manifest says so."""
        return not self.fault


@dataclasses.dataclass(frozen=True)
class Command:
    """The words of a command, and whether {in} stands for an embedded page's stream."""

    words: list[str]
    takes_stream: bool = False

    def has(self, name: str) -> bool:
        """Whether some word has {name}."""
        return any(f"{{{name}}}" in word for word in self.words)


def command_of(decoder: Decoder, sample: Sample) -> Command:
    """The decoder's command for a page."""
    if sample.entry.is_embedded and decoder.takes_stream(bool(sample.globals)):
        return Command(shlex.split(decoder.embedded), True)
    return Command(shlex.split(decoder.command))


def filled(command: Command, sample: Sample, folder: pathlib.Path) -> list[str]:
    """A command's words with the names of the files that they ask for, which are written into the folder."""
    names = {"program": own_program(), "page": str(sample.entry.page), "out": str(folder / "out")}
    if command.has("in"):
        names["in"] = written(folder / "page.jb2", sample.page.stream if command.takes_stream else sample.file)
    if command.has("globals"):
        names["globals"] = written(folder / "globals.jb2", sample.globals)
    if command.has("pdf"):
        names["pdf"] = written(folder / "page.pdf", pdf_of(sample.page, sample.entry.height))
    if command.has("stream"):
        names["stream"] = written(folder / "stream.jb2", sample.page.stream)
        names["shared"] = written(folder / "shared.jb2", sample.page.shared)
        names["width"], names["height"] = map(str, size_in_pdf(sample.page, sample.entry.height))
    return [replaced(word, names) for word in command.words if "{globals}" not in word or sample.globals]


def written(path: pathlib.Path, content: bytes) -> str:
    """The name of a file that is written with this content."""
    path.write_bytes(content)
    return str(path)


def replaced(word: str, names: dict[str, str]) -> str:
    """A word with each {name} replaced; other braces stay."""
    for name, value in names.items():
        word = word.replace(f"{{{name}}}", value)
    return word


def drawn(command: Command, sample: Sample, limits: Limits) -> tuple[Ended, Picture | None]:
    """How a command ended on a page, and the picture that it wrote. Of several in one output it is the page's."""
    with tempfile.TemporaryDirectory(dir=MEMORY) as name:
        folder = pathlib.Path(name)
        ended = run(filled(command, sample, folder), limits)
        outputs = [path.read_bytes() for path in sorted(folder.glob("out*")) if path.is_file()]
    try:
        pictures = pictures_of(b"".join(outputs) if outputs else ended.output)
    except NoPicture as fault:
        return dataclasses.replace(ended, errors=ended.errors or str(fault).encode()), None
    is_alone = command.takes_stream or any(command.has(name) for name in ("page", "pdf", "stream"))
    place = 0 if is_alone else sample.entry.page
    return ended, pictures[place] if place < len(pictures) else None


def verdict_on(entry: Entry, ended: Ended, picture: Picture | None) -> Verdict:
    """What a run came to. A picture counts whatever the status is."""
    if ended.is_late:
        return Verdict.LATE
    if ended.has_crashed:
        return Verdict.CRASH
    if picture is None:
        return Verdict.REFUSED if ended.status else Verdict.NOTHING
    if picture.digest == entry.picture:
        return Verdict.RIGHT
    return Verdict.NOTHING if picture.is_plain and not entry.is_plain else Verdict.WRONG


def answer_of(entry: Entry, ended: Ended, picture: Picture | None) -> str:
    """What a run of jbig2-decode answered, as the manifest's columns have it: a picture, or the text of its error."""
    if ended.status == 0 and picture is not None and not ended.errors:
        return PICTURE if picture.digest == entry.picture else f"{PICTURE}:{picture.digest}"
    line = ended.errors.decode(errors="replace")
    is_one_line = line.startswith("error: ") and line.find("\n") == len(line) - 1
    if ended.status == 1 and not ended.output and is_one_line:
        return line[len("error: ") : -1]
    return f"status {ended.status}, {len(ended.output)} bytes, {line!r}"


def fault_of(entry: Entry, verdict: Verdict) -> str:
    """What is against the manifest in the verdict on a decoder of which nothing more is known."""
    if entry.must_be_drawn:
        return "" if verdict is Verdict.RIGHT else verdict.value
    return verdict.value if verdict in (Verdict.CRASH, Verdict.LATE) else ""


def tried(decoder: Decoder, sample: Sample, limits: Limits) -> Outcome:
    """Runs a decoder on a page; one with a word for strict reading is run by both readings, and has to answer exactly
    what the manifest says of them."""
    entry = sample.entry
    command = command_of(decoder, sample)
    ended, picture = drawn(command, sample, limits)
    verdict = verdict_on(entry, ended, picture)
    if not decoder.strict:
        return Outcome(entry, verdict, ended.message, fault_of(entry, verdict), picture)
    program, *others = command.words
    strictly = drawn(Command([program, decoder.strict, *others], command.takes_stream), sample, limits)
    answers = {"lenient": (answer_of(entry, ended, picture), entry.lenient)}
    answers["strict"] = (answer_of(entry, *strictly), entry.strict)
    faults = [f"{mode}: {answer}, not {meant}" for mode, (answer, meant) in answers.items() if answer != meant]
    return Outcome(entry, verdict, ended.message, printable("; ".join(faults)), picture)
