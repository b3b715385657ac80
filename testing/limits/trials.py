"""The trials: a page, or what pages share, within exactly what it takes, and within less."""
from __future__ import annotations

import dataclasses
import hashlib
from collections.abc import Callable, Iterator

from .library import NO_LIMIT, OK, WORK_LIMIT, Context, Drawn, Library, Made, Page
from .memory import CountingMemory
from .subjects import Subject

# A limit that no page reaches, and up to which work all of SPREAD limits are tried.
LARGE, SMALL, SPREAD = 1 << 62, 20000, 64


@dataclasses.dataclass(frozen=True)
class Taken:
    """The units that something took, the bytes of memory that it asked for meanwhile, and how many bytes it read before
    it took any unit."""

    name: str
    units: int
    asked: int
    unpaid: int = 0


@dataclasses.dataclass
class Found:
    """What the trials found: how many checks there were, what is not so, and what was taken."""

    checks: int = 0
    faults: list[str] = dataclasses.field(default_factory=list)
    pages: list[Taken] = dataclasses.field(default_factory=list)
    refused: list[Taken] = dataclasses.field(default_factory=list)
    shared: list[Taken] = dataclasses.field(default_factory=list)
    reading: list[Taken] = dataclasses.field(default_factory=list)

    @property
    def lists(self) -> tuple[list, ...]:
        """All that is listed."""
        return self.faults, self.pages, self.refused, self.shared, self.reading

    def check(self, holds: bool, what: str) -> None:
        """Notes a check."""
        self.checks += 1
        if not holds:
            self.faults.append(what)

    def add(self, other: Found) -> None:
        """Adds what other trials found."""
        self.checks += other.checks
        for mine, others in zip(self.lists, other.lists):
            mine.extend(others)


def limits_below(units: int, every: int = 0) -> list[int]:
    """The limits below what is taken that are tried: each where that is at most `every`, else evenly spread ones, fewer
    where much is taken."""
    count = units if units <= every else min(SPREAD if units <= SMALL else 3, units)
    return sorted({(units - 1) * at // max(1, count - 1) for at in range(count)})


def least(is_enough: Callable[[int], bool]) -> int:
    """The least limit that is enough, where each above it is enough too."""
    low, high = 0, 1
    if is_enough(0):
        return 0
    while not is_enough(high):
        low, high = high, 4 * high
    while high - low > 1:
        middle = (low + high) // 2
        low, high = (low, middle) if is_enough(middle) else (middle, high)
    return high


class Trial:
    """The trials of one subject in one mode."""

    def __init__(self, library: Library, example: Page, subject: Subject, strict: bool, every: int = 0) -> None:
        self.library, self.example, self.subject, self.strict = library, example, subject, strict
        self.every = every
        self.name = f"{subject.name}, {'strict' if strict else 'lenient'}"
        self.found = Found()

    def check(self, holds: bool, what: str) -> None:
        """Notes a check of this subject."""
        self.found.check(holds, f"{self.name}: {what}")

    def shared(self, work: int = NO_LIMIT, memory: CountingMemory | None = None) -> Made:
        """Reads the file, or decodes the globals of the embedded page, within a limit."""
        file, lent = self.subject.file, memory and memory.lent
        kind, data = ("globals", self.subject.page.shared) if file is None else ("file", file)
        return self.library.made(kind, f"{kind}_new_within", lent, self.strict, work, data, len(data))

    def pages(self, shared: Made, memory: CountingMemory | None = None) -> Iterator[tuple[Made, Page | None]]:
        """What a page is read by, and the page, which is None where it is refused before it is drawn."""
        if shared.kind == "file":
            count = 0 if shared.answer else self.library.file_page_count(shared.handle)
            yield from ((shared, Page(shared, index)) for index in range(count))
            return
        stream, lent = self.subject.page.stream, memory and memory.lent
        given = shared.handle if self.subject.page.shared else None
        made = self.library.made("page", "page_new", lent, self.strict, given, stream, len(stream))
        with made:
            yield made, None if made.answer else Page(made)

    def context(self, memory: CountingMemory | None = None) -> Made:
        """A context."""
        return self.library.made("context", "context_new", memory and memory.lent)

    def run(self) -> Found:
        """Tries what the pages share, then each page."""
        self.try_shared()
        with self.shared() as shared:
            drawn = []
            if shared.answer == OK:
                drawn = [self.try_page(page) if page else made.answer for made, page in self.pages(shared)]
            self.compare(shared, drawn)
        self.measure()
        return self.found

    def try_shared(self) -> None:
        """What pages share is decoded within what it takes, and refused within less."""

        def answer(work: int, memory: CountingMemory | None = None) -> int:
            with self.shared(work, memory) as made:
                self.check((made.answer == OK) == bool(made.handle), f"a handle is made within {work}")
                return made.answer

        free = answer(NO_LIMIT)
        self.check(free != WORK_LIMIT, "what pages share is decoded without a limit")
        units = least(lambda work: work >= LARGE or answer(work) != WORK_LIMIT)
        self.check(answer(units) == free, f"what pages share is the same within {units}")
        for work in limits_below(units, self.every):
            self.check(answer(work) == WORK_LIMIT, f"what pages share is refused within {work} of {units}")
        memories = CountingMemory(), CountingMemory()
        for work, memory in zip((0, units), memories):
            answer(work, memory)
            self.check(memory.held == 0, f"memory is given back, shared within {work}")
        # Without any work the segments are read, and nothing of them is decoded.
        reading, all_asked = (memory.asked for memory in memories)
        self.found.reading.append(Taken(self.name, 0, reading, self.subject.length))
        self.found.shared.append(Taken(self.name, units, all_asked - reading))

    def try_page(self, page: Page) -> Drawn:
        """A page is drawn within what it takes, and refused within less; then the context draws the example."""
        with self.context() as made:
            context = Context(made)
            example = context.drawn(self.example)
            free, large = context.drawn(page), context.drawn(page, LARGE)
            self.check(free.left == NO_LIMIT and free.answer != WORK_LIMIT, "a page is drawn without a limit")
            units = LARGE - large.left
            self.check(self.subject.units in (None, units), f"{self.subject.units} units are paid, not {units}")
            self.check(units < LARGE and large.is_same(free), "a page is the same within a large limit")
            exact = context.drawn(page, units)
            self.check(exact.left == 0 and exact.is_same(free), f"a page is the same within {units}, which is used up")
            for work in limits_below(units, self.every):
                refused = context.within(page, work)
                self.check(refused == (WORK_LIMIT, 0), f"{work} of {units} units are refused, not {refused}")
            self.check(context.drawn(self.example) == example and example.answer == OK, "the example is drawn after")
            self.check(context.drawn(page).is_same(free), "a page is drawn without a limit after refusals")
        return free

    def measure(self) -> None:
        """Notes what each page takes and asks for, also where it is refused, and that no memory is left out."""
        memory = CountingMemory()
        with self.shared(memory=memory) as shared:
            for index, (_, page) in enumerate(self.pages(shared, memory) if shared.answer == OK else ()):
                if page:
                    self.measure_page(page, f"{self.name}, page {index}", memory)
        self.check(memory.held == 0, "memory is given back")

    def measure_page(self, page: Page, name: str, memory: CountingMemory) -> None:
        """Notes what a page takes and asks for, also where it is refused, each time in a context of its own."""

        def taken(work: int, read: int) -> Taken:
            with self.context(memory) as made:
                context, before = Context(made), memory.asked
                left = context.within(page, work)[1]
                return Taken(name, work - left, memory.asked - before - read)

        # An embedded page is read again, which costs no work.
        read = taken(0, 0).asked
        whole = taken(LARGE, read)
        self.found.reading.append(Taken(name, 0, read, self.subject.length))
        self.found.pages.append(whole)
        if whole.units:
            self.found.refused += (taken(work, read) for work in {whole.units - 1, whole.units // 2})

    def compare(self, shared: Made, drawn: list[Drawn | int]) -> None:
        """Compares what each page comes to with what is wanted."""
        for index, wanted in enumerate(self.subject.wanted or ()):
            result = drawn[index] if index < len(drawn) else shared.answer or 101
            answer = result.answer if isinstance(result, Drawn) else result
            word = self.library.text(answer)
            if answer == OK:
                word = hashlib.sha256(b"P4\n%d %d\n" % result.size + result.rows).hexdigest()
            self.check(word == wanted[self.strict], f"page {index} is {wanted[self.strict]}, not {word}")
