"""All cases of the suite in the order of the manifest."""
from __future__ import annotations

import concurrent.futures
import importlib
import itertools

from .case import Case, Written

# The modules of this package that make cases.
MODULES = (
    "regions", "mmr", "refinements", "halftones", "symbols", "texts", "tables", "pages", "files", "example",
    "left_open", "broken_files", "broken_regions", "broken_symbols",
)


def cases_of(module: str) -> list[Case]:
    """The cases of a module."""
    return list(importlib.import_module(f"{__package__}.{module}").cases())


def written_of(module: str) -> list[Written]:
    """What is written of the cases of a module."""
    return [case.written() for case in cases_of(module)]


def all_written() -> list[Written]:
    """What is written of all cases. Each module is a process's task, since together they take long."""
    with concurrent.futures.ProcessPoolExecutor() as processes:
        written = list(itertools.chain(*processes.map(written_of, MODULES)))
    names = [case.name for case in written]
    twice = {name for name in names if names.count(name) > 1}
    if twice:
        raise ValueError(f"several cases have one name: {sorted(twice)}")
    return written
