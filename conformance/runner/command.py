"""Runs a decoder on the files of the suite, and compares what it draws with the expected pictures.

    conformance/run [OPTIONS] DECODER                 a name, of those below
    conformance/run [OPTIONS] COMMAND ..              a command with {in}, {pdf} or {stream}, as
                                                      conformance/run mydecoder --page={page} {in} {out}
    conformance/run [OPTIONS] --table all|DECODER,..  conformance/RESULTS.md, of all decoders or of these

Words of a command: {in} the file, {out} the picture, a PBM file (standard output if no word has it), {page} the page
from 0, {pdf} a PDF file of the page, {globals} what an embedded page shares (such a command gets its stream as {in});
{stream} and {shared} the two streams that a PDF file has of the page, {width} and {height} the size that it says.
PROGRAM may name a built jbig2-decode.

Status 0: all is as the manifest says, or a known failure. 1: something else isn't. 2: a mistake in the call or in what
it names.
"""
from __future__ import annotations

import argparse
import concurrent.futures
import os
import pathlib
import subprocess
import sys
import tempfile

from conformance.runner import document, reports, tables
from conformance.runner.decoders import DECODERS, Decoder, decoder_of
from conformance.runner.known import Known, known_text, read_known
from conformance.runner.limits import Limits
from conformance.runner.manifest import Sample, read_manifest, read_sample
from conformance.runner.mistake import Mistake
from conformance.runner.trial import Outcome, tried

ROOT = pathlib.Path(__file__).resolve().parents[2]
# What is written of the run of one decoder.
WRITTEN = ("keep", "junit", "tsv", "known", "write_known")


def positive(text: str) -> int:
    """A whole number above 0."""
    if not text.isdecimal() or int(text) == 0:
        raise argparse.ArgumentTypeError(f"{text} is no number above 0")
    return int(text)


def options_of(words: list[str]) -> argparse.Namespace:
    """The options and the command."""
    formed = argparse.RawDescriptionHelpFormatter
    names = "decoders: " + ", ".join(decoder.name for decoder in DECODERS)
    usage = "%(prog)s [OPTIONS] DECODER | COMMAND .. | --table NAMES"
    parser = argparse.ArgumentParser(
        "conformance/run", usage, __doc__, names, formatter_class=formed, allow_abbrev=False
    )
    add, path = parser.add_argument, pathlib.Path
    add("--suite", type=path, metavar="FOLDER", help="what conformance/make has written; without it a suite is made")
    add("--only", action="append", default=[], metavar="PART", help="files whose name or features have this")
    add("--table", metavar="NAMES", help="all, or names of decoders joined by commas")
    add("--keep", type=path, metavar="FOLDER", help="write wrong pictures there, beside the expected ones")
    add("--junit", type=path, metavar="FILE", help="write the pages as JUnit's test cases")
    add("--tsv", type=path, metavar="FILE", help="write a line for each page, with tabs between its fields")
    add("--known", type=path, metavar="FILE", help="known failures: lines of name, page and fault")
    add("--write-known", type=path, metavar="FILE", help="write what fails as such a file")
    add("--seconds", type=positive, default=Limits.seconds, help="of the processor for a page, 20 where not given")
    add("--memory", type=positive, default=Limits.memory >> 20, help="in MiB for a page, 4096 where not given")
    add("--jobs", type=positive, default=os.cpu_count(), help="pages at once, as many as processors where not given")
    add("command", nargs=argparse.REMAINDER, metavar="DECODER | COMMAND ..")
    options = parser.parse_args(words)
    if bool(options.table) == bool(options.command):
        parser.error("give a decoder, a command or --table; options stand before it")
    if options.table and any(getattr(options, name) for name in WRITTEN):
        parser.error("--table goes without --keep, --junit, --tsv, --known and --write-known")
    return options


def samples_of(suite: pathlib.Path, parts: list[str]) -> list[Sample]:
    """The pages of the suite, or those whose name or features have one of these parts."""
    entries = read_manifest(suite / "manifest.tsv")
    texts = {entry: f"{entry.name} {entry.features}" for entry in entries}
    wanted = [entry for entry in entries if not parts or any(part in texts[entry] for part in parts)]
    if not wanted:
        raise Mistake(f"no name or feature has {' or '.join(parts)}" if parts else f"{suite} has no pages")
    return [read_sample(suite, entry) for entry in wanted]


def outcomes_of(decoder: Decoder, samples: list[Sample], options: argparse.Namespace) -> list[Outcome]:
    """What a decoder makes of each page, in their order; several are run at once."""
    limits = Limits(options.seconds, options.memory << 20)
    pool = concurrent.futures.ThreadPoolExecutor(options.jobs)
    try:
        return list(pool.map(lambda sample: tried(decoder, sample, limits), samples))
    finally:
        pool.shutdown(cancel_futures=True)


def line_of(outcome: Outcome) -> str:
    """A failure as a line."""
    message = f" ({outcome.message})" if outcome.message else ""
    return f"{outcome.entry.label} [{outcome.entry.feature}]: {outcome.fault}{message}"


def report(outcomes: list[Outcome], known: Known | None) -> int:
    """Prints a table and what is against the manifest, and returns the status. Of known failures it prints how many
    there are, and those that are mended."""
    print("\n".join(tables.text_table(outcomes)))
    failed = [outcome for outcome in outcomes if not outcome.is_allowed]
    new = [outcome for outcome in failed if not (known and known.has(outcome))]
    for outcome in new:
        print(line_of(outcome))
    mended = known.mended(outcomes) if known else []
    for outcome in mended:
        print(f"{outcome.entry.label} [{outcome.entry.feature}]: mended, so it is no known failure any more")
    among = f": {len(failed) - len(new)} known, {len(new)} new; {len(mended)} mended" if known else ""
    print(f"{len(outcomes)} pages, {len(outcomes) - len(failed)} as the manifest says, {len(failed)} not{among}")
    return 1 if new else 0


def write_reports(
    suite: pathlib.Path, options: argparse.Namespace, name: str, outcomes: list[Outcome], known: Known
) -> None:
    """Writes what the options ask for."""
    texts = {
        options.tsv: lambda: reports.tsv_text(outcomes, known),
        options.junit: lambda: reports.junit_text(name, outcomes, known),
        options.write_known: lambda: known_text(outcomes),
    }
    for path, text in texts.items():
        if path:
            path.write_text(text(), encoding="utf-8", newline="\n")
    if options.keep:
        count = reports.keep_pictures(options.keep, suite, outcomes)
        print(f"{count} wrong pictures are in {options.keep}")


def run_one(suite: pathlib.Path, options: argparse.Namespace, decoder: Decoder) -> int:
    """Runs one decoder on the suite in a folder."""
    for path in (options.junit, options.tsv, options.write_known):
        if path and not path.absolute().parent.is_dir():
            raise Mistake(f"there is no folder for {path}")
    known = read_known(options.known) if options.known else None
    samples = samples_of(suite, options.only)
    for name, page in known.elsewhere(read_manifest(suite / "manifest.tsv")) if known else []:
        print(f"{options.known} names {name}, page {page}, which is not in the suite", file=sys.stderr)
    outcomes = outcomes_of(decoder, samples, options)
    write_reports(suite, options, decoder.name, outcomes, known or Known({}))
    return report(outcomes, known)


def run_all(suite: pathlib.Path, options: argparse.Namespace, decoders: list[Decoder]) -> int:
    """Prints the page of what these decoders make of the suite."""
    samples = samples_of(suite, options.only)
    columns = []
    for decoder in decoders:
        columns.append(tables.Column(decoder, outcomes_of(decoder, samples, options)))
        print(f"{decoder.name} is through", file=sys.stderr)
    reasons = tables.read_reasons(ROOT / "conformance" / "reasons.tsv")
    print(document.text_of(columns, reasons))
    for reason in tables.unused(reasons, columns):
        print(f"no page needs the reason for {reason}", file=sys.stderr)
    return 0


def run_on(suite: pathlib.Path, options: argparse.Namespace) -> int:
    """Runs what is asked for on the suite in a folder."""
    if options.table:
        return run_all(suite, options, decoders_of(options))
    return run_one(suite, options, *decoders_of(options))


def decoders_of(options: argparse.Namespace) -> list[Decoder]:
    """The decoders that are asked for, all of them there."""
    if options.table == "all":
        decoders = list(DECODERS)
    elif options.table:
        decoders = [decoder_of([name]) for name in options.table.split(",")]
    else:
        decoders = [decoder_of(options.command)]
    for decoder in decoders:
        if missing := decoder.missing():
            raise Mistake(f"{missing} is not there")
    return decoders


def main(words: list[str]) -> int:
    """Runs what is asked for, on a suite that is made where none is named."""
    options = options_of(words)
    try:
        decoders_of(options)
        if options.suite:
            return run_on(options.suite, options)
        with tempfile.TemporaryDirectory() as name:
            subprocess.run([ROOT / "conformance" / "make", name], check=True, stdout=subprocess.DEVNULL)
            return run_on(pathlib.Path(name), options)
    except (Mistake, OSError) as fault:
        print(f"conformance/run: {fault}", file=sys.stderr)
        return 2
    except subprocess.CalledProcessError:
        print("conformance/run: the suite can't be made", file=sys.stderr)
        return 2
    except KeyboardInterrupt:
        print("conformance/run: stopped", file=sys.stderr)
        return 130


if __name__ == "__main__":
    sys.exit(main(sys.argv[1:]))
