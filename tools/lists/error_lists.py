"""Compares each list of the errors in the tree with the enums of crates/jbig2_base/src/error.rt, in both directions.

usage: tools/lists/errors [--write]

An error's text is in specs/ErrorTexts.antt of that crate, its number in bindings/c/source/specs/Numbers.antt.txt. The comment of
an error that no bytes cause ends with "never returned". With --write the texts are first written into the lists that
written_errors.py names. In no other file may a text stand, unless quoted_texts.py names that file.
"""
import re
import sys
from pathlib import Path
from typing import NamedTuple

from tools.lists.quoted_texts import misquoted
from tools.lists.written_errors import COMMAND, HEADER, IN_C, IN_CRATE, OTHERS_FOR_C, TEXTS_FOR_C, TEXTS_IN_CRATES, written
from testing.error_texts import DEFINITION, TEXTS, in_c, named

ROOT = Path(__file__).resolve().parents[2]
ENUM = re.compile(r"\bpub enum (\w+) \{\n(.*?)\n\}", re.S)
VARIANT = re.compile(r"((?: +///.*\n)*) +(\w+)(?:\((\w+)\))?,")
IN_CLAUSE = r"(?P<enum>\w+)\.(?P<variant>\w+)"
NUMBERS = "bindings/c/source/specs/Numbers.antt.txt", rf"(?m)^\w+_number {IN_CLAUSE} = (?P<number>\d+)$"
NUMBERS_FOR_C = NUMBERS[0], r"(?m)^number_of (?P<name>\w+) = (?P<number>\d+)$"
# Lists of all errors: the file, and how it states one.
LISTS = (
    *TEXTS_IN_CRATES,
    NUMBERS,
    ("bindings/c/source/src/refusal.rt.txt", rf"{IN_CRATE} => (?P<number>\d+)"),
    ("docs/FORMAT.md", r"`(?:(?P<enum>[A-Z]\w+)\((?P<variant>[A-Z]\w+)\)|(?P<name>Unsupported|OutOfMemory))`"),
)
# A list that has the results of C alone, too.
LIST_FOR_C = HEADER, rf"    {IN_C} = (?P<number>\d+)"
# Lists of the errors that bytes cause.
LISTS_OF_CAUSES = (
    ("testing/comparison/model/answers.py", r'(?m)^    [A-Z_]+ = "(?P<name>[A-Z][\w()]+)"$'),
    ("conformance/suite/breaking.py", r'(?m)^[A-Z_]+ = TEXTS\["(?P<name>[\w()]+)"\]$'),
)
# The error of the crate for Cargo that no definition has. It is a result of C alone.
LIMIT = "WorkLimit"
# Some results by number. Their names may lack the enum.
CONSTANTS = (
    ("bindings/python/src/hayro_jbig2/_library.py",
     r"(?m)^_(?P<in_c>OUT_\w+|NO_SUCH_\w+|WORK_LIMIT|UNEXP\w+) = (?P<number>\d+)$"),
    ("bindings/web/jbig2_error.js", r"(?m)^export const (?P<in_c>\w+) = (?P<number>\d+);$"),
    ("bindings/rust/src/library/numbers.rs", r"(?m)^const (?P<in_c>\w+): u32 = (?P<number>\d+);$"),
)
NEVER_RETURNED = HEADER, rf"    {IN_C} = (?P<number>\d+), /\* never returned \*/"


class Error(NamedTuple):
    """A result: its number, its name as docs/FORMAT.md writes it, its text, and whether bytes can cause it."""

    number: int
    name: str
    text: str
    is_caused: bool

    @property
    def in_c(self):
        return in_c(self.name)


def read(path):
    return (ROOT / path).read_text("utf-8")


def declared(path):
    """The names of the errors of a file's enums, in their order, each with whether bytes can cause it."""
    enums = {name: VARIANT.findall(body) for name, body in ENUM.findall(read(path))}
    for comment, variant, inner in enums["DecodeError"]:
        for inner_comment, name, _ in enums.get(inner, [(comment, "", "")]):
            is_caused = variant not in ("OutOfMemory", LIMIT) and "never returned" not in inner_comment.lower()
            yield (f"{variant}({name})" if name else variant), is_caused


def stated(path, pattern):
    """What each line of a list states: a dictionary of some fields of an error."""
    # The enum of one variant is matched as a whole.
    text = read(path).replace("DecodeError::Parse(_)", "ParseError::UnexpectedEof")
    for match in re.finditer(pattern, text):
        fields = {key: value for key, value in match.groupdict().items() if value is not None}
        if "enum" in fields:
            fields["name"] = named(fields.pop("enum"), fields.pop("variant"))
        yield fields


def all_errors():
    """The errors of the enums, by their numbers."""
    numbers = {fields["name"]: int(fields["number"]) for fields in stated(*NUMBERS)}
    names = declared("crates/jbig2_base/src/error.rt")
    return sorted(Error(numbers.get(name, 0), name, TEXTS.get(name, ""), is_caused) for name, is_caused in names)


def for_c():
    """The results of C alone: success, and what a caller alone can get wrong."""
    texts = {fields["in_c"]: fields["text"] for fields in stated(TEXTS_FOR_C, OTHERS_FOR_C)}
    results = [Error(0, "Ok", "", False)]
    results += [Error(int(fields["number"]), fields["name"], "", False) for fields in stated(*NUMBERS_FOR_C)]
    return [result._replace(text=texts.get(result.in_c, "")) for result in results]


def differences(where, found, wanted):
    for fact in sorted(set(found) - set(wanted)):
        yield f"{where} states `{' '.join(fact)}`, and the crates don't"
    for fact in sorted(set(wanted) - set(found)):
        yield f"{where} doesn't state `{' '.join(fact)}`"


def compared(path, pattern, errors):
    """How a list differs from errors, in the fields that it states."""
    found = [tuple(f"{key} {value}" for key, value in sorted(fields.items())) for fields in stated(path, pattern)]
    keys = sorted({key for fields in stated(path, pattern) for key in fields})
    yield from differences(path, found, [tuple(f"{key} {getattr(error, key)}" for key in keys) for error in errors])


def compared_numbers(path, names, errors):
    """How a list of names by their numbers, from 1, differs."""
    found = [(str(number), name) for number, name in enumerate(names, 1)]
    return differences(path, found, [(str(error.number), error.name) for error in errors])


def of_rust(errors, results):
    """How the crate for Cargo differs: its enums and its numbers."""
    path = "bindings/rust/src/error.rs"
    wanted = errors + [result for result in results if result.name == LIMIT]
    own = [(name, "caused" if is_caused else "never returned") for name, is_caused in declared(path)]
    kinds = [(error.name, "caused" if error.is_caused else "never returned") for error in wanted]
    yield from differences(path, own, kinds)
    path = "bindings/rust/src/library/numbers.rs"
    array = re.search(r"const ERRORS.*?\n\];", read(path), re.S)[0]
    lines = re.findall(r"(?m)^    (\w+)(?:\(\w+::(\w+)\))?,$", array)
    yield from compared_numbers(path, [f"{outer}({inner})" if inner else outer for outer, inner in lines], errors)


def of_python(errors):
    """How the Python package's list differs, which has an exception's class and names of variants by number."""
    path = "bindings/python/src/hayro_jbig2/errors.py"
    table = re.search(r"\n_VARIANTS = \((.*?)\n\)\n", read(path), re.S)[1]
    names = []
    for kind, strings in re.findall(r'\(\s*(\w+),((?:\s*"[^"]*",?)+)\s*\)', table):
        variants = " ".join(re.findall(r'"([^"]*)"', strings)).split()
        names += [kind if variant == kind else named(kind.removesuffix("Error"), variant) for variant in variants]
    yield from compared_numbers(path, names, errors)


def of_constants(results):
    for path, pattern in CONSTANTS:
        lines = list(stated(path, pattern))
        if not lines:
            yield f"{path} has no constant of a number"
        for line in lines:
            if not any(str(e.number) == line["number"] and f"_{e.in_c}".endswith(f"_{line['in_c']}") for e in results):
                yield f"{path}: {line['in_c']} is {line['number']} there, and not in the crates"


def of_never_returned(errors):
    """How section 13 of docs/FORMAT.md and the header differ in what no bytes cause."""
    never = [error for error in errors if not error.is_caused]
    sentence = re.search(r"No definition returns (.*?)\.\s", read("docs/FORMAT.md"), re.S)[1]
    names = [(name,) for name in re.findall(r"`([^`]+)`", sentence)]
    yield from differences("docs/FORMAT.md, section 13,", names, [(error.name,) for error in never])
    yield from compared(*NEVER_RETURNED, [error for error in never if error.name != "OutOfMemory"])


def lists_that_differ(errors, results):
    caused = [error for error in errors if error.is_caused]
    yield from differences(DEFINITION, [(name,) for name in TEXTS], [(error.name,) for error in errors])
    for path, pattern in LISTS:
        yield from compared(path, pattern, errors)
    yield from compared(*LIST_FOR_C, results)
    for path, pattern in LISTS_OF_CAUSES:
        yield from compared(path, pattern, caused)
    yield from of_rust(errors, results)
    yield from of_python(errors)


def write_lists():
    """Files that are as they should be keep their times, since what is built of them is then still new."""
    for path, content in written(read).items():
        if not (ROOT / path).exists() or read(path) != content:
            (ROOT / path).write_text(content, "utf-8")


def main():
    if sys.argv[1:] not in ([], ["--write"]):
        sys.exit(__doc__)
    if sys.argv[1:]:
        write_lists()
    errors = all_errors()
    results = errors + for_c()
    wrong = [f"{error.name} has no text" for error in results if not error.text]
    wrong += [f"{error.name} has no number" for error in errors if not error.number]
    if len({result.number for result in results}) < len(results):
        wrong.append("two results have one number")
    wrong += lists_that_differ(errors, results)
    wrong += [*of_constants(results), *of_never_returned(errors)]
    made = written(read)
    wrong += [f"{path} is not what `{COMMAND}` writes" for path, content in made.items() if read(path) != content]
    files, misquotes = misquoted(ROOT, made)
    wrong += misquotes
    print(*wrong, f"{len(errors)} errors, {len(made)} lists that are written, {files}, {len(wrong)} faults", sep="\n")
    return 1 if wrong else 0


if __name__ == "__main__":
    sys.exit(main())
