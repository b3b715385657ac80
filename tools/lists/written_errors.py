"""The lists into which `tools/lists/errors --write` writes the texts of the errors, as testing/error_texts.py has them: for
the languages of bindings/ all lines, and in the crates the texts alone, since the rest of these lists is written by hand.
"""
import re
import sys

from testing.error_texts import DEFINITION, TEXTS, in_c, named

COMMAND = "tools/lists/errors --write"
HEADER = "bindings/c/hayro_jbig2.h"
TEXTS_FOR_C = "bindings/c/texts.c"
TEXTS_FOR_RUST = "bindings/rust/src/error/texts.rs"
TEXTS_FOR_WEB = "bindings/web/errors.js"
# A text, and who has it, in each language.
SAID = r'"(?P<text>[^"]*)"'
IN_CRATE = r"(?P<enum>\w+)Error::(?P<variant>\w+)"
IN_C = r"HAYRO_JBIG2_(?P<in_c>\w+)"
# Lists in the crates.
TEXTS_IN_CRATES = (
    ("crates/jbig2_base/src/error_text.rt", rf"{IN_CRATE} => f\.write_str\(\s*{SAID}"),
    ("crates/jbig2_tests/src/base/errors.rt", rf"{IN_CRATE}\)?,\s*{SAID}"),
)
# What no definition has: success, and what a caller of C alone can get wrong.
OTHERS_FOR_C = rf"case {IN_C}:\s*return {SAID};"
LONGEST_LINE = 120


def line_for_c(name, text):
    """A line of an array, as clang-format lays it out."""
    line = f'    [HAYRO_JBIG2_{in_c(name)}] = "{text}",\n'
    return line if len(line) <= LONGEST_LINE + 1 else line.replace(" = ", " =\n        ", 1)


def for_c(source):
    """The C, of which the array below the command's name is written."""
    lines = "".join(line_for_c(name, text) for name, text in TEXTS.items())
    array = rf"(?s)(?<={COMMAND} \*/\n)(static [^\n]*{{\n).*?(?=}};\n)"
    made, count = re.subn(array, lambda found: found[1] + lines, source)
    if count != 1:
        sys.exit(f"{TEXTS_FOR_C} has no array below the name of {COMMAND}")
    return made


def for_rust(source):
    """A module of the crate for Cargo: a macro's call for each enum, and a constant for each error that has no inner enum. That
    of the limit of work is by the texts for C."""
    groups, constants = {}, []
    for name, text in TEXTS.items():
        outer, _, inner = name.rstrip(")").partition("(")
        if inner:
            groups.setdefault(outer, []).append(f'    {inner} => "{text}",\n')
        else:
            constants.append(f'pub(super) const {in_c(name)}: &str = "{text}";\n')
    limit = re.search(r'case HAYRO_JBIG2_(WORK_LIMIT):\s*return ("[^"]*");', source)
    constants.append(f"pub(super) const {limit[1]}: &str = {limit[2]};\n")
    head = f"//! The texts of the errors. `{COMMAND}` writes them, as\n//! `{DEFINITION}` defines them.\n\nuse super::*;\n\n"
    calls = (f"texts!({outer}Error {{\n{''.join(lines)}}});\n\n" for outer, lines in groups.items())
    return head + "".join(calls) + "".join(constants)


def for_web(header, source):
    """A module of JavaScript: the number, the name and the text of each result, by the header and the texts for C."""
    texts = {in_c(name): text for name, text in TEXTS.items()}
    texts.update((found["in_c"], found["text"]) for found in re.finditer(OTHERS_FOR_C, source))
    numbers = {name: int(number) for name, number in re.findall(r"    HAYRO_JBIG2_(\w+) = (\d+)", header)}
    results = sorted((numbers[name], name, text) for name, text in texts.items() if name in numbers)
    lines = "".join(f'  {number}: ["{name}", "{text}"],\n' for number, name, text in results)
    head = f"/** The name and the text of each result of the library, by its number. Written by {COMMAND}. */\n"
    return f"{head}export const ERRORS = {{\n{lines}}};\n"


def with_texts(source, pattern):
    """A source in which each error that a pattern finds has its text."""
    def put(found):
        text = TEXTS.get(named(found["enum"], found["variant"]), found["text"])
        return found[0].removesuffix(f'"{found["text"]}"') + f'"{text}"'
    return re.sub(pattern, put, source)


def written(read):
    """What is to be in each of these files. A function reads what is there."""
    files = {path: with_texts(read(path), pattern) for path, pattern in TEXTS_IN_CRATES}
    files[TEXTS_FOR_C] = for_c(read(TEXTS_FOR_C))
    files[TEXTS_FOR_RUST] = for_rust(files[TEXTS_FOR_C])
    files[TEXTS_FOR_WEB] = for_web(read(HEADER), files[TEXTS_FOR_C])
    return files
