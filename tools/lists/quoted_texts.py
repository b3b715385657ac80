"""The files that quote texts of errors. Whoever changes a text changes it there by hand."""
import re
import subprocess

from testing.error_texts import DEFINITION, TEXTS

# Where any text may stand: in the definition, in what other commands make of crates and of the suite, in what programs printed,
# and in what was new.
ANYWHERE = (DEFINITION, "CHANGELOG.md", "conformance/manifest.tsv", "dist/", "docs/evidence.json")
# These files, with the names of the errors.
QUOTES = {
    "bindings/c/tool/hayro-jbig2.1": "Huffman(InvalidCode)",
    "crates/jbig2_base/wrong-bodies/text_of_an_inner_error_lost.edit": "Symbol(Invalid)",
    "crates/jbig2_base/wrong-bodies/text_of_another_error.edit": "Huffman(InvalidCode) Huffman(UnexpectedOob)",
    "crates/hayro_jbig2_tests/src/commands.rt":
        "Parse(UnexpectedEof) Format(InvalidHeader) Format(MissingPageInfo) Format(InvalidEndOfPage) Unsupported OutOfMemory",
    "crates/hayro_jbig2_tests/src/large.rt": "Symbol(TooManyInstances)",
    "crates/hayro_jbig2_tests/src/lists.rt": "OutOfMemory",
    "crates/hayro_jbig2_tests/src/readers.rt": "Unsupported",
    # Others than the decoder run out of memory, too, and say so in the same words.
    "bindings/c/tool/README.md": "OutOfMemory",
    "bindings/c/tool/messages.c": "OutOfMemory",
    "bindings/python/src/hayro_jbig2/__main__.py": "OutOfMemory",
    "bindings/python/tests/test_command.py": "OutOfMemory",
    "bindings/rust/src/encode.rs": "OutOfMemory",
    "bindings/rust/tests/encode.rs": "OutOfMemory",
    "crates/jbig2_rows/src/status.rt": "OutOfMemory",
    "crates/jbig2_writer/src/error.rt": "OutOfMemory",
    "testing/benchmarks/documents.c": "OutOfMemory",
}
# Comments and documents use these words as such. They count where a string ends with them.
EVERYDAY = ("OutOfMemory", "Overflow(SymbolCount)")
END_OF_STRING = r"""(?=(?:\\n)?["'`])"""


def pattern_of_texts():
    """Of all texts, a longer one before what is a part of it."""
    ends = {TEXTS[name]: END_OF_STRING for name in EVERYDAY}
    texts = sorted(set(TEXTS.values()), key=len, reverse=True)
    return re.compile("|".join(re.escape(text) + ends.get(text, "") for text in texts))


def names_of_files(root):
    """All files that git knows, or would take."""
    words = ["git", "ls-files", "-z", "--cached", "--others", "--exclude-standard"]
    try:
        listed = subprocess.run(words, cwd=root, stdout=subprocess.PIPE, stderr=subprocess.DEVNULL, check=True).stdout
    except (OSError, subprocess.CalledProcessError):
        return []
    return sorted(name for name in listed.decode().split("\0") if name and (root / name).is_file())


def joined(source):
    """A source whose lines, and whose strings that follow each other, are one."""
    return " ".join(re.sub(r"""(["'`])\s+[bfr]*\1""", "", source).split())


def misquoted(root, lists):
    """How many files were looked at, and where one states a text that it may not, or doesn't quote one. Lists have them all."""
    pattern, faults, count = pattern_of_texts(), [], 0
    names = names_of_files(root)
    for name in names:
        if name.startswith(ANYWHERE) or name in lists:
            continue
        count += 1
        found = set(pattern.findall(joined((root / name).read_text("utf-8", errors="replace"))))
        meant = {TEXTS[error] for error in QUOTES.get(name, "").split()}
        faults += [f"{name} states `{text}` by hand: testing/error_texts.py has it" for text in sorted(found - meant)]
        faults += [f"{name} doesn't quote `{text}`: quoted_texts.py says so" for text in sorted(meant - found)]
    if names:
        faults += [f"{name} isn't here: quoted_texts.py says that it quotes errors" for name in sorted(set(QUOTES) - set(names))]
    return (f"{count} other files" if names else "git or its history is not here: no other file"), faults
