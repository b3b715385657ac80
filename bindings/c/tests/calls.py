"""Calls the library from Python, and compares its numbers and texts with the sources of the Rattle library.

usage: calls.py LIBRARY EXAMPLE, the shared library and the program of example.c
"""
import ctypes
import os
import re
import subprocess
import sys
import tempfile

from bindings import STRUCTURES, loaded
from testing.error_texts import TEXTS, in_c

HERE = os.path.dirname(os.path.dirname(os.path.abspath(__file__)))
CRATES = os.path.join(os.path.dirname(os.path.dirname(HERE)), "crates")
DATA = os.path.join(CRATES, "jbig2_decode", "data")
PageInfo, PassedOver, LeftOut = (STRUCTURES[name] for name in ("page_info", "passed_over", "left_out"))
WriteSettings = STRUCTURES["write_settings"]
# Where the flags of the region are in a file that is written.
REGION_FLAGS = 77
failures = []
checks = 0


def check(holds, what):
    global checks
    checks += 1
    if not holds:
        failures.append(what)
        print(f"calls.py: not so: {what}")


def text_of(*path):
    with open(os.path.join(*path), encoding="utf-8") as file:
        return file.read()


def compare_numbers(library):
    """The text that the library has for each number of the header, with that of the definitions, by the error's name; and
    the version. tools/lists/errors compares the other lists."""
    header = text_of(HERE, "hayro_jbig2.h")
    numbers = {name: int(number) for name, number in re.findall(r"^    HAYRO_JBIG2_(\w+) = (\d+)", header, re.M)}
    check(len(TEXTS) == len([number for number in numbers.values() if 0 < number < 100]), "the header has all errors")
    for error, text in TEXTS.items():
        said = library.hayro_jbig2_error_text(numbers.get(in_c(error), 99))
        check(said == text.encode(), f"the text of {error} is {text}")
    parts = re.findall(r"^#define HAYRO_JBIG2_VERSION_\w+ (\d+)$", header, re.M)
    check(library.hayro_jbig2_version().decode() == ".".join(parts), "the version is that of its parts")


def unpacked(rows, width):
    """A byte for each pixel of packed rows."""
    row_bytes = (width + 7) // 8
    starts = range(0, len(rows), row_bytes)
    bits = ("".join(f"{byte:08b}" for byte in rows[at : at + row_bytes])[:width] for at in starts)
    return bytes(0 if bit == "1" else 255 for row in bits for bit in row)


def pages_by_bytes(library, book):
    """The pages of a file by the calls that keep nothing, as (width, height, rows); compared in both forms."""
    count = ctypes.c_size_t()
    check(library.hayro_jbig2_page_count(True, book, len(book), ctypes.byref(count)) == 0, "the file is read")
    pages = []
    for index in range(count.value):
        width, height = ctypes.c_uint32(), ctypes.c_uint32()
        sizes = ctypes.byref(width), ctypes.byref(height)
        answer = library.hayro_jbig2_page_size(True, book, len(book), index, *sizes)
        check(answer == 0, f"page {index} has a size")
        image = ctypes.create_string_buffer(width.value * height.value)
        answer = library.hayro_jbig2_page_image(True, book, len(book), index, image, len(image))
        check(answer == 0, f"page {index} is drawn")
        rows = ctypes.create_string_buffer((width.value + 7) // 8 * height.value)
        answer = library.hayro_jbig2_page_packed(True, book, len(book), index, rows, len(rows))
        check(answer == 0, f"page {index} is packed")
        check(unpacked(rows.raw, width.value) == image.raw, f"page {index} is the same in both forms")
        check(b"\0" in image.raw, f"page {index} is not white")
        answer = library.hayro_jbig2_page_packed(True, book, len(book), index, rows, len(rows) - 1)
        check(answer == 100, "a size is refused")
        pages.append((width.value, height.value, rows.raw))
    return pages


def read_file(library, book, is_salvaged, file):
    """Reads a file strictly or in salvage, and checks that nothing is left out."""
    if is_salvaged:
        answer = library.hayro_jbig2_file_new_salvaged(None, 2**64 - 1, book, len(book), ctypes.byref(file))
    else:
        answer = library.hayro_jbig2_file_new(None, True, book, len(book), ctypes.byref(file))
    check(answer == 0 and file.value is not None, "a file is held")
    left_out = LeftOut(*[9] * len(LeftOut._fields_))
    check(library.hayro_jbig2_file_get_left_out(file, ctypes.byref(left_out)) == 0, "a file tells what is left out")
    check(not any(getattr(left_out, name) for name, _ in LeftOut._fields_), "nothing of the file is left out")


def pages_by_handles(library, book, is_salvaged):
    """The same by a file that is read once and a context that draws all of its pages."""
    file, context = ctypes.c_void_p(), ctypes.c_void_p()
    read_file(library, book, is_salvaged, file)
    check(library.hayro_jbig2_context_new(None, ctypes.byref(context)) == 0, "a context is made")
    pages = []
    for index in range(library.hayro_jbig2_file_page_count(file)):
        info, passed = PageInfo(), PassedOver()
        check(library.hayro_jbig2_file_get_info(file, index, ctypes.byref(info)) == 0, f"page {index} tells its size")
        check(info.number == index + 1, f"page {index} tells its number")
        check(library.hayro_jbig2_file_draw(file, index, context) == 0, f"held page {index} is drawn")
        rows = ctypes.create_string_buffer((info.width + 7) // 8 * info.height)
        check(library.hayro_jbig2_context_rows(context, 0, rows, len(rows)) == 0, f"page {index} has rows")
        answer = library.hayro_jbig2_context_get_passed_over(context, ctypes.byref(passed))
        check(answer == 0 and passed.count == 0, f"nothing of page {index} is passed over")
        pages.append((info.width, info.height, rows.raw))
    library.hayro_jbig2_context_free(context)
    library.hayro_jbig2_file_free(file)
    return pages


def written_of(library, page, mmr):
    """A file of one page, of width, height and rows, by MMR or by the arithmetic coder."""
    width, height, rows = page
    settings, written = WriteSettings(1, 11811, 11811, True, True, mmr), ctypes.c_void_p()
    answer = library.hayro_jbig2_written_new(
        None, rows, len(rows), width, height, ctypes.byref(settings), ctypes.byref(written)
    )
    check(answer == 0 and written.value is not None, "a page is written")
    book = ctypes.create_string_buffer(library.hayro_jbig2_written_length(written))
    check(library.hayro_jbig2_written_bytes(written, book, len(book)) == 0, "what was written is copied")
    library.hayro_jbig2_written_free(written)
    check(book.raw[REGION_FLAGS] & 1 == mmr, "the region's flags say how it is coded")
    return book.raw


def compare_pages(library, example):
    """The pages by both ways of calling, and what the example prints."""
    name = os.path.join(DATA, "t88-h1.jb2")
    with open(name, "rb") as file:
        book = file.read()
    pages = pages_by_bytes(library, book)
    check(len(pages) == 3, "the file has three pages")
    check(pages_by_handles(library, book, False) == pages, "the pages are the same by handles")
    check(pages_by_handles(library, book, True) == pages, "the pages are the same in salvage")
    for page in pages:
        for mmr in False, True:
            read = pages_by_bytes(library, written_of(library, page, mmr))
            check(read == [page], "a page is the same that was written")
    printed = subprocess.run([example, name], stdout=subprocess.PIPE)
    wanted = b"".join(b"P4\n%d %d\n" % (width, height) + rows for width, height, rows in pages)
    check(printed.returncode == 0 and printed.stdout == wanted, "the example prints the pages")


def try_incomplete_pages(example):
    """What the example reports of a file whose second page is cut off. Its first page is complete."""
    with open(os.path.join(DATA, "t88-h1.jb2"), "rb") as file:
        book = file.read()
    whole = subprocess.run([example, file.name], stdout=subprocess.PIPE).stdout
    # In segment 13, the last one of page 2 before its end; and in the number of the first one after page 1.
    ends = [book.index(bytes.fromhex("31 00 02 00000000")) - 5, book.index(bytes.fromhex("31 00 01 00000000")) + 9]
    reports = [f"page 2 is incomplete: segment 13: {TEXTS['Parse(UnexpectedEof)']}\n", ""]
    with tempfile.TemporaryDirectory() as folder:
        for number, (end, report) in enumerate(zip(ends, reports)):
            name = os.path.join(folder, f"{number}.jb2")
            with open(name, "wb") as file:
                file.write(book[:end])
            ended = subprocess.run([example, name], stdout=subprocess.PIPE, stderr=subprocess.PIPE)
            check(ended.returncode == 0 and ended.stderr.decode() == report, f"the example reports {report}")
            first = b"P4\n64 56\n"
            check(ended.stdout[: len(first) + 448] == whole[: len(first) + 448], "the first page is the same")


def try_faults(example):
    """What the example reports of files that it can't read or decode, and of an output that it can't write."""
    good, folder, missing = os.path.join(DATA, "t88-h1.jb2"), DATA, os.path.join(DATA, "no such file")
    reports = {
        (example,): (2, "usage: example FILE\n"),
        (example, example): (1, f"error: {example}: {TEXTS['Format(InvalidHeader)']}\n"),
        (example, missing): (1, f"error: {missing}: No such file or directory\n"),
        (example, folder): (1, f"error: {folder}: Is a directory\n"),
    }
    for words, wanted in reports.items():
        ended = subprocess.run(words, stdout=subprocess.PIPE, stderr=subprocess.PIPE, text=True, env={"LC_ALL": "C"})
        check((ended.returncode, ended.stderr) == wanted and ended.stdout == "", f"the example reports {wanted}")
    for output in ">/dev/full", ">&-":
        words = ["sh", "-c", f'exec "$0" "$1" {output}', example, good]
        ended = subprocess.run(words, stdout=subprocess.PIPE, stderr=subprocess.PIPE, text=True)
        is_reported = ended.stderr.startswith("error: the pages can't be written: ")
        check(ended.returncode == 1 and is_reported, f"the example ends with status 1 after {output}")
    try_limit(example)


def try_limit(example):
    """A page of 1 by 65535 pixels with a region of 65535 by 65535, which would take minutes without a limit of work."""
    page = bytes.fromhex("00000000 30 00 01 00000013 00000001 0000FFFF") + bytes(11)
    region = bytes.fromhex("00000001 26 00 01 0000001E 0000FFFF 0000FFFF") + bytes(9)
    region += bytes.fromhex("04 03FFFDFF02FEFEFE 0000FFAC")
    end = bytes.fromhex("00000002 31 00 01 00000000 00000003 33 00 00 00000000")
    with tempfile.NamedTemporaryFile() as file:
        file.write(bytes.fromhex("974A42320D0A1A0A 01 00000001") + page + region + end)
        file.flush()
        ended = subprocess.run([example, file.name], stdout=subprocess.PIPE, stderr=subprocess.PIPE, timeout=60)
    check(ended.returncode == 1 and b"the limit of work is reached" in ended.stderr, "the example has a limit of work")


def main(path, example):
    library = loaded(path)
    compare_numbers(library)
    compare_pages(library, example)
    try_incomplete_pages(example)
    try_faults(example)
    print(f"{checks} checks of calls from Python, and of numbers and texts, {len(failures)} failed")
    return bool(failures)


sys.exit(main(*sys.argv[1:]))
