"""Asks the built decoder for many pages: by a process for each, or by the library for C in this process."""
import ctypes
import os
import signal
import subprocess

from bindings.c.tests.bindings import loaded
from testing.comparison.limited import Runner

LONGEST = 60
OTHER_FAULTS = "no answer"


class Program:
    """Runs `jbig2-decode pbm` on each page, under limits."""

    def __init__(self, program, folder):
        self.runner = Runner(program, folder, 10, 3 << 30)

    def answer(self, data, index, strict):
        """The PBM file that is written, or the text of the error."""
        ended = self.runner.run(data, ["--strict"] * strict + ["pbm", None, str(index)])
        if ended.status == 0 and not ended.fault and not ended.signal:
            return self.runner.beginning(ended.output), None
        error = ended.fault.decode(errors="replace")
        if ended.status == 1 and not ended.output and error.startswith("error: ") and error.endswith("\n"):
            return b"", error[len("error: ") : -1]
        return b"", f"{OTHER_FAULTS}: status {ended.status}, signal {ended.signal}, {ended.output} bytes and {error!r}"


def linked(archive, folder):
    """A shared library of all that is in an archive."""
    shared = os.path.join(folder, "library.so")
    whole = ["-Wl,--whole-archive", archive, "-Wl,--no-whole-archive"]
    subprocess.run([os.environ.get("CC", "cc"), "-shared", "-o", shared, *whole], check=True)
    return shared


class Library:
    """Calls the library for C. Each file is written into the folder first, so that a crash leaves it there; so does a
    call of more than LONGEST seconds of the processor, which ends this process."""

    def __init__(self, file, folder):
        self.library = loaded(linked(file, folder) if file.endswith(".a") else file)
        self.name = os.path.join(folder, "page.jb2")

    def answer(self, data, index, strict):
        """The PBM file of a page, or the text of the error."""
        with open(self.name, "wb") as file:
            file.write(data)
        # No handler of Python's is called during a call of C, so the signal ends this process.
        signal.setitimer(signal.ITIMER_PROF, LONGEST)
        answer = self.drawn(data, index, strict)
        signal.setitimer(signal.ITIMER_PROF, 0)
        return answer

    def drawn(self, data, index, strict):
        width, height = ctypes.c_uint32(), ctypes.c_uint32()
        number = self.library.hayro_jbig2_page_size(strict, data, len(data), index, width, height)
        if not number:
            size = (width.value + 7) // 8 * height.value
            rows = ctypes.create_string_buffer(size)
            number = self.library.hayro_jbig2_page_packed(strict, data, len(data), index, rows, size)
        if number:
            return b"", self.library.hayro_jbig2_error_text(number).decode()
        return b"P4\n%d %d\n" % (width.value, height.value) + rows.raw, None
