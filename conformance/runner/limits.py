"""Runs one process under limits of time, memory and output."""
from __future__ import annotations

import dataclasses
import os
import shutil
import signal
import subprocess
import tempfile

from .mistake import Mistake

# Processor time, address space in KiB, and blocks of 512 bytes of a file; no core is written.
UNDER_LIMITS = 'ulimit -c 0; ulimit -t "$1"; ulimit -v "$2"; ulimit -f "$3"; shift 3; exec "$@"'
MOST_OUTPUT = 1 << 28
STOPPED = (signal.SIGXCPU, signal.SIGXFSZ, signal.SIGKILL)
# The statuses of the shell where it can't start a program.
NOT_STARTED = (126, 127)


def folder_in_memory(size: int) -> str | None:
    """A folder in memory for files of this size in all, where there is one. That of a container often has 64 MiB."""
    folder = "/dev/shm"
    return folder if os.access(folder, os.W_OK) and shutil.disk_usage(folder).free > size else None


# What a decoder writes is on standard output, standard error and in a file.
MEMORY = folder_in_memory(3 * MOST_OUTPUT)


@dataclasses.dataclass(frozen=True)
class Limits:
    """The most seconds and bytes of memory that a run may take."""

    seconds: int = 20
    memory: int = 4 << 30


@dataclasses.dataclass(frozen=True)
class Ended:
    """How a run ended: its status (a signal as a negative number, as in subprocess), and what it wrote."""

    status: int
    output: bytes
    errors: bytes
    is_late: bool = False

    @property
    def has_crashed(self) -> bool:
        """Whether a signal ended it that came from no limit."""
        return self.status < 0 and not self.is_late

    @property
    def message(self) -> str:
        """The first line of standard error that tells an error, or the first one, without control characters."""
        lines = self.errors.decode(errors="replace").strip().splitlines()
        line = next((line for line in lines if "error" in line.lower()), lines[0] if lines else "")
        return printable(line)


def printable(text: str) -> str:
    """A text without control characters, which break the lines and fields of reports."""
    return "".join(letter if letter.isprintable() else " " for letter in text)


def run(words: list[str], limits: Limits) -> Ended:
    """Runs a command; waiting counts too, four times as long as processor time. What it writes goes to files, since
    these have a limit, and a pipe would stay open as long as any process that the command started."""
    head = ["sh", "-c", UNDER_LIMITS, "sh", str(limits.seconds), str(limits.memory >> 10), str(MOST_OUTPUT >> 9)]
    with tempfile.TemporaryFile(dir=MEMORY) as output, tempfile.TemporaryFile(dir=MEMORY) as errors:
        process = subprocess.Popen(
            head + words, stdin=subprocess.DEVNULL, stdout=output, stderr=errors, start_new_session=True
        )
        is_late = not ends_within(process, 4 * limits.seconds)
        written = [whole(file) for file in (output, errors)]
    is_late = is_late or process.returncode in [-number for number in STOPPED]
    ended = Ended(process.returncode, *written, is_late)
    if ended.status in NOT_STARTED and ended.errors.startswith(b"sh: ") and words[0].encode() in ended.errors:
        raise Mistake(f"{words[0]} can't be started ({ended.message})")
    return ended


def ends_within(process: subprocess.Popen, seconds: int) -> bool:
    """Whether a process ends in time. If not, it is ended, and so are those that it started."""
    try:
        process.wait(seconds)
        return True
    except subprocess.TimeoutExpired:
        os.killpg(process.pid, signal.SIGKILL)
        process.wait()
        return False


def whole(file) -> bytes:
    """All bytes of a file that is open."""
    file.seek(0)
    return file.read()
