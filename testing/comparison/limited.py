"""Runs a program on one file after the other, under limits of time and memory, as often a second as one process can."""
import dataclasses
import os
import resource
import signal

# What a run's output may hold: calls of a page that is large by accident are long.
MOST_OUTPUT = 1 << 30


@dataclasses.dataclass
class Ended:
    """How a run ended: its status or the signal that ended it, what it wrote, and what it took."""

    status: int
    signal: int
    output: int
    fault: bytes
    seconds: float
    memory: int

    @property
    def is_slow(self):
        return self.signal == signal.SIGXCPU


class Runner:
    """Runs the program on files in a folder; `seconds` are of processor time, `memory` is bytes of address space."""

    def __init__(self, program, folder, seconds, memory):
        self.program = program
        self.seconds = seconds
        self.name = os.path.join(folder, "page.jb2")
        names = [os.path.join(folder, stream) for stream in ("out", "err")]
        flags = os.O_RDWR | os.O_CREAT | os.O_TRUNC
        self.file = os.open(self.name, flags, 0o600)
        self.output, self.fault = (os.open(name, flags | os.O_APPEND, 0o600) for name in names)
        # Limits are handed on to what is started. Beyond that of a file's size a write fails, since Python ignores the signal.
        for limit, most in ((resource.RLIMIT_AS, memory), (resource.RLIMIT_FSIZE, MOST_OUTPUT), (resource.RLIMIT_CORE, 0)):
            resource.setrlimit(limit, (most, resource.getrlimit(limit)[1]))
        streams = ((self.output, 1), (self.fault, 2))
        self.actions = [(os.POSIX_SPAWN_DUP2, stream, place) for stream, place in streams]

    def run(self, data, words):
        """Runs the program by words on these bytes; the word None stands for the file's name."""
        os.ftruncate(self.file, 0)
        os.pwrite(self.file, data, 0)
        os.ftruncate(self.output, 0)
        os.ftruncate(self.fault, 0)
        words = [self.program, *(self.name if word is None else word for word in words)]
        child = os.posix_spawn(self.program, words, {}, file_actions=self.actions)
        try:
            resource.prlimit(child, resource.RLIMIT_CPU, (self.seconds, self.seconds + 1))
        except ProcessLookupError:
            pass
        _, ended, usage = os.wait4(child, 0)
        fault = os.pread(self.fault, 4096, 0)
        stopped = os.WTERMSIG(ended) if os.WIFSIGNALED(ended) else 0
        status = os.WEXITSTATUS(ended) if os.WIFEXITED(ended) else -1
        seconds = usage.ru_utime + usage.ru_stime
        return Ended(status, stopped, os.fstat(self.output).st_size, fault, seconds, usage.ru_maxrss << 10)

    def beginning(self, count):
        """The first bytes of what the last run wrote."""
        return os.pread(self.output, count, 0)
