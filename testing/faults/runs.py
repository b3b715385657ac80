"""Runs of the built programs with one fault each, by faults.c, which is loaded before the C library."""
import functools
import os
import shlex
import struct
import subprocess
import sys

ROOT = os.path.dirname(os.path.dirname(os.path.dirname(os.path.abspath(__file__))))
# What faults.c shares: what it is asked for, then what it counted.
FIELDS = "refused_request failed_read failed_write error moves_one_byte requests reads writes bytes".split()


@functools.cache
def built(name):
    """A program, as it was proved here or as its text in dist/ is, and built first where it has to be."""
    words = [os.path.join(ROOT, "tools", "build", "program"), name]
    ended = subprocess.run(words, stdout=subprocess.PIPE, text=True)
    if ended.returncode != 0:
        sys.exit(f"try-refusals: {name} was not built")
    return ended.stdout.rstrip("\n")


class Faults:
    """Runs programs with one fault each."""

    def __init__(self, folder):
        self.plan = os.path.join(folder, "plan")
        self.library = os.path.join(folder, "faults.so")
        source = os.path.join(ROOT, "testing", "faults", "faults.c")
        # The compiler's name may have words after it.
        compiler = shlex.split(os.environ.get("CC", "cc"))
        subprocess.run([*compiler, "-O2", "-shared", "-fPIC", "-o", self.library, source, "-ldl"], check=True)
        self.outputs = [open(os.path.join(folder, name), "w+b", buffering=0) for name in ("out", "err")]
        self.environment = {"LD_PRELOAD": self.library, "FAULT_PLAN": self.plan}
        self.runs = 0

    def run(self, words, **plan):
        """What the words write and their status, and the counts of requests, their bytes, reads and writes."""
        with open(self.plan, "wb") as file:
            file.write(struct.pack(f"{len(FIELDS)}Q", *(plan.get(field, 0) for field in FIELDS)))
        for output in self.outputs:
            os.ftruncate(output.fileno(), 0)
            os.lseek(output.fileno(), 0, os.SEEK_SET)
        actions = [(os.POSIX_SPAWN_DUP2, output.fileno(), place) for place, output in enumerate(self.outputs, 1)]
        child = os.posix_spawn(words[0], words, self.environment, file_actions=actions)
        status = os.waitstatus_to_exitcode(os.waitpid(child, 0)[1])
        out, err = (os.pread(output.fileno(), 1 << 24, 0) for output in self.outputs)
        self.runs += 1
        with open(self.plan, "rb") as file:
            counts = dict(zip(FIELDS, struct.unpack(f"{len(FIELDS)}Q", file.read())))
        return (status, out, err), counts
