"""Runs the first commands of a small copy of the repository as on other computers: another processor or system, an older
processor, another C library, no compiler, no toolchain. The compiler only notes what it is to compile: bindings/portable/test
compiles it. Takes seconds.

usage: python3 -m testing.commands.other_computers [-v] [NAME ..]
"""
import os
import re
import shutil
import subprocess
import sys
import tempfile
import unittest

from testing.commands.files import ROOT
from testing.commands.which_program import copy_repository

TOOLS = (
    "bash env readlink find cmp sha256sum sort xargs cut grep cat mkdir mktemp head rm mv cp chmod printf tr sed dirname "
    "basename realpath"
).split()
# What it makes ends with status 77. It preprocesses words.c as glibc or another C library does, and from standard input the
# names that are 1 for a processor of 64 bits.
COMPILER = """#!/bin/bash
echo "$@" >>{log}
output=a.out
while [ "$#" -gt 0 ]; do
    case $1 in
    -E)
        [ ! -e {room}/bits32 ] || exec cat
        if [[ $* = *" -" ]]; then
            printf '1 1\\n'
        elif [ -e {room}/musl ]; then
            echo "error: this program needs the GNU C library (glibc) 2.33" >&2
            exit 1
        fi
        exit 0
        ;;
    -o) output=$2 ;;
    esac
    shift
done
printf '#!/bin/sh\\nexit 77\\n' >"$output"
chmod +x "$output"
"""
NO_TEXT = "dist/ has no text of it for this computer ({})"
OF_32_BITS = "cc makes programs for another processor than x86_64, or of 32 bits"
COMPILED = "so the C of bindings/portable/ is compiled"
FEATURES = "processor\t: 0\nflags\t\t: fpu sse sse2 pni ssse3 cx16 sse4_1 sse4_2 popcnt lahf_lm abm\n"


def is_of_level():
    with open("/proc/cpuinfo", encoding="utf-8") as file:
        return " popcnt " in file.read()


class Case(unittest.TestCase):
    """A test with a copy of the repository, and with a PATH of its own."""

    def setUp(self):
        room = tempfile.TemporaryDirectory()
        self.addCleanup(room.cleanup)
        self.room = room.name
        self.top = os.path.join(room.name, "repository")
        copy_repository(self.top)
        self.bin = os.path.join(room.name, "bin")
        os.mkdir(self.bin)
        for name in TOOLS:
            os.symlink(shutil.which(name), os.path.join(self.bin, name))
        self.log = os.path.join(room.name, "log")
        self.write("cc", COMPILER.format(log=self.log, room=room.name))
        self.write("ar", '#!/bin/sh\n: >"$2"\n')
        self.be("Linux", "x86_64")
        self.before = []

    def write(self, name, text):
        path = os.path.join(self.bin, name)
        with open(path, "w", encoding="utf-8") as file:
            file.write(text)
        os.chmod(path, 0o755)

    def mark(self, name):
        """Makes a file that the compiler looks for."""
        open(os.path.join(self.room, name), "w", encoding="utf-8").close()

    def be(self, system, processor):
        self.write("uname", f"#!/bin/sh\necho {system} {processor}\n")

    def be_older(self):
        """Of the features that the kernel lists one is missing, for what runs with other mounts."""
        cpuinfo = os.path.join(self.room, "cpuinfo")
        with open(cpuinfo, "w", encoding="utf-8") as file:
            file.write(FEATURES.replace(" sse4_2 ", " "))
        unshare, shell, mount = (shutil.which(name) or name for name in ("unshare", "sh", "mount"))
        line = f'{mount} --bind {cpuinfo} /proc/cpuinfo && exec "$@"'
        self.before = [unshare, "--mount", "--map-root-user", shell, "-c", line, shell]
        try:
            subprocess.run([*self.before, shell, "-c", ""], check=True, capture_output=True)
        except (OSError, subprocess.CalledProcessError):
            self.skipTest("unshare, or the right to mount, is not here")

    def run_words(self, *words, **variables):
        environment = {"PATH": self.bin, "HOME": self.room, **variables}
        words = [*self.before, *words]
        ended = subprocess.run(words, env=environment, cwd=self.top, capture_output=True, text=True)
        return ended.returncode, ended.stderr

    def compiled(self):
        """What was handed to the compiler since this was asked last."""
        if not os.path.exists(self.log):
            return ""
        with open(self.log, encoding="utf-8") as file:
            text = file.read()
        os.remove(self.log)
        return text

    def assert_compiles(self, reason, **variables):
        status, said = self.run_words("./jbig2-decode", **variables)
        self.assertEqual(status, 77, said)
        self.assertIn(f"jbig2-decode: {reason}, {COMPILED}", said)
        self.assertEqual(said.count("\n"), 1)
        self.assertIn("bindings/portable/hayro_jbig2_module.c", self.compiled())
        # The next run compiles nothing and says nothing.
        self.assertEqual(self.run_words("./jbig2-decode", **variables), (77, ""))
        self.assertNotIn("hayro_jbig2_module.c", self.compiled())


class Program(Case):
    def test_another_processor_or_system(self):
        for system in ("Linux", "riscv64"), ("Darwin", "arm64"), ("FreeBSD", "amd64"), ("Linux", "i686"):
            with self.subTest(system):
                # What the computer before it has left in the same folder is another one's.
                self.be(*system)
                self.assert_compiles(NO_TEXT.format(" ".join(system)))

    def test_the_text_comes_first(self):
        for processor in "x86_64", "aarch64":
            with self.subTest(processor):
                if processor == "x86_64" and not is_of_level():
                    self.skipTest("this processor is older")
                self.be("Linux", processor)
                self.assertEqual(self.run_words("./jbig2-decode"), (77, ""))
                compiled = self.compiled()
                self.assertIn(f"dist/{processor}/jbig2-decode.s", compiled)
                self.assertNotIn("hayro_jbig2_module.c", compiled)
                # Another program follows at once where the reasons change.
                self.assert_compiles("HAYRO_JBIG2_PORTABLE is 1", HAYRO_JBIG2_PORTABLE="1")
                shutil.rmtree(os.path.join(self.top, "dist", "out"))

    def test_an_older_processor(self):
        self.be_older()
        self.assert_compiles("this processor is below the level x86-64-v2")

    def test_another_c_library(self):
        self.mark("musl")
        self.assert_compiles("its text in dist/ needs the GNU C library (glibc) 2.33 or later")

    def test_another_c_library_of_this_computer(self):
        """As a container has that shares the folder."""
        self.be("Linux", "riscv64")
        for version in "glibc 2.41", "glibc 2.36":
            self.write("getconf", f"#!/bin/sh\necho {version}\n")
            self.assert_compiles(NO_TEXT.format("Linux riscv64"))

    def test_a_system_of_32_bits(self):
        self.mark("bits32")
        self.assert_compiles(OF_32_BITS)

    def test_no_compiler(self):
        os.remove(os.path.join(self.bin, "cc"))
        for system in ("Linux", "x86_64"), ("Linux", "riscv64"):
            self.be(*system)
            status, said = self.run_words("./jbig2-decode")
            self.assertEqual(status, 1)
            self.assertIn("there is no C compiler (cc gcc clang): install one, or set CC to its name", said)
            self.assertNotIn("half an hour", said)

    def test_no_folder_and_the_cache(self):
        self.be("Linux", "riscv64")
        # A file where a folder would be made, which stops the superuser too.
        open(os.path.join(self.top, "dist", "out"), "w", encoding="utf-8").close()
        self.assert_compiles(NO_TEXT.format("Linux riscv64"))
        self.assertTrue(os.path.isdir(os.path.join(self.room, ".cache", "hayro_jbig2")))
        status, said = self.run_words("./jbig2-decode", HOME="/dev/null")
        self.assertEqual(status, 1)
        self.assertIn("no folder for it can be written", said)

    def test_what_another_computer_proved(self):
        """Which has the same folder."""
        proved = os.path.join(self.top, "crates", "jbig2_decode", "out", "jbig2_decode")
        os.makedirs(os.path.dirname(proved))
        with open(proved, "w", encoding="utf-8") as file:
            file.write("#!/bin/sh\nexit 78\n")
        os.chmod(proved, 0o755)
        self.be("Linux", "riscv64")
        self.assert_compiles(NO_TEXT.format("Linux riscv64"))
        if not is_of_level():
            self.skipTest("this processor is older")
        self.be("Linux", "x86_64")
        self.assertEqual(self.run_words("./jbig2-decode"), (78, ""))

    def test_no_c_of_a_program(self):
        """bindings/portable/ has jbig2-decode alone."""
        with open(os.path.join(self.top, "crates.txt"), "a", encoding="utf-8") as file:
            file.write("jbig2_bench:\n")
        shutil.copytree(*(os.path.join(self.top, "crates", name) for name in ("jbig2_decode", "jbig2_bench")))
        sums = '. tools/build/crates.sh && list_crates jbig2_bench && sums_of_crates "${crates[@]}" >>dist/SOURCES'
        self.assertEqual(self.run_words("bash", "-c", sums)[0], 0)
        status, said = self.run_words("tools/build/program", "jbig2-bench", HAYRO_JBIG2_PORTABLE="1")
        self.assertEqual(status, 1)
        self.assertIn("jbig2-bench: HAYRO_JBIG2_PORTABLE is 1, and bindings/portable/ has no C of it", said)

    def test_changed_sources(self):
        self.be("Linux", "riscv64")
        with open(os.path.join(self.top, "crates/jbig2_mmr/src/lib.rt"), "a", encoding="utf-8") as file:
            file.write("// Another.\n")
        status, said = self.run_words("./jbig2-decode")
        self.assertEqual(status, 1)
        self.assertIn("its command rt is not on the PATH", said)


class Test(Case):
    """tools/test says what it lacks, and tries nothing."""

    def test_what_it_runs_is_there(self):
        with open(os.path.join(ROOT, "tools", "test"), encoding="utf-8") as file:
            names = set(re.findall(r'"\$root/([\w./-]+)"', file.read()))
        self.assertGreater(len(names), 10)
        self.assertEqual([name for name in names if not os.path.exists(os.path.join(ROOT, name))], [])

    def assert_says(self, words):
        shutil.copy(os.path.join(ROOT, "tools", "test"), os.path.join(self.top, "tools"))
        self.assertEqual(self.run_words("tools/test"), (1, words + "\n"))

    def test_no_compiler(self):
        os.remove(os.path.join(self.bin, "cc"))
        self.assert_says("there is no C compiler (cc gcc clang): install one, or set CC to its name")

    def test_no_python(self):
        self.assert_says("tools/test needs Python 3.10 or later: python3 is not on the PATH, or is older")

    def test_an_older_python(self):
        self.write("python3", "#!/bin/sh\n# Of an older version, by what it says.\nexit 1\n")
        self.assert_says("tools/test needs Python 3.10 or later: python3 is not on the PATH, or is older")

    def test_no_folder(self):
        os.symlink(sys.executable, os.path.join(self.bin, "python3"))
        open(os.path.join(self.top, "bindings", "c", "out"), "w", encoding="utf-8").close()
        self.assert_says("tools/test builds in bindings/c/out, which can't be written: take a copy of the repository that can be")


class Style(unittest.TestCase):
    def test_a_clone_of_somebody_else(self):
        """git refuses it, for example where a container has the folder."""
        with tempfile.TemporaryDirectory() as room:
            with open(os.path.join(room, "git"), "w", encoding="utf-8") as file:
                file.write("#!/bin/sh\necho fatal: detected dubious ownership >&2\nexit 128\n")
            os.chmod(file.name, 0o755)
            environment = {**os.environ, "PATH": f"{room}:{os.environ['PATH']}"}
            words = [os.path.join(ROOT, "tools", "check-style")]
            ended = subprocess.run(words, env=environment, capture_output=True, text=True)
        self.assertEqual((ended.returncode, ended.stdout), (0, "git or its history is not here: no file was looked at\n"))


class Portable(Case):
    def test_the_library_of_plain_c(self):
        """bindings/portable/build and CMakeLists.txt have each file of C that the README's command has."""
        self.assertEqual(self.run_words("bindings/portable/build", CFLAGS="-Os"), (0, ""))
        folder, compiled = os.path.realpath(os.path.join(self.top, "bindings", "portable")), self.compiled()
        self.assertTrue(os.path.exists(os.path.join(folder, "out", "libhayro_jbig2.a")))
        with open(os.path.join(folder, "CMakeLists.txt"), encoding="utf-8") as file:
            listed = re.search(r"add_library\(([^)]*)\)", file.read())[1].split()[2:]
        names = sorted(name for name in os.listdir(folder) if name.endswith(".c")) + ["../c/handles.c", "../c/texts.c"]
        self.assertEqual(sorted(listed), sorted(names))
        for name in names:
            self.assertIn(f" -c {os.path.normpath(os.path.join(folder, name))} ", compiled)
        self.assertEqual(compiled.count("-Os -std=c99 "), len(names))


class Library(Case):
    def assert_compiles(self, reason, words=("--text",)):
        status, said = self.run_words("bindings/c/build", *words)
        self.assertEqual(status, 0, said)
        self.assertIn(f"bindings/c/build: {reason}, {COMPILED}", said)
        self.assertIn("bindings/portable/hayro_jbig2_module.c", self.compiled())
        for name in "libhayro_jbig2.a", "libhayro_jbig2.so.0":
            self.assertTrue(os.path.exists(os.path.join(self.top, "bindings", "c", "out", name)))

    def test_another_processor(self):
        self.be("Linux", "riscv64")
        self.assert_compiles(NO_TEXT.format("Linux riscv64"))

    def test_a_system_of_32_bits(self):
        self.mark("bits32")
        self.assert_compiles(OF_32_BITS)

    def test_what_was_proved_here(self):
        """It is taken without the toolchain, but not on another computer that has the same folder."""
        os.mkdir(os.path.join(self.top, "bindings", "c", "source"))
        line = ". tools/build/crates.sh && print_sources_of_c | tee -a dist/SOURCES >bindings/c/out/proved/SOURCES"
        subprocess.run(["bash", "-c", f"mkdir -p bindings/c/out/proved && {line}"], cwd=self.top, check=True)
        open(os.path.join(self.top, "bindings", "c", "out", "proved", "x86_64.o"), "w", encoding="utf-8").close()
        self.be("Linux", "riscv64")
        self.assert_compiles(NO_TEXT.format("Linux riscv64"), words=())
        if not is_of_level():
            self.skipTest("this processor is older")
        self.be("Linux", "x86_64")
        self.assertEqual(self.run_words("bindings/c/build"), (0, ""))
        compiled = self.compiled()
        self.assertIn("./proved.x86_64.o", compiled)
        self.assertNotIn("libhayro_jbig2.s ", compiled)

    def test_no_compiler(self):
        os.remove(os.path.join(self.bin, "cc"))
        self.be("Linux", "riscv64")
        status, said = self.run_words("bindings/c/build", "--text")
        self.assertEqual(status, 1)
        self.assertIn("there is no C compiler", said)

    def test_an_older_processor(self):
        self.be_older()
        status, said = self.run_words("bindings/c/build", "--text")
        self.assertEqual(status, 0, said)
        self.assertIn(f"bindings/c/build: this processor is below the level x86-64-v2, {COMPILED}", said)


class Level(Case):
    """Whether a processor is of the level x86-64-v2, by what the kernel lists."""

    def has_level(self, text):
        path = os.path.join(self.room, "cpuinfo")
        with open(path, "w", encoding="utf-8") as file:
            file.write(text)
        line = f"dist=$PWD/dist; . tools/build/assembling.sh; has_level {path}"
        return self.run_words("bash", "-c", line)[0] == 0

    def test_features(self):
        self.assertTrue(self.has_level(FEATURES))
        for name in "pni", "ssse3", "sse4_1", "sse4_2", "popcnt", "cx16", "lahf_lm":
            self.assertFalse(self.has_level(FEATURES.replace(f" {name} ", " ")), name)
        self.assertTrue(self.has_level("processor : 0\n"), "where no features are listed, the program itself looks")


if __name__ == "__main__":
    unittest.main()
