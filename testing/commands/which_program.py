"""Runs ./jbig2-decode of a small copy of the repository: which program it takes after updates, what it says without one.

usage: python3 -m testing.commands.which_program [-v] [NAME ..]
"""
import os
import shutil
import subprocess
import tempfile
import time
import unittest

from testing.commands.files import ROOT

USAGE = "usage: jbig2-decode "
PROCESSOR = os.uname().machine
NOBODY = 65534
# Stands for the toolchain: notes each proof, and makes the program.
RT = """#!/bin/sh
[ "$1" != version ] || exec echo {name}
echo "$@" >>{log}
[ "$1" != run ] || {{ printf '#!/bin/sh\\nexit 77\\n' >out/${{PWD##*/}}; chmod +x out/${{PWD##*/}}; }}
"""
EMPTIES_A_LINE = """
#include <stdio.h>
#include <sys/types.h>
ssize_t __real_getdelim(char **line, size_t *room, int end, FILE *file);
ssize_t __wrap_getdelim(char **line, size_t *room, int end, FILE *file) {
    ssize_t length = __real_getdelim(line, room, end, file);
    if (length < 0 && *line != NULL)
        **line = 0;
    return length;
}
"""
# Stands for another computer's C library.
ANOTHER_LIBRARY = 'const char *gnu_get_libc_version(void) { return "2.99"; }\n'
# A time before any build here.
LONG_AGO = 1_500_000_000


PARTS = ("jbig2_base", "jbig2_mmr", "jbig2_decode")
CRATES = """\
jbig2_base:
jbig2_mmr: jbig2_base
jbig2_decode: jbig2_mmr
"""
SUMS = '. tools/build/crates.sh && list_crates jbig2_decode && sums_of_crates "${crates[@]}" >dist/SOURCES'


def copy_repository(to):
    """Copies what ./jbig2-decode reads, with a few small sources in place of the crates', whose sums SOURCES has."""
    shutil.copytree(os.path.join(ROOT, "dist"), os.path.join(to, "dist"), ignore=shutil.ignore_patterns("out"))
    shutil.copy(os.path.join(ROOT, "jbig2-decode"), to)
    without = shutil.ignore_patterns("out", "source", "tool", "tests", "wrong-bodies")
    for folder in "bindings/c", "bindings/portable", "tools/build":
        shutil.copytree(os.path.join(ROOT, folder), os.path.join(to, folder), ignore=without)
    texts = {"crates.txt": CRATES, **{f"crates/{name}/src/lib.rt": f"// {name}\n" for name in PARTS}}
    texts["crates/jbig2_base/specs/Lib.antt"] = "-- Definitions.\n"
    for name, text in texts.items():
        path = os.path.join(to, name)
        os.makedirs(os.path.dirname(path), exist_ok=True)
        with open(path, "w", encoding="utf-8") as file:
            file.write(text)
    subprocess.run(["bash", "-c", SUMS], cwd=to, check=True)


@unittest.skipUnless(os.path.exists(f"{ROOT}/dist/{PROCESSOR}/jbig2-decode.s"), "no text for this computer")
class Case(unittest.TestCase):
    """A test with a copy of the repository."""

    def setUp(self):
        room = tempfile.TemporaryDirectory()
        self.addCleanup(room.cleanup)
        os.chmod(room.name, 0o755)
        self.room = room.name
        self.top = os.path.join(room.name, "repository")
        copy_repository(self.top)

    def path(self, *names):
        return os.path.join(self.top, *names)

    @property
    def program(self):
        return self.path("dist", "out", "jbig2-decode")

    def run_script(self, *words, user=None, **changed):
        """The status and what is written to standard error. `changed` are variables of the environment, or None."""
        cache = os.path.join(self.room, "cache")
        usual = {"JBIG2_PROVE": "0", "XDG_CACHE_HOME": cache, **dict.fromkeys(("CC", "PROCESSOR", "HAYRO_JBIG2_PORTABLE"))}
        variables = {**os.environ, **usual, **changed}
        environment = {name: value for name, value in variables.items() if value is not None}
        who = {} if user is None or os.geteuid() != 0 else {"user": user, "group": user, "extra_groups": []}
        ended = subprocess.run(
            [self.path("jbig2-decode"), *words], env=environment, capture_output=True, text=True, cwd="/", **who
        )
        return ended.returncode, ended.stderr

    def assert_runs(self, **changed):
        status, said = self.run_script(**changed)
        self.assertEqual(status, 2, said)
        self.assertTrue(said.startswith(USAGE), said)

    def assert_says(self, words, **changed):
        """It ends, says that, and promises no proof."""
        status, said = self.run_script(**changed)
        self.assertEqual(status, 1, said)
        self.assertIn(words, said)
        self.assertNotIn("half an hour", said)

    def update(self, name, change):
        """Changes a file as an archive does, which keeps the time that the file had elsewhere."""
        path = self.path(name)
        with open(path, encoding="utf-8") as file:
            text = file.read()
        with open(path + ".new", "w", encoding="utf-8") as file:
            file.write(change(text))
        os.rename(path + ".new", path)
        for name in path, os.path.dirname(path):
            os.utime(name, (LONG_AGO, LONG_AGO))


class Updates(Case):
    def test_it_is_built_once(self):
        self.assert_runs()
        built = os.stat(self.program)
        self.assert_runs()
        # The parts are the same, whatever their times.
        os.utime(self.path("tools", "build", "linked", "words.c"))
        self.assert_runs()
        self.assertEqual(os.stat(self.program), built)

    def test_a_text_with_an_older_time(self):
        self.assert_runs()
        text = f"dist/{PROCESSOR}/jbig2-decode.s"
        self.update(text, lambda text: text.replace("cannot read file", "cannot READ file"))
        self.assertEqual(self.run_script("pages", "/no such file"), (1, "error: cannot READ file\n"))

    def test_c_with_an_older_time(self):
        for name in "words.c", "heap.c":
            self.assert_runs()
            before = os.stat(self.program).st_ino, os.stat(self.program).st_mtime_ns
            self.update(f"tools/build/linked/{name}", lambda text, name=name: text + f"\nint another_{name[0]};\n")
            self.assert_runs()
            self.assertNotEqual((os.stat(self.program).st_ino, os.stat(self.program).st_mtime_ns), before, name)

    def test_another_compiler(self):
        log = os.path.join(self.room, "log")
        compiler = os.path.join(self.room, "another-cc")
        with open(compiler, "w", encoding="utf-8") as file:
            file.write(f'#!/bin/sh\necho called >>{log}\nexec cc "$@"\n')
        os.chmod(compiler, 0o755)
        self.assert_runs()
        self.assert_runs(CC=compiler)
        self.assertTrue(os.path.exists(log))

    def test_an_interrupted_build_leaves_nothing(self):
        compiler = os.path.join(self.room, "interrupting-cc")
        for name in "INT", "TERM":
            with open(compiler, "w", encoding="utf-8") as file:
                file.write(f"#!/bin/sh\nkill -{name} 0\n")
            os.chmod(compiler, 0o755)
            how = {"env": {**os.environ, "JBIG2_PROVE": "0", "CC": compiler}, "start_new_session": True}
            ended = subprocess.run([self.path("jbig2-decode")], capture_output=True, check=False, **how)
            self.assertNotEqual(ended.returncode, 0)
            out = self.path("dist", "out")
            self.assertEqual(os.listdir(out) if os.path.isdir(out) else [], [], name)

    def test_a_source_with_an_older_time(self):
        self.assert_runs()
        source = "crates/jbig2_mmr/src/lib.rt"
        self.update(source, lambda text: text + "\n// Another.\n")
        self.assert_says("those of jbig2_mmr were changed")
        self.assert_says("it would have to be proved first")
        self.update(source, lambda text: text.removesuffix("\n// Another.\n"))
        self.assert_runs()

    def test_sources_that_come_and_go(self):
        self.assert_runs()
        new, old = self.path("crates/jbig2_mmr/src/new.rt"), self.path("crates/jbig2_base/specs/Lib.antt")
        with open(new, "w", encoding="utf-8") as file:
            file.write("// New.\n")
        os.utime(new, (LONG_AGO, LONG_AGO))
        self.assert_says("those of jbig2_mmr were changed")
        os.remove(new)
        self.assert_runs()
        os.remove(old)
        self.assert_says("those of jbig2_base were changed")

    def test_a_damaged_program(self):
        self.assert_runs()
        with open(self.program, "r+b") as file:
            file.write(b"damaged")
        self.assert_runs()

    def toolchain(self, name):
        """A folder with a toolchain of this name."""
        folder = os.path.join(self.room, name)
        os.makedirs(folder, exist_ok=True)
        with open(os.path.join(folder, "rt"), "w", encoding="utf-8") as file:
            file.write(RT.format(log=os.path.join(self.room, "log"), name=name))
        os.chmod(file.name, 0o755)
        return folder

    def prove(self, *folders):
        """Has the first of these toolchains prove the program where that is needed."""
        path = ":".join([*folders, os.environ["PATH"]])
        self.assertEqual(self.run_script(JBIG2_PROVE="1", PATH=path)[0], 77)

    def test_it_is_proved_again_after_an_update(self):
        first, second, third = self.toolchain("first"), self.toolchain("second"), os.path.join(self.room, "third")

        def proof_count(*folders):
            self.prove(*folders or [first])
            with open(os.path.join(self.room, "log"), encoding="utf-8") as file:
                return len(file.readlines())

        # Two libraries and the program.
        self.assertEqual([proof_count(), proof_count()], [3, 3])
        self.update("crates/jbig2_mmr/src/lib.rt", lambda text: text + "// Another.\n")
        self.assertEqual([proof_count(), proof_count()], [6, 6])
        # Another toolchain, and one that takes the place of it.
        self.assertEqual([proof_count(second), proof_count(second)], [9, 9])
        shutil.copy(os.path.join(first, "rt"), second)
        self.assertEqual([proof_count(second), proof_count(second)], [12, 12])
        # One that comes before it on the same PATH.
        self.assertEqual(proof_count(third, second), 12)
        self.toolchain("third")
        self.assertEqual([proof_count(third, second), proof_count(third, second)], [15, 15])

    def test_a_program_that_the_gate_built_of_other_sources(self):
        """They are then as they were when the program before it was proved."""
        first = self.toolchain("first")
        self.prove(first)
        with open(self.path("crates", "jbig2_decode", "out", "jbig2_decode"), "w", encoding="utf-8") as file:
            file.write("#!/bin/sh\nexit 78\n")
        self.update("crates/jbig2_mmr/src/lib.rt", lambda text: text)
        self.assert_runs(PATH=f"{first}:{os.environ['PATH']}")
        self.prove(first)

    @unittest.skipUnless(PROCESSOR == "x86_64", "programs are proved for x86-64 alone")
    def test_a_program_that_the_gate_built_before_the_toolchain_came(self):
        proved = self.path("crates", "jbig2_decode", "out", "jbig2_decode")
        os.makedirs(os.path.dirname(proved))
        with open(proved, "w", encoding="utf-8") as file:
            file.write("#!/bin/sh\nexit 78\n")
        os.chmod(proved, 0o755)
        # Longer than a step of the clock by which files have their times.
        time.sleep(0.1)
        self.prove(self.toolchain("first"))

    @unittest.skipUnless(PROCESSOR == "x86_64", "programs are proved for x86-64 alone")
    def test_a_proved_program_and_an_older_source(self):
        proved = self.path("crates", "jbig2_decode", "out", "jbig2_decode")
        os.makedirs(os.path.dirname(proved))
        with open(proved, "w", encoding="utf-8") as file:
            file.write("#!/bin/sh\nexit 77\n")
        os.chmod(proved, 0o755)
        self.assertEqual(self.run_script()[0], 77)
        self.update("crates/jbig2_mmr/src/lib.rt", lambda text: text)
        self.assert_runs()


class Toolchains(Case):
    def test_what_another_toolchain_proved_is_proved_anew(self):
        """The note of what was proved names the toolchain. That here proves nothing, so who begins to prove fails."""
        programs = os.path.join(self.room, "bin")
        for folder in programs, self.path("bindings", "c", "source"):
            os.mkdir(folder)
        rt = os.path.join(programs, "rt")
        with open(rt, "w", encoding="utf-8") as file:
            file.write(f'#!/bin/sh\ncase $1 in version) echo "$NAME" ;; doc) echo {programs}/doc ;; *) exit 1 ;; esac\n')
        os.chmod(rt, 0o755)
        parts = {"bindings/c/prove": ("print_sources_of_c", "bindings/c/out"),
                 "tools/build/prove-elsewhere": ("print_sources_elsewhere", "dist/out")}
        for script, (printer, out) in parts.items():
            words = ["bash", "-c", f". tools/build/crates.sh && {printer}"]
            sources = subprocess.run(words, cwd=self.top, capture_output=True, text=True, check=True).stdout
            os.makedirs(self.path(out, "proved"), exist_ok=True)
            with open(self.path(out, "proved", "SOURCES"), "w", encoding="utf-8") as file:
                file.write(f"toolchain the first\n{sources}")
            for name, is_proved in ("the first", True), ("the second", False):
                variables = {**os.environ, "PATH": f"{programs}:{os.environ['PATH']}", "NAME": name}
                ended = subprocess.run([self.path(script)], env=variables, capture_output=True, text=True, check=False)
                self.assertEqual(ended.returncode == 0, is_proved, (script, name, ended.stderr))


class Notes(Case):
    """What is noted, so that the next run sums up nothing, and what makes a run sum it all up again."""

    def setUp(self):
        super().setUp()
        self.log = os.path.join(self.room, "log")
        self.sum = os.path.join(self.room, "bin", "sha256sum")
        os.mkdir(os.path.dirname(self.sum))
        with open(self.sum, "w", encoding="utf-8") as file:
            file.write(f'#!/bin/sh\necho called >>{self.log}\nexec {shutil.which("sha256sum")} "$@"\n')
        os.chmod(self.sum, 0o755)

    def sums_up(self, **changed):
        """Whether a run, which goes well, sums anything up."""
        self.assert_runs(PATH=f"{os.path.dirname(self.sum)}:{os.environ['PATH']}", **changed)
        if not os.path.exists(self.log):
            return False
        os.remove(self.log)
        return True

    def assert_is_seen(self, name, change):
        """A change is seen once."""
        self.sums_up()
        self.assertFalse(self.sums_up(), name)
        change(self.path(*name.split("/")))
        self.assertTrue(self.sums_up(), name)
        self.assertFalse(self.sums_up(), name)

    def test_a_change_of_any_file(self):
        def change(path):
            with open(path, "r+b") as file:
                content = file.read()
                file.seek(0)
                file.write(content)
            os.utime(path, (LONG_AGO, LONG_AGO))

        names = "crates/jbig2_base/specs/Lib.antt crates/jbig2_decode/src/lib.rt crates.txt bindings/c/crate.txt dist/SOURCES " \
                "tools/build/program"
        tools = "tools/build/assembling.sh tools/build/crates.sh tools/build/level.sh tools/build/unchanged.c " \
                "tools/build/linked/words.c bindings/c/handles.c bindings/portable/handles.c"
        for name in f"{names} {tools} dist/{PROCESSOR}/jbig2-decode.s".split():
            self.assert_is_seen(name, change)

    def test_a_file_that_came(self):
        def come(path):
            os.makedirs(os.path.dirname(path), exist_ok=True)
            open(path, "wb").close()

        self.assert_is_seen("bindings/portable/new.h", come)
        self.assert_is_seen("crates/jbig2_base/out/note", come)
        self.assert_is_seen(f"dist/{PROCESSOR}/other.s", come)
        for name in "specs/inner/New.antt", "proofs/New.antt":
            self.sums_up()
            come(self.path("crates", "jbig2_mmr", *name.split("/")))
            self.assert_says("those of jbig2_mmr were changed")
            shutil.rmtree(self.path("crates", "jbig2_mmr", name.split("/")[0]))

    def test_a_file_whose_state_is_unknown(self):
        """Sums are taken as long as a link leads to itself."""
        os.symlink("loop.h", self.path("bindings", "portable", "loop.h"))
        self.sums_up()
        self.assertTrue(self.sums_up())
        os.remove(self.path("bindings", "portable", "loop.h"))
        self.assertTrue(self.sums_up())
        self.assertFalse(self.sums_up())

    def test_the_program_and_what_compares(self):
        self.assert_is_seen("dist/out/jbig2-decode", lambda path: os.chmod(path, 0o644))
        self.assert_is_seen("dist/out/jbig2-decode", os.remove)
        self.assert_is_seen("dist/out/jbig2-decode.seen", os.remove)
        self.assert_is_seen("dist/out/unchanged", os.remove)
        self.assert_is_seen("dist/out/unchanged", lambda path: os.truncate(path, 1000))

    def test_another_c_library(self):
        """As a container has that shares the folder."""
        source, library = (os.path.join(self.room, name) for name in ("another.c", "another.so"))
        with open(source, "w", encoding="utf-8") as file:
            file.write(ANOTHER_LIBRARY)
        subprocess.run(["cc", "-shared", "-fPIC", source, "-o", library], check=True)
        self.sums_up()
        self.assertFalse(self.sums_up())
        self.assertTrue(self.sums_up(LD_PRELOAD=library))
        self.assertFalse(self.sums_up(LD_PRELOAD=library))
        self.assertTrue(self.sums_up())

    def test_a_note_that_was_cut_off(self):
        self.assert_runs()
        note = self.path("dist", "out", "jbig2-decode.seen")
        with open(note, "rb") as file:
            lines = file.readlines()
        self.assertFalse(self.sums_up())
        for count in *range(0, len(lines), 9), len(lines) - 2, len(lines) - 1:
            with open(note, "wb") as file:
                file.write(b"".join(lines[:count]))
            self.assertTrue(self.sums_up(), count)

    def test_a_note_that_was_cut_off_where_the_end_of_a_file_empties_a_line(self):
        """As the C library of BSD does."""
        wrapper, program, note = (os.path.join(self.room, name) for name in ("wrapper.c", "unchanged", "note"))
        with open(wrapper, "w", encoding="utf-8") as file:
            file.write(EMPTIES_A_LINE)
        words = ["-Wl,--wrap=getdelim", self.path("tools", "build", "unchanged.c"), wrapper, "-o", program]
        subprocess.run(["cc", *words], check=True)
        names = f"{wrapper}\0".encode()
        made = subprocess.run([program], input=names, capture_output=True, check=True).stdout.decode()
        for end, status in {"\n": 0, "": 1}.items():
            with open(note, "w", encoding="utf-8") as file:
                file.write(f"facts\n{program}\n{made}{end}")
            ended = subprocess.run([program, note, "facts"], capture_output=True, check=False)
            self.assertEqual(ended.returncode, status)

    def test_a_copy_and_another_place(self):
        self.assert_runs()
        first, copy, moved = self.top, f"{self.top}-copy", f"{self.top}-moved"
        shutil.copytree(first, copy)
        self.top = copy
        self.update("crates/jbig2_mmr/src/lib.rt", lambda text: text + "// Another.\n")
        self.assert_says("those of jbig2_mmr were changed")
        # Another repository lies where the noted one was.
        os.rename(first, moved)
        os.rename(copy, first)
        self.top = first
        self.assert_says("those of jbig2_mmr were changed")
        self.top = moved
        self.assert_runs()


class Messages(Case):
    def test_no_compiler(self):
        self.assert_says("there is no C compiler (/no/such/cc)", CC="/no/such/cc")

    def test_no_compiler_is_needed_for_what_is_built(self):
        self.assert_runs()
        os.utime(self.path("tools", "build", "linked", "heap.c"))
        self.assert_runs(CC="/no/such/cc")

    def test_no_toolchain(self):
        self.update("crates/jbig2_mmr/src/lib.rt", lambda text: text + "\n// Another.\n")
        programs = os.path.join(self.room, "bin")
        os.mkdir(programs)
        for name in "bash env readlink uname find cmp sha256sum sort xargs cut grep cat mkdir mktemp head".split():
            os.symlink(shutil.which(name), os.path.join(programs, name))
        self.assert_says("its command rt is not on the PATH", JBIG2_PROVE=None, PATH=programs)


class Folders(Case):
    """The repository belongs to somebody else."""

    def setUp(self):
        # Whatever its user's mask is, others may read.
        self.addCleanup(os.umask, os.umask(0o022))
        super().setUp()
        subprocess.run(["chmod", "-R", "a+rX", self.top], check=True)
        self.home = os.path.join(self.room, "home")
        os.mkdir(self.home)

    def close_folders(self):
        if os.geteuid() == 0:
            os.chown(self.home, NOBODY, NOBODY)
        for folder in self.path("dist", "out"), self.path("dist"):
            if os.path.isdir(folder):
                os.chmod(folder, 0o555)
                self.addCleanup(os.chmod, folder, 0o755)

    def test_it_is_built_in_the_cache(self):
        self.close_folders()
        folder = os.path.join(self.home, ".cache", "hayro_jbig2") + os.path.realpath(self.top)
        for _ in range(2):
            self.assert_runs(user=NOBODY, HOME=self.home, XDG_CACHE_HOME=None)
            self.assertTrue(os.access(os.path.join(folder, "jbig2-decode"), os.X_OK))
        self.assertFalse(os.path.exists(self.path("dist", "out")))

    @unittest.skipUnless(os.geteuid() == 0, "only the superuser can be another user")
    def test_it_is_built_where_the_noted_one_is_closed(self):
        self.assert_runs()
        os.chmod(self.program, 0o700)
        self.close_folders()
        self.assert_runs()
        self.assert_runs(user=NOBODY, HOME=self.home, XDG_CACHE_HOME=None)

    def test_there_is_no_cache(self):
        self.close_folders()
        for home in "/no/such/home", None:
            for cache in None, "relative":
                self.assert_says("no folder for it can be written", user=NOBODY, HOME=home, XDG_CACHE_HOME=cache)

    def test_it_was_built_by_the_owner(self):
        self.assert_runs()
        self.close_folders()
        nowhere = {"user": NOBODY, "HOME": "/no/such/home", "XDG_CACHE_HOME": None}
        self.assert_runs(**nowhere)
        if os.geteuid() == 0:
            os.utime(self.path("tools", "build", "linked", "heap.c"))
            self.assert_runs(**nowhere, CC="/no/such/cc")


if __name__ == "__main__":
    unittest.main()
