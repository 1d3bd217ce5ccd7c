"""The library for C, and what is built over it: C, C++, Rust and Python programs, linked and run.

`rt ci` builds no static library, so these checks are made where `tools/build --library` made one, or where they are asked
for by name: `tests/run library` then builds it first. A check whose tool is not there is left out by its name. Where all
pass, `tests/run library` keeps over which sources they did (`tests/library/passed.json`), which the gate compares.

Where the variable INPUTPLAY_LIB_DIR names a folder, the libraries that lie there are checked. Nothing is built then, and
nothing is kept, since they may be of other sources.
"""

import os
import re
import shutil
import subprocess
import sys
import unittest
from importlib.util import find_spec
from pathlib import Path

from tests.library import declared, stamp
from tests.playing import EXAMPLES, RECORDS, TOP, FolderCase

NAMED = os.environ.get("INPUTPLAY_LIB_DIR")
BUILT = Path(NAMED or TOP / "out" / "library").resolve()
ARCHIVE = TOP / "crates" / "inp_c" / "out" / "libinp_c.a"
HERE = TOP / "tests" / "library"
HEADER = (TOP / "include" / "inputplay.h").read_text()
CRATE = TOP / "crates" / "inp_c"
PYTHON = TOP / "bindings" / "python"
SECONDS = 300

STUCK_KEY = """the key is up
a program that ignores SYN_DROPPED: down
a program that asks for the keys: up
the reader of the library: up
"""


def run(command, **more):
    """Runs a command, and gives its status and what it wrote."""
    words = [str(word) for word in command]
    return subprocess.run(words, capture_output=True, text=True, timeout=SECONDS, check=False, **more)


class Library(FolderCase):
    """What each check below needs: the libraries, linked anew from the archive."""

    tool = None

    def built(self, source, compiler, *flags):
        """A program of a source that is linked with the static library."""
        program = self.folder / source.stem
        words = [compiler, *flags, "-Wall", "-Wextra", "-Werror", f"-I{TOP / 'include'}", f"-I{HERE}"]
        done = run([*words, source, BUILT / "libinputplay.a", "-o", program])
        self.assertEqual((0, ""), (done.returncode, done.stderr))
        return program

    def stored(self, folder):
        """Each stored report of a folder's records, with the words by which the program prints it."""
        for record in sorted(folder.glob("*.rec")):
            for suffix, words in ((".report", []), (".history", ["--history"])):
                if record.with_suffix(suffix).exists():
                    yield record.with_suffix(suffix), [*words, record.name]

    def says(self, wanted, command, **more):
        """A command ends with status 0 and writes this."""
        done = run(command, **more)
        self.assertEqual((0, wanted), (done.returncode, done.stdout), done.stderr)


class Header(Library):
    tool = "gcc"

    def test_a_struct_has_the_size_that_the_crate_proves(self):
        source = self.folder / "sizes.c"
        lines = ['#include "inputplay.h"', "int main(void) { return 0; }"]
        proved = "".join(path.read_text() for path in (CRATE / "src").glob("*.rt"))
        for struct, file in declared.STRUCTS.items():
            name = re.search(r"pub struct (\w+)", (CRATE.parent / file).read_text())[1]
            size = re.search(rf"prove!\(size_of::<{name}>\(\) == (\d+)\)", proved)[1]
            lines.append(f'_Static_assert(sizeof({struct}) == {size}, "{struct}");')
        source.write_text("\n".join(lines) + "\n")
        self.built(source, "gcc", "-std=c11")

    def test_what_is_visible_is_what_is_declared(self):
        names = set(re.findall(r"^(?:uint32_t|void) (inputplay_\w+)\(", HEADER, re.M))
        for flag, file in (("-D", "libinputplay.so"), ("-g", "libinputplay.a")):
            came = re.findall(r"^[0-9a-f]+ T (\w+)$", run(["nm", flag, "--defined-only", BUILT / file]).stdout, re.M)
            self.assertEqual(sorted(names), sorted(came), file)

    def test_what_the_archive_wants_is_what_the_page_says(self):
        said = re.search(r"They want ([^.]*) of the C library", (TOP / "docs" / "LIBRARY.md").read_text())[1]
        wanted = re.findall(r"^ +U (\w+)$", run(["nm", "-u", BUILT / "libinputplay.a"]).stdout, re.M)
        self.assertEqual(sorted(re.findall(r"`(\w+)`", said)), sorted(wanted))

    def test_nothing_is_kept_outside_of_handles(self):
        """The archive has no data that can be written, but for what is read only once it is linked, and for one byte of the
        toolchain's, whose address stands for no block."""
        listed = run(["objdump", "-h", BUILT / "libinputplay.a"]).stdout
        sections = re.findall(r"^ *\d+ (\S+) +([0-9a-f]+) .*\n +(\S.*)$", listed, re.M)
        self.assertIn(".text", {name for name, _, _ in sections})
        kept = [(name, int(size, 16)) for name, size, flags in sections
                if int(size, 16) and "ALLOC" in flags and "READONLY" not in flags and not name.startswith(".data.rel.ro")]
        self.assertEqual([(".bss", 1)], kept)
        self.assertEqual(["nothing"], re.findall(r" [bB] (\w+)$", run(["nm", BUILT / "libinputplay.a"]).stdout, re.M))


class C(Library):
    tool = "gcc"

    def test_each_call_once(self):
        program = self.built(HERE / "calls.c", "gcc", "-std=c99")
        self.says("", [program])

    def test_a_reader_and_a_joystick_take_nothing_from_the_owner(self):
        self.says("", [self.built(HERE / "owner.c", "gcc", "-std=c99")])

    def test_a_record_line_by_line(self):
        self.says("", [self.built(HERE / "lines.c", "gcc", "-std=c99")])

    def test_null_beside_a_count_of_none_and_the_header_s_own(self):
        self.says("", [self.built(HERE / "nothing.c", "gcc", "-std=c99")])

    def test_a_device_of_a_struct_is_that_of_the_text_that_says_the_same(self):
        self.says("", [self.built(HERE / "described.c", "gcc", "-std=c99")])

    def test_a_device_takes_little_before_its_first_step(self):
        done = run([self.built(HERE / "memory.c", "gcc", "-std=c99")])
        most, addresses = map(int, done.stdout.split())
        self.assertTrue(0 < most < 1024, most)
        # (the history has its addresses at once, and its pages as they are written)
        self.assertGreater(addresses, 1048576 * 40 // 1024)

    def test_a_naive_reader_keeps_a_key_down_and_a_right_one_does_not(self):
        self.says(STUCK_KEY, [self.built(EXAMPLES / "c" / "stuck_key.c", "gcc", "-std=c99")])

    def test_a_record_has_the_report_that_the_program_prints(self):
        program = self.built(EXAMPLES / "c" / "play_record.c", "gcc", "-std=c99")
        for folder in (EXAMPLES, RECORDS):
            for report, words in self.stored(folder):
                with self.subTest(report=report.name):
                    self.says(report.read_text(), [program, *words], cwd=folder)

    def test_each_allocation_is_refused_in_turn(self):
        wraps = [f"-Wl,--wrap={name}" for name in ("malloc", "realloc", "free")]
        done = run([self.built(HERE / "refused.c", "gcc", "-std=c99", *wraps)])
        self.assertEqual(0, done.returncode, done.stdout)
        self.assertRegex(done.stdout, r"^\d+ calls were refused for want of memory\n$")

    def test_threads_share_a_handle_under_a_lock(self):
        self.says("", [self.built(HERE / "threads.c", "gcc", "-std=c99", "-pthread")])


class Valgrind(Library):
    tool = "valgrind"

    def test_no_byte_is_lost_or_read_wrongly(self):
        checks = ["valgrind", "-q", "--leak-check=full", "--error-exitcode=9"]
        sources = (HERE / f"{name}.c" for name in ("calls", "described", "lines", "owner", "nothing"))
        for source in (*sources, EXAMPLES / "c" / "stuck_key.c"):
            with self.subTest(source.name):
                done = run([*checks, self.built(source, "gcc", "-std=c99", "-g")])
                self.assertEqual((0, ""), (done.returncode, done.stderr))


class Helgrind(Library):
    tool = "helgrind"

    def test_a_handle_goes_from_thread_to_thread(self):
        """Helgrind finds no race where each call is made under a lock, and one where it is not."""
        program = self.built(HERE / "threads.c", "gcc", "-std=c99", "-g", "-pthread")
        checks = ["valgrind", "--tool=helgrind", "-q", "--error-exitcode=9"]
        done = run([*checks, program])
        self.assertEqual((0, "", ""), (done.returncode, done.stdout, done.stderr))
        done = run([*checks, program, "unlocked"])
        self.assertEqual(9, done.returncode, done.stdout)
        self.assertIn("Possible data race", done.stderr)


class CPlusPlus(Library):
    tool = "g++"

    def test_each_call_once(self):
        for name in ("calls", "described", "lines", "nothing"):
            with self.subTest(name):
                source = self.folder / f"{name}.cpp"
                shutil.copy(HERE / f"{name}.c", source)
                self.says("", [self.built(source, "g++", "-std=c++11")])


class Rust(Library):
    tool = "cargo"

    def test_the_crate_s_tests(self):
        package = declared.copy_of_bindings(self.folder) / "rust"
        variables = {**os.environ, "INPUTPLAY_LIB_DIR": str(BUILT), "CARGO_TARGET_DIR": str(self.folder / "target")}
        done = run(["cargo", "test", "--offline", "-q"], cwd=package, env=variables)
        self.assertEqual(0, done.returncode, done.stdout + done.stderr)
        self.assertIn("21 passed; 0 failed", done.stdout)


class Python(Library):
    tool = "python3"

    def variables(self, path=PYTHON):
        return {**os.environ, "INPUTPLAY_LIBRARY": str(BUILT / "libinputplay.so"), "PYTHONPATH": str(path)}

    def test_the_package(self):
        done = run([sys.executable, "-B", PYTHON / "tests" / "check_package.py"], env=self.variables())
        self.assertEqual(0, done.returncode, done.stderr[-2000:])


    def test_a_record_has_the_report_that_the_program_prints(self):
        plays = "import sys, inputplay; print(inputplay.Record.from_file(sys.argv[-1]).play(len(sys.argv) > 2), end='')"
        for report, words in self.stored(EXAMPLES):
            with self.subTest(report=report.name):
                command = [sys.executable, "-B", "-c", plays, *words]
                self.says(report.read_text(), command, cwd=EXAMPLES, env=self.variables())


class Pip(Library):
    tool = "pip"

    def test_it_installs_offline_from_its_folder(self):
        package = declared.copy_of_bindings(self.folder) / "python"
        where = self.folder / "site"
        done = run([sys.executable, "-m", "pip", "install", "--no-index", "-q", "--target", where, package])
        self.assertEqual(0, done.returncode, done.stderr)
        variables = {**os.environ, "INPUTPLAY_LIBRARY": str(BUILT / "libinputplay.so"), "PYTHONPATH": str(where)}
        self.says("30\n", [sys.executable, "-B", "-c", "import inputplay; print(inputplay.code_of('KEY_A')[1])"], env=variables)


class Pytest(Library):
    tool = "pytest"

    def test_its_page(self):
        variables = {**os.environ, "INPUTPLAY_LIBRARY": str(BUILT / "libinputplay.so"), "PYTHONPATH": str(PYTHON)}
        done = run([sys.executable, "-B", "-m", "pytest", "-q", "-p", "no:cacheprovider", PYTHON / "tests"], env=variables)
        self.assertEqual(0, done.returncode, done.stdout)


def is_there(tool):
    """Whether a tool can be run here."""
    if tool in ("pip", "pytest"):
        return find_spec(tool) is not None
    if tool == "helgrind":
        return is_there("valgrind") and run(["valgrind", "--tool=helgrind", "--version"]).returncode == 0
    return tool is None or shutil.which(tool) is not None


def make_library(is_asked):
    """Links the libraries of the archive that is there; builds it too where that is asked for. Says why they are not there, or None."""
    if NAMED:
        missing = [name for name in ("libinputplay.a", "libinputplay.so") if not (BUILT / name).is_file()]
        return f"{BUILT / missing[0]} is not there" if missing else None
    if not ARCHIVE.is_file() and not is_asked:
        return "the library is not built"
    words = ["--made"] if ARCHIVE.is_file() and not is_asked else []
    done = subprocess.run([TOP / "tools" / "build", "--library", *words], check=False)
    return "its build failed" if done.returncode else None


def passed(counts):
    """Keeps that all checks passed; `tests/run library` calls this where none failed."""
    if not NAMED:
        stamp.write(counts.passed, counts.told_left_out().strip())


class Build(unittest.TestCase):
    """Stands for all checks where the library is not there."""

    why = "the library is not built"

    def test_the_library_is_built(self):
        if self.why == "its build failed":
            self.fail("tools/build --library failed")
        self.skipTest(self.why)


def without(case):
    """A class of checks that are left out, since their tool is not there."""
    return unittest.skip(f"{case.tool} is not there")(case)


def load_tests(loader, _tests, _pattern):
    """The checks that can be made here."""
    Build.why = make_library("library" in sys.argv[1:])
    if Build.why:
        return loader.loadTestsFromTestCase(Build)
    cases = (Header, C, Valgrind, Helgrind, CPlusPlus, Rust, Python, Pip, Pytest)
    return unittest.TestSuite(
        loader.loadTestsFromTestCase(case if is_there(case.tool) else without(case)) for case in cases
    )
