"""The library as far as no archive is needed: the header beside the crate, and each source over it beside the
header.

What needs the archive is in test_library.py, which is run where the library was built.
`tests/library/passed.json` says over which sources it passed; here these are compared with those that are
there.
"""

import os
import re
import shutil
import sys
import unittest

from tests.library import declared, stamp
from tests.playing import TOP, FolderCase, loaded, needs, said

HEADER = (TOP / "include" / "inputplay.h").read_text()
CRATE = TOP / "crates" / "inp_c"
BINDINGS = TOP / "bindings"
PYTHON = BINDINGS / "python"
EVENT_CODES = PYTHON / "inputplay" / "event_codes.txt"
LIBRARY = TOP / "tests" / "library"
SCRIPT = "bindings/make_event_codes"
C_SOURCES = ["tests/library", "examples/c", "checks", "bench"]
SECONDS = 120


class Header(unittest.TestCase):
    """The header and the crate say the same, by their texts."""

    def compared(self):
        """What is compared, what the header has, and what the crate, a package or the header's texts have: the
        fields of structs, the numbers of names, and limits."""
        for struct, file in declared.STRUCTS.items():
            fields = list(declared.fields_of_crate(CRATE.parent / file))
            yield struct, list(declared.fields_of_header(HEADER, struct)), fields
        parts = [(about, file, (CRATE / file).read_text(), form) for about, file, form in declared.NUMBERS]
        parts += [(about, file, declared.part_of((BINDINGS / file).read_text(), begin), form)
                  for about, file, begin, form in declared.PACKAGED]
        for about, file, part, form in parts:
            numbers = declared.numbers_of_header(HEADER, about)
            yield f"{file}: {about}", numbers, declared.numbers_of_crate(part, form)
        for function, about in (("cause", "a record is refused"), ("why", "a step was refused")):
            words = declared.words_of_header(HEADER, f"inputplay_{function}_text")
            texts = {declared.plain(word.replace("-", "_")): place for place, word in words if place}
            yield f"texts: {about}", declared.numbers_of_header(HEADER, about), texts
        for name, file in declared.LIMITS.items():
            text = (CRATE.parent / file).read_text()
            limit = re.search(rf"pub const {name}: u(?:\d+|size) = ([\d_]+);", text)[1].replace("_", "")
            yield name, re.search(rf"^#define INPUTPLAY_{name} (\d+)u?$", HEADER, re.M)[1], limit

    def test_the_header_says_the_same(self):
        for about, header, other in self.compared():
            with self.subTest(about):
                self.assertEqual(header, other)

    def test_each_status_has_a_text(self):
        words = declared.words_of_header(HEADER, "inputplay_status_text")
        told = {place for place, word in words if word != "unknown status"}
        self.assertEqual(set(declared.numbers_of_header(HEADER, "statuses of calls").values()), told)

    def test_the_codes_that_have_a_name(self):
        """Those that the header says are those that the program has."""
        text = HEADER.replace("\n *", "")
        said = re.search(r" Of EV_KEY they are (.*?) of the other types all but (.*?)\.", text)
        keys, others = said[1], re.findall(r"\w+", said[2])
        rows = re.findall(r"^(\d+) (\w+) (\d+)$", EVENT_CODES.read_text(), re.M)
        numbers = {name: (kind, int(code)) for kind, name, code in rows}
        told = {pair for name, pair in numbers.items() if pair[0] not in ("1", "5") and name not in others}
        for first, last in re.findall(r"\b((?:KEY|BTN|SW)_\w+)(?: to (\w+))?", keys):
            (kind, low), (_kind, high) = numbers[first], numbers[last or first]
            told.update((kind, code) for code in range(low, high + 1))
        rows = (line.split() for line in (TOP / "tests" / "data" / "codes.txt").read_text().splitlines())
        self.assertEqual({(row[0], int(row[1])) for row in rows if len(row) == 3}, told)

    def test_what_is_exported_is_what_is_declared(self):
        names = set(re.findall(r"^(?:uint32_t|void) (inputplay_\w+)\(", HEADER, re.M))
        text = "".join(path.read_text() for path in (CRATE / "src").glob("*.rt"))
        self.assertEqual(set(re.findall(r"pub extern \"C\" fn (\w+)", text)), names)


class CommandCase(FolderCase):
    """A test of what commands say."""

    def runs(self, *words, **more):
        """A command ends with status 0; what it wrote on standard error."""
        status, text, errors = said(*words, timeout=SECONDS, **more)
        self.assertEqual(0, status, text + errors)
        return errors


class Sources(CommandCase):
    """Each source over the library is taken by its compiler beside the header. Nothing is linked."""

    def compiled(self, compiler, standard, source, *more):
        paths = (f"-I{TOP / 'include'}", f"-I{LIBRARY}")
        words = ("-fsyntax-only", f"-std={standard}", "-Wall", "-Wextra", "-Werror", *paths, *more)
        self.runs(compiler, *words, source)

    def test_c(self):
        compiler = needs(self, "gcc", "gcc")
        for source in sorted(path for folder in C_SOURCES for path in (TOP / folder).glob("*.c")):
            if '"inputplay.h"' in source.read_text():
                with self.subTest(source.name):
                    self.compiled(compiler, "c11", source)

    def test_c_plus_plus(self):
        compiler = needs(self, "g++", "g++")
        for name in ("calls", "described", "lines", "owner", "nothing"):
            with self.subTest(name):
                source = self.write(f"{name}.cpp", (LIBRARY / f"{name}.c").read_text())
                self.compiled(compiler, "c++11", source)

    def test_the_comments_of_the_header(self):
        compiler, text = needs(self, "clang", "clang"), '#include "inputplay.h"\n'
        for name, standard in (("beside.c", "c11"), ("beside.cpp", "c++11")):
            with self.subTest(name):
                more = ("-Wdocumentation", "-Wdocumentation-pedantic", "-Wconversion")
                self.compiled(compiler, standard, self.write(name, text), *more)

    def test_python(self):
        shutil.copytree(PYTHON, self.folder / "python")
        self.runs(sys.executable, "-m", "compileall", "-q", self.folder / "python")

    def test_rust(self):
        cargo, rust = needs(self, "cargo", "cargo"), declared.copy_of_bindings(self.folder) / "rust"
        made = {"CARGO_TARGET_DIR": str(self.folder / "target"), "INPUTPLAY_LIB_DIR": str(self.folder)}
        more = {"cwd": rust, "env": {**os.environ, **made}}
        self.runs(cargo, "check", "--offline", "-q", "--all-targets", **more)
        # with no archive it says how one is made, and with one its pages are made without a word
        why = "is not there, so nothing can be linked: make it by `tools/build --library`"
        self.assertIn(f"{self.folder}/libinputplay.a {why}", self.runs(cargo, "check", "--offline", **more))
        self.write("libinputplay.a", "!<arch>\n")
        self.assertEqual("", self.runs(cargo, "doc", "--offline", "--no-deps", "-q", **more))


class Python(CommandCase):
    """The package over a shared object that has each function and does nothing: what needs no device."""

    def test_numbers_and_names(self):
        compiler, fake = needs(self, "gcc", "gcc"), self.folder / "libfake.so"
        names = re.findall(r"^(?:uint32_t|void) (inputplay_\w+)\(", HEADER, re.M)
        abi = re.search(r"^#define INPUTPLAY_ABI (\d+)$", HEADER, re.M)[1]
        functions = (f"int {name}(void) {{ return {abi if name == 'inputplay_abi' else 0}; }}\n" for name in names)
        self.runs(compiler, "-shared", "-fPIC", "-o", fake, self.write("fake.c", "".join(functions)))
        variables = {**os.environ, "INPUTPLAY_LIBRARY": str(fake), "PYTHONPATH": str(PYTHON)}
        tests = (PYTHON / "tests" / "check_package.py", "Numbers", "Names")
        self.runs(sys.executable, "-B", *tests, env=variables)


class EventCodes(unittest.TestCase):
    def test_what_packages_know_is_the_system_s(self):
        """All, where its header is of the same release; of another one the names that both have. What the
        script makes of a small header is tests/transcripts/event_codes.txt."""
        if not loaded(TOP / SCRIPT).HEADER.is_file():
            self.skipTest("the kernel's header is not installed (Debian: linux-libc-dev)")
        kept, made = EVENT_CODES.read_text(), said(SCRIPT).text
        if kept.splitlines()[0] == made.splitlines()[0]:
            self.assertEqual(kept, made)
        ours, theirs = (dict(re.findall(r"^\d+ (\w+) (\d+)$", text, re.M)) for text in (kept, made))
        for name in ours.keys() & theirs.keys():
            self.assertEqual(ours[name], theirs[name], name)


class Stamp(FolderCase):
    """The checks that need the archive passed over the sources that are there."""

    def test_nothing_changed_since_they_passed(self):
        why = "these changed since 'tests/run library' passed: run it, and commit tests/library/passed.json"
        self.assertEqual([], stamp.changed(), why)

    def test_a_change_is_told(self):
        self.write("crates.txt", "inp_c staticlib: other\n")
        for name in ("crates/inp_c/src/lib.rt", "include/inputplay.h", "tests/test_library.py"):
            self.write(name, "one\n")
        kept = self.folder / "passed.json"
        self.assertEqual(["crates/inp_c", "include", "tests"], stamp.changed(self.folder, kept))
        stamp.write(3, "", self.folder, kept)
        self.assertEqual([], stamp.changed(self.folder, kept))
        self.write("crates/inp_c/src/lib.rt", "two\n")
        self.assertEqual(["crates/inp_c"], stamp.changed(self.folder, kept))
