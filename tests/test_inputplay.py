"""bin/inputplay and tools/build in a tree of their own: what a terminal shows meanwhile, how long it takes,
and the library. What else bin/inputplay and tools/install do is in tests/transcripts/inputplay.txt."""

import contextlib
import os
import pty
import re
import shutil
import signal
import subprocess

from tests.desk_cases import heed_stops
from tests.playing import TOP, FolderCase, said
from inputtools.building import RECKONED, in_order, needed_crates, time_text
from inputtools.command import counted
from inputtools.unproved import file_of

# A toolchain that says what it was asked for, and builds programs that say their words.
TOOLCHAIN = """#!/bin/sh
echo "$(basename "$PWD"): $*" >> "$ASKED"
case "$1" in
run) mkdir -p out; printf '#!/bin/sh\\necho "played: $*"\\nexit 6\\n' > out/inp_main; chmod +x out/inp_main;;
lib) test "$(basename "$PWD")" != "$FAILS" || { echo 'error: it is not proved'; exit 1; }
    test "$(basename "$PWD")" != inp_c || mkdir -p out
    test ! -d out || { echo 'int made;' | cc -x c -c -o out/made.o - && ar rcs out/libinp_c.a out/made.o; }
    echo 'run=ended status=0'; echo 'rt: a line of its own' >&2; test -z "$SLEEPS" || exec sleep 30;;
doc) mkdir -p kit/c; ar rcs kit/c/liblibc_c.a; echo "$PWD/kit/START-HERE.md";;
esac
"""
CRATES = ("# the crates\nlow:\nmiddle: low bitflags\naside: low\ntests_other: middle\ninp_main: middle aside\n"
          "high: inp_main\ninp_c staticlib: middle\n")


def all_of(terminal: int) -> str:
    """All that was written to a terminal whose other side is closed."""
    parts = []
    with contextlib.suppress(OSError):
        while True:
            parts.append(os.read(terminal, 65536))
    return b"".join(parts).decode()


class TreeCase(FolderCase):
    """A tree with the tools, and crates that are empty."""

    def setUp(self):
        super().setUp()
        self.tree, self.asked = self.folder / "tree", self.folder / "asked"
        for name in ("tools", "bin", "include"):
            shutil.copytree(TOP / name, self.tree / name, ignore=shutil.ignore_patterns("__pycache__"))
        self.write("tree/crates.txt", CRATES)
        for name in (*needed_crates(CRATES), "inp_c"):
            (self.tree / "crates" / name).mkdir(parents=True)
        self.write("commands/rt", TOOLCHAIN, 0o755)

    def environment(self, **more):
        """What a command of the tree has: the toolchain, and no variable that names a program."""
        env = {**os.environ, "PATH": f"{self.folder}/commands:{os.environ['PATH']}", "ASKED": str(self.asked),
               "FAILS": "", "PYTHONDONTWRITEBYTECODE": "1", **more}
        env.pop("INPUTPLAY", None)
        return env

    def begin_on_a_terminal(self, *words, given="", **more):
        """A command of the tree whose lines are said on a terminal, and our side of that; it may be given some."""
        terminal, other = pty.openpty()
        self.addCleanup(os.close, terminal)
        os.write(terminal, given.encode())
        begun = subprocess.Popen([self.tree / words[0], *words[1:]], env=self.environment(**more),
                                 stdin=other if given else subprocess.DEVNULL, stdout=subprocess.PIPE,
                                 stderr=other, cwd=self.folder, preexec_fn=heed_stops)
        os.close(other)
        return begun, terminal

    def asked_for(self):
        return self.asked.read_text().splitlines() if self.asked.exists() else []


class Inputplay(TreeCase):
    def test_how_far_a_build_is_stands_on_a_terminal(self):
        begun, terminal = self.begin_on_a_terminal("bin/inputplay", "x.rec")
        written, told = begun.communicate()[0], all_of(terminal).replace("\x1b[K", "")
        self.assertEqual((6, b"played: x.rec\n"), (begun.returncode, written), told)
        self.assertIn("\rinputplay: 0 of 4 crates are built, 0:0", told)
        self.assertIn(": low\r", told)
        self.assertTrue(told.endswith("\r"), told)

    def test_a_terminal_is_asked(self):
        """What it is about to do is one line, with how long it takes and what plays at once. No other answer
        builds."""
        for answer, status in (("n\n", 2), ("\n", 6)):
            with self.subTest(answer):
                begun, terminal = self.begin_on_a_terminal("bin/inputplay", "x.rec", given=answer)
                begun.communicate()
                told = all_of(terminal)
                self.assertEqual(status, begun.returncode, told)
                at_once = "bin/inputplay --unproved FILE plays at once"
                self.assertIn(f"without tests, in {RECKONED}; {at_once}\r\n", told)
                self.assertIn("inputplay: build it now? [Y/n] ", told)
                self.assertEqual(4 if status == 6 else 0, len(self.asked_for()))

    def test_how_long_it_takes(self):
        """By the seconds of the page, as much longer as the toolchain's first library took here."""
        page = "| Crate | Proofs | Tests | Edits | All |\n|---|---|---|---|---|\n| low | 60 | 1 | 2 | 63 |\n"
        page += "| inp_main | 30 | 0 | 0 | 30 |\n\n"
        page += "The toolchain's first library took 2.0 seconds in the same run.\n"
        measured = "by bench/gate_cost's measure of this machine"
        self.assertEqual(f"some 2 minutes {measured}", time_text(page, ["low", "inp_main"], 2.0))
        self.assertEqual(f"some 6 minutes {measured}", time_text(page, ["low", "inp_main"], 8.0))
        self.assertEqual(f"some 1 minutes {measured}", time_text(page, ["inp_main"], 0.1))
        for text, crates, here in ((page, ["low", "other"], 2.0), (page, ["low"], None), ("", ["low"], 2.0)):
            self.assertEqual(RECKONED, time_text(text, crates, here))

    def test_needed_crates(self):
        order = in_order(needed_crates(CRATES))
        self.assertEqual(("low", {"middle", "aside"}, "inp_main"), (order[0], set(order[1:3]), order[3]))
        self.assertEqual({"low": [], "middle": ["low"], "aside": ["low"], "inp_main": ["middle", "aside"]},
                         needed_crates(CRATES))
        crates = needed_crates((TOP / "crates.txt").read_text())
        self.assertEqual("inp_main", list(crates)[-1])
        self.assertFalse([name for name in crates if name.startswith("tests_") or name == "bench_turn"])

    def test_the_record_among_the_words(self):
        self.assertEqual(("f", ["--history"]), file_of(["--history", "f"]))
        self.assertEqual(("f", ["--threads", "--idle", "5"]), file_of(["--threads", "--idle", "5", "f"]))
        self.assertEqual(("--f", []), file_of(["--", "--f"]))
        self.assertEqual((None, ["--make", "7"]), file_of(["--make", "7"]))
        self.assertEqual((None, ["a", "b"]), file_of(["a", "b"]))


class Library(TreeCase):
    """tools/build --library: how many crates are to be proved, which one is at work and how far; and no line of the
    toolchain."""

    BEGUN = (f"tools/build: 3 crates to be proved and built, one after the other: from nothing in {RECKONED}; what is "
             "kept is taken")

    def setUp(self):
        super().setUp()
        for tool in ("cc", "ld", "objcopy", "ar"):
            if shutil.which(tool) is None:
                self.skipTest(f"{tool} is not there")

    def build(self, *words, **more):
        """Builds the library: the status, the output, and the lines that are said."""
        build, env = self.tree / "tools" / "build", self.environment(**more)
        status, text, errors = said(build, "--library", *words, env=env, cwd=self.folder)
        return status, text, errors.splitlines()

    def test_each_crate_is_told(self):
        status, written, lines = self.build()
        self.assertEqual(0, status, lines)
        self.assertEqual(["low: lib", "middle: lib", "inp_c: lib"], self.asked_for()[:3])
        crates = enumerate(("low", "middle", "inp_c"))
        told = [f"tools/build: {done} of 3 crates are built, TIME: {name}" for done, name in crates]
        lines = [re.sub(r"\d+:\d\d|\d+ s$", "TIME", line) for line in lines]
        self.assertEqual([self.BEGUN, *told, "tools/build: that took TIME"], lines)
        made = [f"{self.tree}/out/library/{name}" for name in ("libinputplay.a", "libinputplay.so.2.0.0")]
        self.assertEqual(made, [line.partition(": ")[0] for line in written.splitlines()])
        # what changed then, and what stands on it; the toolchain looks at the last one each time
        for crates in (["inp_c"], ["middle", "inp_c"]):
            _, _, lines = self.build()
            begun = f"tools/build: {counted(len(crates), 'crate')} to be proved and built, one after the other: "
            self.assertEqual(f"{begun}what changed since the last build", lines[0])
            self.assertEqual([f"{name}: lib" for name in crates], self.asked_for()[-1 - len(crates):-1])
            os.utime(self.write("tree/crates/middle/src/lib.rt", ""), (2**32, 2**32))
        # what is made already is linked, and nothing is proved
        status, _, lines = self.build("--made")
        self.assertEqual((0, [], 6), (status, lines, sum(line.endswith(": lib") for line in self.asked_for())))

    def test_a_crate_that_fails(self):
        status, written, lines = self.build(FAILS="middle")
        self.assertEqual((1, "", 4), (status, written, len(lines)), lines)
        told, log = lines[3].rsplit(" in ", 1)
        self.addCleanup(shutil.rmtree, os.path.dirname(log))
        why = "error: it is not proved; all that was said is"
        self.assertEqual(f"tools/build: middle was not built (rt ended with 1): {why}", told)

    def test_a_terminal_and_a_stop(self):
        build, terminal = self.begin_on_a_terminal("tools/build", "--library", SLEEPS="1")
        told = ""
        while "crates are built" not in told:
            told += os.read(terminal, 65536).decode()
        build.send_signal(signal.SIGINT)
        ended = build.wait(10), build.communicate()[0]
        told = (told + all_of(terminal)).replace("\x1b[K", "")
        self.assertEqual((130, b""), ended, told)
        wanted = r"\r\n\rtools/build: 0 of 3 crates are built, 0:\d\d: low\r(?:\r.*: low\r)*"
        wanted += r"tools/build: stopped\r\n"
        self.assertRegex(told, f"^{re.escape(self.BEGUN)}{wanted}$")

