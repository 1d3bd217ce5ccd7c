"""The calls of evdev on a played device, by tools/run: call by call, by several processes, at random, and
with what finds wrong reads, writes and races.

The checks want a C compiler and the library's archive (out/library, or the folder that INPUTPLAY_LIB_DIR
names). A check that wants what is not here is left out. Those with sanitizers and valgrind take longer, and
are made where they are asked for by name: `tests/run run_calls`.
"""

from __future__ import annotations

import os
import shutil
import subprocess
import sys
from itertools import cycle
from pathlib import Path
from typing import Dict, Optional, Sequence, Tuple

from tests.playing import EXAMPLES, TOP, FolderCase, Said, said
from tests.run_cases import build, variables, why_not

from inputtools import runbuild
from inputtools.names import CODES, TYPES
from inputtools.running import BUILT_VARIABLE

HERE = TOP / "tests" / "run_calls"
STUCK = TOP / "examples" / "stuck_key.rec"
COMPILER = os.environ.get("CC", "cc")
SECONDS = 120
REQUESTS, MESSAGES, PROCESS_CHECKS, LIMIT_CHECKS = 5000, 2000, 20, 6
RING = 128
# The programs of calls, and how each is run.
ALONE = ["--quiet", "60000"]
PROGRAMS = {"calls": ["--frames", "1", "--end", "gone"], "signals": ALONE, "threads": ALONE}
# Each with its record, and the programs of what stands in folders of its own.
Played = Tuple[Path, Sequence[object]]
CALLS: Sequence[Played] = [(HERE / f"{name}.c", [*words, HERE / "calls.rec"]) for name, words in PROGRAMS.items()]
OTHERS = TOP / "tests"
MAKING: Played = (OTHERS / "run_uinput" / "requests.c", [*ALONE, OTHERS / "run_uinput" / "keyboard.rec"])
TIMES: Played = (OTHERS / "run_virtual" / "times.c", ["--virtual", OTHERS / "run_virtual" / "keys.rec"])
PYTHON = [sys.executable, "-B"]


def compiled(source: Path, program: Path, flags: Sequence[str] = (), more: Sequence[str] = ()) -> str:
    words = [COMPILER, "-std=c11", "-D_GNU_SOURCE", "-O1", "-g", "-Wall", "-Wextra", *flags, str(source),
             *more, "-o", str(program)]
    done = said(*words)
    assert done.status == 0, f"{source.name}: {done.text}{done.errors}"
    return str(program)


def numbers(kind: str, code: str, value: str) -> str:
    """An event of a report, in numbers."""
    number = TYPES.get(kind, kind)
    return f"{number} {CODES.get(number, {}).get(code, code)} {value}"


class RunCase(FolderCase):
    """A test that runs programs by a server and a shim that were built for all."""

    # Whether it takes long, and is made where it is asked for by name alone.
    is_long = False

    def setUp(self) -> None:
        super().setUp()
        why = why_not()
        if self.is_long and "run_calls" not in sys.argv[1:]:
            why = why or "`tests/run run_calls` makes it"
        if why:
            self.skipTest(why)
        self.built = build().folder / "built"

    def run_tool(self, words: Sequence[object], programs: Optional[Path] = None) -> Said:
        env = {**variables(build()), BUILT_VARIABLE: str(programs or self.built)}
        return said("tools/run", "--sys", "none", *words, env=env, errors="replace", stdin=subprocess.DEVNULL,
                    timeout=SECONDS)

    def says_all(self, done: Said, form: str, status: int = 0) -> None:
        """It ended in a status, and wrote this at its end."""
        self.assertRegex(done.text, form + r"\n\Z", done.errors[-4000:])
        self.assertEqual(status, done.status, done.errors[-4000:])

    def says_ok(self, done: Said, checks: int) -> None:
        """It wrote so many lines, each of which says that something is so."""
        lines = done.text.splitlines()
        self.assertEqual([], [line for line in lines if not line.startswith("ok ")], done.errors)
        self.assertEqual(checks, len(lines), done.text + done.errors)


class Calls(RunCase):
    def ran(self, name: str) -> Said:
        program = compiled(HERE / f"{name}.c", self.folder / name)
        return self.run_tool([*PROGRAMS[name], HERE / "calls.rec", "--", program])

    def test_each_call_of_evdev(self) -> None:
        done = self.ran("calls")
        self.says_all(done, r"\A\d+ checks, 0 failed")
        self.assertEqual(2, done.errors.count("is not served, and answered EINVAL"), done.errors)

    def test_signals_and_a_read_that_blocks(self) -> None:
        self.says_all(self.ran("signals"), r"8 checks, 0 failed")

    def test_threads_that_ask_at_once(self) -> None:
        self.says_all(self.ran("threads"), r"9 checks, 0 failed")

    def test_a_file_that_nobody_reads_holds_nobody_up(self) -> None:
        for options in (["--frames", 1, "--patience", 200], ["--patience", 200]):
            words = [*options, "--end", "gone", HERE / "calls.rec", "--", *PYTHON, HERE / "reader.py", 64,
                     "held"]
            done = self.run_tool(words)
            self.assertEqual((0, 6), (done.status, len(done.text.splitlines())), done.errors)

    def test_several_processes_have_one_device(self) -> None:
        done = self.run_tool(["--frames", 1, HERE / "keys.rec", "--", *PYTHON, HERE / "processes.py"])
        self.says_ok(done, PROCESS_CHECKS)
        self.assertIn("the server ended by signal 9", done.errors)

    def test_limits_and_a_server_that_is_stopped(self) -> None:
        self.says_ok(self.run_tool(["--quiet", 60000, HERE / "keys.rec", "--", *PYTHON, HERE / "limits.py"]),
                     LIMIT_CHECKS)


class Random(RunCase):
    def test_requests(self) -> None:
        program = compiled(HERE / "random_requests.c", self.folder / "random_requests")
        words = ["--joysticks", "--quiet", 1000000, HERE / "calls.rec", "--", program, REQUESTS, 1]
        self.says_all(self.run_tool(words), r"1 checks, 0 failed")

    def test_messages_to_the_server(self) -> None:
        words = ["--frames", 1, HERE / "keys.rec", "--", *PYTHON, HERE / "random_messages.py", MESSAGES, 1]
        self.says_all(self.run_tool(words), r"ok   /dev/input/event0 is served afterwards")


class Statuses(RunCase):
    """What is run's own is told apart from a program's status."""

    def test_statuses(self) -> None:
        keys, wrong = HERE / "keys.rec", self.write("wrong.rec", "inputrecord 2\ndevice d\nhint x\n")
        rows: Sequence[Tuple[int, Sequence[object], str]] = (
            # (the program's own, and a signal of --end, which is a good end)
            (0, [keys, "--", "true"], ""),
            (7, [keys, "--", "sh", "-c", "exit 7"], ""),
            (137, [keys, "--", "sh", "-c", "kill -9 $$"], ""),
            (0, ["--end", "term", keys, "--frames", 1, "--", "cat", "/dev/input/event0"], ""),
            # (run's own)
            (126, [], "a RECORD and, behind --, a PROGRAM are wanted"),
            (126, ["--speed", "0", keys, "--", "true"], "--speed 0 is no number above 0"),
            (126, [self.folder / "none.rec", "--", "true"], "none.rec: No such file"),
            (126, ["--as", "s", keys, "--", "true"], "has no client, tap or joystick of this name"),
            (126, [wrong, "--", "true"], "line 3: bad-word"),
            (127, [keys, "--", self.folder / "none"], "No such file"),
            (128, ["--timeout", "0.2", keys, "--", "sleep", "9"], "sleep was ended after 0.2 seconds"),
        )
        for status, words, told in rows:
            with self.subTest(words):
                done = self.run_tool(words)
                self.assertEqual(status, done.status, done.text + done.errors)
                self.assertIn(told, done.errors)


class Histories(RunCase):
    """What a program did is a record, which the other tools take."""

    def ran(self, *words: object, status: int = 0) -> Tuple[str, str]:
        """The history, and what was said, of a program that follows a keyboard."""
        history = self.folder / "history.rec"
        program = ["--", *PYTHON, HERE / "follower.py"]
        done = self.run_tool(["--end", "term", "--clock", "record", "--history", history, *words, *program])
        self.assertEqual(status, done.status, done.text + done.errors)
        return history.read_text(), done.errors

    def tool(self, name: str, *words: object) -> str:
        return said(f"tools/{name}", *words, env=variables(build())).text

    def test_an_expectation_of_the_program(self) -> None:
        record = self.write("stuck.rec", "#= desktop agrees\n#= remapper drops 0\n" + STUCK.read_text())
        history, said = self.ran("--as", "desktop", "--frames", 1, record, status=125)
        self.assertIn(f"{record}:1: desktop agrees: at place 7 (0.002 s): KEY_LEFTCTRL is down for it and up",
                      said)
        self.assertIn("0 of 1 expectation held", said)
        self.assertIn("#= desktop agrees\n", history)
        self.assertIn("0 of 1 expectation held", self.tool("check", self.folder / "history.rec"))
        self.assertIn("KEY_LEFTCTRL: down for it, up on the device",
                      self.tool("stuck", self.folder / "history.rec"))
        record.write_text("#= desktop drops 0\n" + STUCK.read_text())
        page = self.folder / "page.html"
        self.assertIn("1 of 1 expectation held",
                      self.ran("--as", "desktop", "--frames", 1, "--draw", page, record)[1])
        self.assertIn("KEY_LEFTCTRL", page.read_text())

    def test_it_is_the_same_at_each_run(self) -> None:
        one, other = (self.ran("--frames", frames, HERE / "keys.rec")[0] for frames in (3, 3))
        self.assertEqual(one, other)
        self.assertEqual(80, one.count("do s event"))
        self.assertIn("do python3 read ", one)

    def test_what_was_read_is_what_the_history_tells(self) -> None:
        for record, (frames, events) in zip(sorted(EXAMPLES.glob("*.rec")),
                                            cycle(((1, 64), (7, 3), (100000, 2)))):
            with self.subTest(record=record.name, frames=frames):
                self.reads_as_told(record, frames, events)

    def reads_as_told(self, record: Path, frames: int, events: int) -> None:
        """A program that reads so many events at once reads those of its history's report."""
        history = self.folder / "history.rec"
        options = ["--as", "*", "--end", "gone", "--clock", "record", "--frames", frames, "--history",
                   history]
        done = self.run_tool([*options, record, "--", *PYTHON, HERE / "reader.py", events])
        self.assertEqual(0, done.status, done.errors)
        # (the first device stands first in the report)
        report = self.tool("play", history).split("\ndevice ")[0]
        took = [line.split()[2:] for line in report.splitlines() if line.startswith("took ")]
        told = [f"{time} {numbers(*event)}" for time, *event in took]
        self.assertEqual(told, done.text.splitlines())

    def test_the_first_loss_comes_at_a_place(self) -> None:
        for place in (0, 50):
            _, said = self.ran("--first-loss", place, HERE / "long.rec")
            self.assertEqual(1, said.count("lost events"), said)
            report = self.tool("play", self.folder / "history.rec")
            lost = [line.split() for line in report.splitlines() if line.endswith("EV_SYN SYN_DROPPED 0")]
            self.assertEqual(1, len(lost), report)
            self.assertIn(int(lost[0][1]) - place, range(RING, RING + 16))


class Server(RunCase):
    def test_it_stays_for_programs_that_start_later(self) -> None:
        folder = self.folder / "server"
        self.assertEqual(0, self.run_tool(["--server", folder, HERE / "keys.rec"]).status)
        self.addCleanup(self.run_tool, ["--server", folder, "--stop"])
        listed = self.run_tool(["--server", folder, "--", "ls", "/dev/input"])
        self.assertEqual((0, "event0\n"), (listed.status, listed.text), listed.errors)
        read = self.run_tool(["--server", folder, "--", "head", "-c", 48, "/dev/input/event0"])
        self.assertEqual(0, read.status, read.errors)
        self.assertEqual("event0\n", said("/bin/sh", "-c", f". {folder}/environment && ls /dev/input").text)
        self.assertEqual(0, self.run_tool(["--server", folder, "--stop"]).status)
        self.assertIn("do head read ", (folder / "history.rec").read_text())
        self.assertEqual(126, self.run_tool(["--server", folder, "--", "true"]).status)


class Sanitized(RunCase):
    """The calls' program with the shim linked into it, and the server, both compiled with a sanitizer. The
    shim is not loaded then: a sanitizer's own functions come first of all."""

    is_long = True

    def checks(self, sanitizer: str, options: Dict[str, str], programs: Sequence[Played]) -> None:
        flags = [f"-fsanitize={sanitizer}", "-fno-sanitize-recover=all"]
        runbuild.compile_by(runbuild.server_words(COMPILER, runbuild.archive(), self.folder, flags))
        shutil.copy(self.built / runbuild.SHIM, self.folder)
        shim = ["-fvisibility=hidden", "-I", str(runbuild.SOURCES), *runbuild.sources("shim")]
        plain = ["env", "-u", "LD_PRELOAD", *(f"{name}={value}" for name, value in options.items())]
        for source, words in programs:
            with self.subTest(source.stem):
                program = compiled(source, self.folder / source.stem, flags, shim)
                done = self.run_tool([*words, "--", *plain, program], self.folder)
                self.says_all(done, r"\d+ checks, 0 failed")
                self.assertNotIn("Sanitizer", done.errors)

    def test_address_and_undefined(self) -> None:
        self.checks("address,undefined", {"ASAN_OPTIONS": "detect_leaks=1"}, [*CALLS, MAKING, TIMES])

    def test_thread(self) -> None:
        # (this sanitizer runs a signal's handler later than the signal comes)
        by_signals = CALLS[1]
        self.checks("thread", {}, [each for each in [*CALLS, MAKING, TIMES] if each != by_signals])


class Valgrind(RunCase):
    is_long = True

    def test_the_shim_and_the_server(self) -> None:
        if shutil.which("valgrind") is None:
            self.skipTest("valgrind is not there")
        valgrind = "valgrind -q --error-exitcode=9 --leak-check=full"
        self.write(runbuild.SERVER, f'#!/bin/sh\nexec {valgrind} {self.built / runbuild.SERVER} "$@"\n',
                   0o755)
        shutil.copy(self.built / runbuild.SHIM, self.folder)
        program = compiled(HERE / "calls.c", self.folder / "calls")
        words = ["--frames", 1, "--end", "gone", "--patience", 20000, HERE / "calls.rec", "--",
                 *valgrind.split(), program]
        done = self.run_tool([*words, "--right-places"], self.folder)
        self.says_all(done, r"\A\d+ checks, 0 failed")
        self.assertNotRegex(done.errors, r"==\d+==")
