"""Time that goes by a record's moments (tools/run --virtual): clocks, sleeps, timeouts and timers one by one,
and that real programs write the same at each run, with the times that they tell. A program that is not
installed is left out by its name."""

from __future__ import annotations

import re
import time
from pathlib import Path
from typing import List

from tests.playing import TOP, said
from tests.run_cases import needs
from tests.test_run_calls import RunCase, compiled

HERE, DATA = TOP / "tests" / "run_virtual", TOP / "tests" / "data"
CHECKS = 35


class Times(RunCase):
    def test_each_clock_and_wait(self) -> None:
        program = compiled(HERE / "times.c", self.folder / "times")
        begun = time.monotonic()
        done = self.run_tool(["--sys", "none", "--virtual", HERE / "keys.rec", "--", program])
        self.says_all(done, rf"\A{CHECKS} checks, 0 failed")
        # (almost two minutes go by for the program)
        self.assertLess(time.monotonic() - begun, 60)

    def test_without_it_clocks_are_the_machine_s(self) -> None:
        done = self.run_tool(["--sys", "none", HERE / "keys.rec", "--", "date", "+%s"])
        self.assertLess(abs(int(done.text) - time.time()), 60)


class Programs(RunCase):
    def record(self, name: str) -> Path:
        return self.write(f"{name}.rec", said("tools/record", DATA / f"{name}.evtest").text)

    def twice(self, options: List[object], record: Path, program: List[object]) -> str:
        """What a program writes, which is the same at two runs."""
        words = ["--virtual", "--end", "int", *options, record, "--", *program]
        one, other = (self.run_tool(words) for _ in range(2))
        self.assertEqual(0, one.status, one.errors)
        self.assertEqual(one.text, other.text)
        return one.text

    def test_evtest_with_its_times(self) -> None:
        needs(self, "evtest", "evtest")
        told = self.twice(["--sys", "none"], self.record("touchpad"), ["evtest", "/dev/input/event0"])
        times = re.findall(r"^Event: time (\S+),", told, re.MULTILINE)
        self.assertGreater(len(set(times)), 10)

    def test_libinput_with_its_times(self) -> None:
        needs(self, "umockdev-run", "umockdev")
        needs(self, "libinput", "libinput-tools")
        told = self.twice(["--sys", "auto"], self.record("touchpad"), ["libinput", "debug-events"])
        times = re.findall(r"POINTER_MOTION +\+(\d+\.\d+)s", told)
        self.assertGreater(len(set(times)), 5, told)
        # A gesture that a timer of libinput's begins.
        self.assertIn("GESTURE_HOLD_BEGIN", told)
