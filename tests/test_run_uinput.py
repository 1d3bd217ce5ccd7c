"""Devices that programs make by /dev/uinput under tools/run: the requests one by one, and real programs, each
of which is left out by its name where it is not installed."""

from __future__ import annotations

import re
import shutil
from typing import List, Tuple

from tests.playing import TOP
from tests.run_cases import needs, needs_module
from tests.test_run_calls import RunCase, compiled

HERE = TOP / "tests" / "run_uinput"
KEYBOARD = HERE / "keyboard.rec"
CHECKS = 125
KEY_ESC, KEY_A, KEY_B = 1, 30, 48
HAS_MADE = "until [ -e /dev/input/event1 ]; do sleep 0.05; done"

Event = Tuple[int, int, int]


def events_of(text: str) -> List[Event]:
    """The events that evtest told, but for reports."""
    form = r"type (\d+) \(\S+\), code (\d+) \(\S+\), value (-?\d+)"
    return [(int(kind), int(code), int(value)) for kind, code, value in re.findall(form, text)]


def presses(*keys: int) -> List[Event]:
    return [(1, key, value) for key in keys for value in (1, 0)]


class Requests(RunCase):
    def test_each_request(self) -> None:
        program = compiled(HERE / "requests.c", self.folder / "requests")
        done = self.run_tool(["--sys", "none", "--quiet", 60000, KEYBOARD, "--", program])
        self.says_all(done, rf"\A{CHECKS} checks, 0 failed")
        self.assertEqual(1, done.errors.count("is not served, and answered EINVAL"), done.errors)

    def test_it_is_clean_under_valgrind(self) -> None:
        needs(self, "valgrind", "valgrind")
        valgrind = "valgrind -q --error-exitcode=9 --leak-check=full"
        self.write("inputplay-serve", f'#!/bin/sh\nexec {valgrind} {self.built}/inputplay-serve "$@"\n',
                   0o755)
        shutil.copy(self.built / "libinputplay-run.so", self.folder)
        program = compiled(HERE / "requests.c", self.folder / "requests")
        done = self.run_tool(["--sys", "none", "--quiet", 60000, KEYBOARD, "--", program], self.folder)
        self.says_all(done, rf"\A{CHECKS} checks, 0 failed")
        self.assertNotRegex(done.errors, r"==\d+==")


class Programs(RunCase):
    """Keys from a played keyboard, through a program that makes a device, to one that reads it."""

    def read_of(self, script: str, *options: object) -> List[Event]:
        """What evtest reads of the made device, while a script runs."""
        needs(self, "evtest", "evtest")
        words = ["--sys", "none", *options, KEYBOARD, "--", "sh", "-c"]
        done = self.run_tool([*words, f"{script} & {HAS_MADE}; evtest /dev/input/event1; wait"])
        self.assertEqual(0, done.status, done.text + done.errors)
        return events_of(done.text)

    def test_python_remapper(self) -> None:
        python = needs_module(self, "evdev", "python3-evdev")
        remapper = f"{python} -B {HERE / 'remapper.py'} /dev/input/event0"
        # (its own open of what it made, evtest's and its grabbed keyboard are the ones to wait for)
        both = [self.read_of(remapper, "--clients", 4, "--frames", 1, "--end", "term"),
                self.read_of(remapper, "--clients", 4, "--end", "gone")]
        wanted = [*presses(KEY_B), (1, 58, 1), (1, 58, 0)]
        self.assertEqual([wanted, wanted], both)

    def test_interception_and_caps2esc(self) -> None:
        for program, package in (("interception", "tools"), ("uinput", "tools"), ("caps2esc", "caps2esc")):
            needs(self, program, f"interception-{package}")
        script = "(interception -g /dev/input/event0 | caps2esc | uinput -d /dev/input/event0)"
        read = self.read_of(script, "--clients", 3, "--end", "gone")
        self.assertEqual(presses(KEY_A, KEY_ESC), read)

    def test_evemu_device(self) -> None:
        for program in ("evemu-device", "evemu-describe", "evemu-event"):
            needs(self, program, "evemu-tools")
        said = self.folder / "keyboard.evemu"
        script = f"""evemu-describe /dev/input/event0 > {said}; evemu-device {said} > /dev/null &
            {HAS_MADE}; evemu-describe /dev/input/event1 | diff - {said} && echo alike
            (sleep 1; evemu-event /dev/input/event1 --type EV_KEY --code KEY_A --value 1 --sync) &
            timeout 3 evtest /dev/input/event1; kill %1; sleep 0.5; ls /dev/input"""
        done = self.run_tool(["--sys", "none", "--quiet", 60000, KEYBOARD, "--", "bash", "-c", script])
        self.assertIn("alike\n", done.text, done.errors)
        self.assertEqual([(1, KEY_A, 1)], events_of(done.text))
        self.assertTrue(done.text.endswith("event0\n"), done.text)

    def test_libinput_replay(self) -> None:
        needs(self, "umockdev-run", "umockdev")
        needs(self, "evtest", "evtest")
        replay = needs(self, "libinput-replay", "libinput-tools")
        python = needs_module(self, "libevdev, pyudev, yaml", "libinput-tools")
        script = f"""(until [ -e {self.folder}/go ]; do sleep 0.1; done; echo; sleep 2) |
            {python} {replay} {HERE / 'keys.libinput.yml'} > {self.folder}/said 2>&1 &
            {HAS_MADE}; (sleep 2; touch {self.folder}/go) & timeout 8 evtest /dev/input/event1"""
        done = self.run_tool(["--sys", "auto", "--quiet", 60000, KEYBOARD, "--", "bash", "-c", script])
        said = (self.folder / "said").read_text()
        self.assertEqual(presses(KEY_A), events_of(done.text), done.errors + said)
        self.assertIn('Input device name: "recorded keyboard"', done.text)
