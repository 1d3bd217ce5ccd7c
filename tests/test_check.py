"""tools/check where it is stopped, parts of it by GNU parallel, and names of any characters. What else it
says is in tests/transcripts/check.txt."""

import os
import shutil
import signal
import subprocess
import time
import xml.etree.ElementTree as ElementTree
from pathlib import Path
from unittest import mock

from inputtools import program as program_module
from tests.desk_cases import PROGRAM, TOOLS, TOP, DeskCase, heed_stops, needs_program

KEY = """inputrecord 1
device kbd
cap EV_KEY KEY_A
source usb
client desktop
do desktop open
do usb event 1000000 EV_KEY KEY_A 1
do usb event 1000000 EV_SYN SYN_REPORT 0
do desktop follow
"""


def is_alive(pid):
    """Is this process there, and not just waited for?"""
    try:
        return Path(f"/proc/{pid}/stat").read_text().rsplit(")", 1)[1].split()[0] != "Z"
    except OSError:
        return False


class CheckCase(DeskCase):
    def record(self, name, expectation):
        """A record that expects this in its first line."""
        return self.file(name, f"#= {expectation}\n{KEY}")


class Many(CheckCase):
    """Parts of a folder, and what is written where a check of several records is stopped."""

    def setUp(self):
        super().setUp()
        needs_program(self)
        self.inputs = self.folder / "inputs"
        self.inputs.mkdir()
        self.records = [self.record(f"inputs/{n}.rec", f"desktop takes KEY_A {n % 2}") for n in range(6)]
        self.file("inputs/notes.txt", "no record")

    def start(self, *words):
        """The tool, started with a program that takes long to play a record of the name slow.rec."""
        script = f'#!/bin/sh\ncase "$*" in *slow.rec*) sleep 100;; esac\nexec {PROGRAM} "$@"\n'
        env = {**os.environ, "INPUTPLAY": str(self.file("slow", script, 0o755))}
        return subprocess.Popen([TOOLS / "check", *words], env=env, text=True, stdout=subprocess.PIPE,
                                stderr=subprocess.PIPE, start_new_session=True, preexec_fn=heed_stops)

    def test_parts_by_gnu_parallel(self):
        """The block of docs/CI.md, on this machine alone."""
        if shutil.which("parallel") is None:
            self.skipTest("GNU parallel is not there (parallel)")
        blocks = (TOP / "docs" / "CI.md").read_text().split("```")
        (block,) = (each for each in blocks if "inputplay-check --shard {}" in each)
        script = block.split("\n", 1)[1].replace("one,two", ":")
        script = script.replace("inputplay-check", str(TOOLS / "check"))
        env = {**os.environ, "HOME": str(self.folder), "INPUTPLAY": PROGRAM}
        done = subprocess.run(["bash", "-c", script], cwd=self.folder, env=env, capture_output=True,
                              text=True, check=False)
        self.assertEqual(2, done.returncode, done.stderr)
        self.assertEqual(3, done.stdout.count("inputs/"), done.stdout)
        suites = [suite.attrib["name"] for number in range(1, 5)
                  for suite in ElementTree.parse(self.folder / f"part{number}.xml").getroot()]
        self.assertEqual([f"inputs/{number}.rec" for number in range(6)], sorted(suites))
        self.assertEqual(6, len(list(self.inputs.glob("*.rec"))))

    def test_results_come_at_once_and_stay_where_it_is_stopped(self):
        slow = self.record("slow.rec", "desktop agrees")
        for number, stop, form in ((1, signal.SIGINT, "--tap"), (2, signal.SIGTERM, "--json")):
            with self.subTest(stop.name, jobs=number):
                result = self.folder / "result.xml"
                words = ("-j", str(number), form, "--junit", result, self.records[1], slow, self.records[3])
                started = self.start(*words)
                lines = [started.stdout.readline() for _ in range(2)]
                self.assertIsNone(started.poll())
                errors = [suite.attrib["errors"] for suite in ElementTree.parse(result).getroot()]
                self.assertEqual(["1"] * 3, errors)
                os.killpg(started.pid, stop)
                text, said = started.communicate(timeout=60)
                self.assertEqual((130, f"check: stopped: {number} of 3 records checked"),
                                 (started.returncode, said.strip()))
                self.assertIn(self.records[1].name, "".join(lines))
                self.assertEqual("Bail out! stopped\n" if form == "--tap" else "", text)
                errors = [suite.attrib["errors"] for suite in ElementTree.parse(result).getroot()]
                self.assertEqual(["0", "1", "1" if number == 1 else "0"], errors)

    def test_processes_end_with_the_one_that_started_them(self):
        slow = self.record("slow.rec", "desktop agrees")
        started = self.start("-j", "3", slow, *self.records[:3])
        self.assertIn(".rec:1: desktop takes KEY_A 0", started.stdout.readline())
        children = Path(f"/proc/{started.pid}/task/{started.pid}/children").read_text().split()
        self.assertEqual(3, len(children))
        started.kill()
        started.wait()
        for _ in range(100):
            left = list(filter(is_alive, children))
            if len(left) <= 1:
                break
            time.sleep(0.1)
        # (one waits for the slow record's end)
        self.assertLessEqual(len(left), 1)
        os.killpg(started.pid, signal.SIGKILL)
        started.communicate()


class Alone(CheckCase):
    def test_xml_of_any_name(self):
        needs_program(self)
        path = self.record('a&b<c>"\x01\x1b[31m\u00e9\n.rec', "desktop never KEY_A")
        result = self.folder / "result.xml"
        # (the program itself takes no name that is not in UTF-8)
        other = os.fsdecode(os.fsencode(self.folder) + b"/none\xff.rec")
        shutil.copy(path, other)
        status, written, lines = self.tool("check", "--junit", result, path, other)
        self.assertEqual((1, []), (status, lines))
        first, second = ElementTree.parse(result).getroot()
        self.assertEqual(str(self.folder / 'a&b<c>"\\x01\\x1b[31m\\xe9 .rec'), first.attrib["name"])
        self.assertEqual(["1", "1"], [suite.attrib["failures"] for suite in (first, second)])
        self.assertEqual(f"{self.folder}/none\\udcff.rec", second.attrib["name"])
        self.assertTrue(all(" " <= char <= "~" or char == "\n" for char in written), written)

    def test_the_second_program_has_no_threads(self):
        with mock.patch.dict(os.environ), mock.patch.object(program_module, "BUILT", "/no/program"):
            os.environ.pop("INPUTPLAY", None)
            self.refused("check", "--threads", self.record("case.rec", "status 0"),
                         because="--threads wants the built program")
