"""What real kernels answered on the records of tests/kernel/ is what the program answers, or what the second
one does with the kernel's ways that a record names; and checks/kernel, without a kernel."""

import os
import re
import shutil
import subprocess
import sys
import unittest
from pathlib import Path
from typing import List, Sequence
from unittest import mock

from checks.kernels import machine, running, scripts, wrong
from checks.kernels.answers import NotPlayed, report_of
from checks.kernels.comparable import agreed, comparable
from checks.kernels.judging import EQUAL, EXPLAINED, UNEXPLAINED, judge, ways_of_peers, why_not
from checks.kernels.lines import lines_of
from checks.kernels.records import MAKERS, random_record
from checks.kernels.running import Case, Machines
from inputtools.command import Wrong
from second.model import play
from second.ways import ALL, NAMES, RULES, ways_of
from tests.playing import PROGRAM, RECORDS, TOP, FolderCase, needs_program, run

PAGE = TOP / "docs" / "KERNEL.md"
ROW = re.compile(r"^\| .* \| `(\w+)` \|$", re.M)
RECORD = (RECORDS / "client_follows_a_key.rec").read_text()
# What the player says of this record, and the record.
SHORT = "inputrecord 2\ndevice d\nhint 8\ncap EV_KEY KEY_A\nsource s\ntap t\ndo t open\n"
PRESS = "do s event 1000 EV_KEY KEY_A 1\ndo s event 1000 EV_SYN SYN_REPORT 0\ndo t read 4\n"
SAID = ["base 100 5000000 0", "= 0", "= 0", "= 0", "5001100 1 30 1", "5001101 0 0 0", "= 0"]


def stored(record: Path) -> List[str]:
    return record.with_suffix(".report").read_text().splitlines()


class Stored(FolderCase):
    def test_the_program_answers_as_the_kernels(self) -> None:
        needs_program()
        for record in scripts.paths():
            text = record.read_text()
            if scripts.ways_in(text) == RULES:
                with self.subTest(record.stem):
                    came = run([record], self.folder).text.decode().splitlines()
                    self.assertEqual(stored(record), comparable(came))

    def test_the_second_program_answers_as_the_kernels(self) -> None:
        """With the ways that a record names, and with none fewer."""
        for record in scripts.paths():
            text = record.read_text()
            ways = scripts.ways_in(text)
            with self.subTest(record.stem):
                self.assertIsNone(why_not(text) if "number_of" not in record.stem else None)
                self.assertEqual(stored(record), comparable(play(text, ways=ways)))
                for name in ways.on():
                    self.assertNotEqual(stored(record), comparable(play(text, ways=ways.without(name))), name)

    def test_each_way_has_a_record_and_a_row(self) -> None:
        named = {name for record in scripts.paths() for name in scripts.ways_in(record.read_text()).on()}
        self.assertEqual(set(NAMES), named)
        self.assertEqual(list(NAMES), ROW.findall(PAGE.read_text()))

    def test_each_report_has_its_record(self) -> None:
        reports = {path.stem for path in scripts.FOLDER.glob("*.report")}
        self.assertEqual({path.stem for path in scripts.paths()}, reports)


class Answers(unittest.TestCase):
    def test_lines(self) -> None:
        lines = ["record x", "device", "bit 0 1", "bit 1 30", "make", "actor 0", "actor 2", "do open 1",
                 "do event 0 1000 1 30 1", "do event 0 1000 0 0 0", "do read 1 4"]
        self.assertEqual(lines, lines_of("x", SHORT + PRESS))

    def test_what_was_said_is_a_report(self) -> None:
        report = comparable(report_of(SHORT + PRESS, SAID))
        self.assertEqual(["took 1000 EV_KEY KEY_A 1", "took 1001 EV_SYN SYN_REPORT 0"],
                         [line for line in report if line.startswith("took")])
        ours = comparable(play(SHORT + PRESS))
        self.assertEqual(ours, agreed(report, ours, is_live=False))

    def test_an_answer_that_ends_before(self) -> None:
        self.assertRaises(NotPlayed, report_of, SHORT + PRESS, SAID[:-1])
        verdict = judge("x", SHORT + PRESS, SAID[:-1], ALL)
        self.assertEqual(UNEXPLAINED, verdict.kind)

    def test_verdicts(self) -> None:
        mask = "do t mask EV_REP 0 0\n"
        cases = (
            (EQUAL, (), PRESS, SAID),
            (EXPLAINED, ("any_mask",), mask + PRESS, [*SAID[:2], "= 0", *SAID[2:]]),
            (UNEXPLAINED, (), PRESS, [*SAID[:4], "5001100 1 30 0", *SAID[5:]]),
        )
        for kind, ways, more, said in cases:
            with self.subTest(kind):
                verdict = judge("x", SHORT + more, said, ALL)
                self.assertEqual((kind, ways), (verdict.kind, verdict.ways), verdict.lines)

    def test_what_a_kernel_cannot_play(self) -> None:
        cases = {
            "filters": "filter norepeat\n", "limit of a history": "log 5\n", "hint is above": "hint 500\n",
            "console heeds": "cap EV_KEY KEY_CAPSLOCK\n",
        }
        for why, line in cases.items():
            with self.subTest(why):
                text = SHORT.replace("hint 8\n", line if line.startswith("hint") else "hint 8\n" + line)
                self.assertIn(why, str(why_not(text)))
        self.assertIn("moment above", str(why_not(SHORT + PRESS.replace("1000", "8000000"))))

    def test_random_records_can_be_played(self) -> None:
        families = set()
        for number in range(60):
            family, text = random_record(1, number)
            families.add(family)
            with self.subTest(number=number, family=family):
                self.assertIsNone(why_not(text))
                self.assertEqual(text, random_record(1, number)[1])
                play(text)
                play(text, ways=ALL)
        self.assertEqual(set(MAKERS), families)

    def test_ways_of_versions(self) -> None:
        for kernel, libevdev, lacking in (
            ("6.1", "libevdev-dev 1.13.0+dfsg-1", ["stamped_time"]),
            ("6.12", "libevdev-dev 1.13.0+dfsg-1", []),
            ("6.12", "libevdev-dev 1.13.4+dfsg-1", ["forgotten_values"]),
            ("7.3", "libevdev-dev 1.14.0+dfsg-1", ["forgotten_values"]),
        ):
            with self.subTest(kernel=kernel, libevdev=libevdev):
                self.assertEqual(ALL.without(*lacking), ways_of_peers(kernel, libevdev))

    def test_wrong_versions_can_be_made(self) -> None:
        self.assertGreaterEqual(len(wrong.VERSIONS), 10)
        for version in wrong.VERSIONS:
            with self.subTest(version.name):
                text = (TOP / "second" / version.file).read_text()
                self.assertEqual(1, text.count(version.old))
                compile(text.replace(version.old, version.new), version.file, "exec")

    def test_ways(self) -> None:
        self.assertEqual(RULES, ways_of(()))
        self.assertEqual(NAMES, ALL.on())
        self.assertEqual(NAMES[1:], ALL.without(NAMES[0]).on())
        self.assertEqual(play(RECORD), play(RECORD, ways=RULES))


class Player(FolderCase):
    def test_it_is_compiled_without_a_warning(self) -> None:
        try:
            library = machine.installed_library()
        except (Wrong, OSError):
            self.skipTest("gcc or libevdev-dev is not there")
        sources = sorted(machine.GUEST.glob("*.c"))
        machine.output(["gcc", *machine.FLAGS, "-Werror", "-I", library.headers, "-c", *sources], self.folder)

    def test_a_kernel_that_was_fetched_before(self) -> None:
        """It is booted, and plays a record."""
        cache = machine.cache_folder()
        try:
            machine.check_programs()
            library = machine.installed_library()
        except Wrong as wrong:
            self.skipTest(str(wrong))
        if not (cache / "kernels" / "6.12").is_dir():
            self.skipTest("no kernel was fetched by checks/kernel")
        player = machine.built_player(self.folder, library)
        machines = Machines(machine.kernel_of("6.12", cache), player, ALL, 1)
        with mock.patch.dict(os.environ):
            if not os.access(PROGRAM, os.X_OK):
                os.environ.pop("INPUTPLAY", None)
            verdict, other = machines.verdicts([Case("one", SHORT + PRESS), Case("two", RECORD)])
        self.assertEqual((EQUAL, EQUAL), (verdict.kind, other.kind), verdict.lines + other.lines)


class Smallest(unittest.TestCase):
    def test_no_line_can_be_left_out(self) -> None:
        """Where a record is kept for two of its lines and what they need."""
        wanted = ("do s event 9000 EV_KEY KEY_A 1", "do s event 30000 EV_KEY KEY_A 1")
        text = SHORT + "".join(PRESS.replace("1000", f"{n}000") for n in range(1, 60))

        def kept(_: object, texts: Sequence[str]) -> List[bool]:
            return [all(f"{line}\n" in each for line in wanted) and running.is_record(each) for each in texts]

        with mock.patch.object(running, "kept", kept):
            short = running.smallest(mock.sentinel.machines, text)
        self.assertEqual(["inputrecord 2", "device d", "source s", *wanted], short.splitlines())


class Command(FolderCase):
    def told(self, *words: object, path: str = "") -> str:
        """The one line with which it refuses its words."""
        variables = {key: value for key, value in os.environ.items() if key != "INPUTPLAY"}
        variables.update(PATH=path or os.environ["PATH"], XDG_CACHE_HOME=str(self.folder))
        command = [sys.executable, TOP / "checks" / "kernel", *map(str, words)]
        done = subprocess.run(command, env=variables, text=True, capture_output=True, check=False)
        self.assertEqual((2, ""), (done.returncode, done.stdout), done.stderr)
        self.assertEqual(1, len(done.stderr.splitlines()), done.stderr)
        return done.stderr

    def test_wrong_words(self) -> None:
        no_record = self.folder / "no.rec"
        no_record.write_text("nonsense\n")
        cases = {
            "--records": ["--records", 0], "No such file": [self.folder / "missing.rec"],
            "line 1: bad-header": [no_record],
            "is a file NAME.rec": [self.folder / "x.txt"],
        }
        for said, words in cases.items():
            with self.subTest(said):
                self.assertIn(said, self.told(*words))

    def test_a_program_that_is_not_there(self) -> None:
        self.assertIn("(Debian: qemu-system-x86)", self.told("--records", 1, path=str(self.folder)))

    def test_a_kernel_that_is_not_there(self) -> None:
        if not all(shutil.which(program) for program in ("qemu-system-x86_64", "cpio", "gcc")):
            self.skipTest("qemu-system-x86, cpio or gcc is not there")
        self.assertIn("no such file", self.told("--records", 1, "--kernel", self.folder / "x.deb"))
