"""tools/stuck on random frames, long streams and a terminal. What it says of small records is in
tests/transcripts/."""

import os
import pty
import random
import subprocess
from unittest import mock

from tests.desk_cases import PROGRAM, TOOLS, TOP, DeskCase, needs_program, raw_capture
from inputtools.names import ABS, SYN
from inputtools.played import play
from inputtools.program import find_player
from inputtools.progress import Progress
from inputtools.report import Took
from inputtools.source import Given

EXAMPLES = TOP / "examples"
KEYBOARD = """inputrecord 2
device kbd
hint 8
cap EV_KEY KEY_A
cap EV_KEY KEY_B
cap EV_KEY KEY_C
cap EV_REL REL_X
type EV_REP
"""
TOUCHPAD = """inputrecord 1
device pad
hint 8
slots 2
axis ABS_MT_POSITION_X 0 0 100 0 0 0
axis ABS_MT_POSITION_Y 0 0 100 0 0 0
source s
client c
do c open
do s stream long.bin
do c follow
"""


class Records(DeskCase):
    def test_examples(self):
        """A client differs at the end just where its lines in the report are not the device's state."""
        for record in sorted(EXAMPLES.glob("*.rec")):
            with self.subTest(record.name):
                said = self.written("stuck", record).splitlines()
                state = [line[2:] for line in said[said.index("the device at the end") + 1 :]]
                state = [line for line in state if "on the device itself" not in line]
                played = subprocess.run([PROGRAM, record], cwd=EXAMPLES, capture_output=True, text=True)
                # the parts of joysticks and owners stand after all others
                report = played.stdout.split("\njoy ")[0].split("\nowner ")[0]
                parts = report.split("\nclient ")[1:]
                parts = [part for behind in parts for part in behind.split("\ntap ")]
                for part in parts or report.split("\ntap ")[1:]:
                    name, *lines = part.splitlines()
                    begin = next(i for i, line in enumerate(said) if line.split()[1:] == [name])
                    end = next(line for line in said[begin:] if line.startswith("  at the end"))
                    same = lines[-1 - len(state) : -1] == state
                    self.assertEqual(same, end == "  at the end: as the device", f"{name}: {end}")

    def test_what_is_left_is_what_the_program_leaves(self):
        """Of random frames and filters: a tap beside no grab reads just what the filters here do not eat."""
        needs_program(self)
        for seed in range(12):
            with self.subTest(seed):
                text = random_filtered(random.Random(seed))
                played = play(Given(self.file("case.rec", text)), find_player())[0]
                frames = played.state.frames
                events = [each for frame in frames for each in zip(frame.events, frame.eaten)]
                left = [event for event, by in events if by is None and event[0] != "EV_SYN"]
                taken = [entry.event for entry in played.clients[0].part.all_of(Took)]
                self.assertEqual(left, [event for event in taken if event[0] != "EV_SYN"])
                self.assertLess(len(left), sum(len(f.events) - 1 for f in frames))


def random_filtered(r):
    """A record with random filters and frames of three keys, some of them under a grab of the tap that
    reads."""
    keys = ["KEY_A", "KEY_B", "KEY_C"]
    forms = ["norepeat", "eat EV_REL REL_X", *(f"chord {a} {b}" for a in keys for b in keys if a != b)]
    forms += [f"bounce {key} {micros}" for key in keys for micros in (5, 20)]
    lines = KEYBOARD.splitlines()
    lines += [f"filter {form}" for form in r.sample(forms, r.randint(2, 5))]
    lines += ["source s", "tap t", "do t open"]
    now, is_grabbed = 10, False
    for _ in range(120):
        now += r.choice([0, 1, 3, 7, 30, -4])
        events = [f"EV_KEY {r.choice(keys)} {r.choice([0, 1, 2])}" for _ in range(r.choice([1, 1, 1, 2, 3]))]
        events = ["EV_REL REL_X 1", *events, "EV_SYN SYN_REPORT 0"]
        lines += [*(f"do s event {max(now, 0)} {event}" for event in events), "do t read 64"]
        if r.random() < 0.1:
            lines.append("do t ungrab" if is_grabbed else "do t grab")
            is_grabbed = not is_grabbed
    return "\n".join(lines) + "\n"


class Long(DeskCase):
    """Streams of hundreds of thousands of events."""

    def stream(self, count):
        """A record of so many events, of which each third is a report."""
        values = ((ABS, 53, 7), (ABS, 54, 9), (SYN, 0, 0))
        events = (values[number % 3] for number in range(count))
        data = raw_capture((number // 3 * 7000, kind, code, number % 50 + value if kind else 0)
                           for number, (kind, code, value) in enumerate(events))
        self.file("long.bin", data)
        return self.file("long.rec", TOUCHPAD)

    def test_400_000_events(self):
        needs_program(self)
        said = self.written("stuck", self.stream(400000))
        self.assertRegex(said,
                         r"^device pad steps 4000\d\d\nclient c\n  it lost events: SYN_DROPPED of place ")

    def test_too_many_are_refused_before_they_are_played(self):
        begun = self.folder / "begun"
        program = self.file("program", f"#!/bin/sh\n: > {begun}\n", 0o755)
        with mock.patch.dict(os.environ, {"INPUTPLAY": str(program)}):
            record = self.stream(690000)
            for said in ("long.rec: its devices' state can be asked for after about 5",
                         "000 steps at most, and there "
                         "are 690000: take a part of the capture by tools/record --from and --to"):
                self.refused("stuck", record, because=said)
        self.assertFalse(begun.exists())


class Waiting(DeskCase):
    def test_how_far_it_is(self):
        """Of a long record each part of the work says what it is, and how much of it is done."""
        told = []
        tell = mock.patch.object(Progress, "tell", lambda _, *words: told.append(words))
        often = mock.patch("inputtools.report.TOLD_EVERY", 20)
        with tell, often, mock.patch("inputtools.divergences.TOLD_EVERY", 5):
            self.written("stuck", EXAMPLES / "stuck_key.rec")
        whole = subprocess.run([PROGRAM, "--history", EXAMPLES / "stuck_key.rec"], capture_output=True,
                               check=True)
        lines = len(whole.stdout.splitlines())
        self.assertEqual(("stuck_key.rec is played",), told[0])
        self.assertEqual([("the report is read, line", done, lines) for done in range(0, lines, 20)],
                         told[1 : 1 - -lines // 20])
        compared = [words[1:] for words in told if words[0] == "desktop is compared with its device, entry"]
        self.assertEqual([(0, 12), (5, 12), (10, 12)], compared)

    def test_waiting_is_told_on_a_terminal_alone(self):
        needs_program(self)
        slow = self.file("slow", f"#!/bin/sh\nsleep 1.5\nexec '{PROGRAM}' \"$@\"\n", 0o755)
        env, words = {**os.environ, "INPUTPLAY": str(slow)}, [TOOLS / "stuck", EXAMPLES / "stuck_key.rec"]
        quiet = subprocess.run(words, env=env, capture_output=True, text=True)
        self.assertEqual((0, ""), (quiet.returncode, quiet.stderr))
        terminal, other = pty.openpty()
        done = subprocess.run(words, env=env, stdout=subprocess.PIPE, stderr=other, text=True)
        os.close(other)
        told = os.read(terminal, 65536).decode()
        os.close(terminal)
        self.assertEqual(quiet.stdout, done.stdout)
        self.assertIn("\rstuck: the device's own state is asked for (", told.replace("\033[K", ""))
        self.assertTrue(told.endswith("\r\033[K"), told)
