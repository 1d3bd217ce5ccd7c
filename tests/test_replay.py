"""What `second/replay.py` counts of a run side by side, and that it accepts those of random records. What it
says of a run that was spoiled is tests/transcripts/replay.txt."""

import unittest

from checks.random_records import Generator
from second.replay import check
from second.side_by_side import play_side_by_side
from tests.playing import TOP
from tests.test_transcripts import cases_of, text_of

TRANSCRIPT = TOP / "tests" / "transcripts" / "replay.txt"


class Replay(unittest.TestCase):
    def test_how_far_the_jobs_met(self):
        """The tap, sources, the client, sources, the tap, the client, sources; the client's read took the
        frame of step 5."""
        files = cases_of(TRANSCRIPT.read_text().split("\n"))[0].files
        (device,) = check(text_of("f", files), text_of("report", files).splitlines(), idle=20)
        self.assertEqual((6, 1), (device.changes(), device.waits()))

    def test_random_records(self):
        for number in range(20):
            with self.subTest(number=number):
                text = Generator(43 * 100000 + number).record()
                for idle in (20, 2):
                    check(text, play_side_by_side(text, number, idle=idle), idle=idle)
