"""tools/shrink where it is stopped, and its parts. To what it shrinks is in tests/transcripts/shrink.txt."""

import os
import signal
import subprocess
import time

from tests.desk_cases import TOOLS, DeskCase, heed_stops
from inputtools.shrinking import frames_of, shorter

HEAD = "inputrecord 1\ndevice d\ncap EV_KEY KEY_A\ncap EV_KEY KEY_B\nsource s\nclient c\n"
HEAD += "# A comment.\ndo c open\n"
FRAME = """do s event {0} EV_KEY KEY_A {1}
do s event {0} EV_KEY KEY_B {1}
do s event {0} EV_SYN SYN_REPORT 0
do c follow
"""
RECORD = HEAD + "".join(FRAME.format(n, n % 2) for n in range(1, 10))


class Shrink(DeskCase):
    def test_a_stop_writes_the_shortest_until_then(self):
        count, path = self.folder / "count", self.file("case.rec", RECORD)
        script = f"echo >> {count}; sleep 0.02; grep -q 'event 7 EV_KEY KEY_B' $1"
        words = [TOOLS / "shrink", path, "--", "sh", "-c", script, "sh", "{}"]
        started = subprocess.Popen(words, stdout=subprocess.PIPE, stderr=subprocess.PIPE, text=True,
                                   start_new_session=True, preexec_fn=heed_stops)
        while not count.exists() or len(count.read_text()) < 12:
            time.sleep(0.02)
        os.killpg(started.pid, signal.SIGINT)
        text, said = started.communicate(timeout=60)
        self.assertEqual(130, started.returncode, said)
        self.assertIn("note: stopped: this is the shortest until now: ", said)
        self.assertIn("event 7 EV_KEY KEY_B", text)
        self.assertLess(len(text), len(RECORD))
        self.assertLess(1, len(text.splitlines()))


class Parts(DeskCase):
    def test_frames(self):
        lines = RECORD.splitlines()
        parts = frames_of(lines)
        self.assertEqual(lines, [line for part in parts for line in part])
        self.assertEqual([1] * 8 + [4] * 9, [len(part) for part in parts])

    def test_shorter(self):
        for wanted in ([], [0], [5, 6], [0, 7, 19]):
            with self.subTest(wanted):
                parts = [str(n) for n in range(20)]
                came = shorter(parts, lambda kept: set(map(str, wanted)) <= set(kept), lambda count: None)
                self.assertEqual([str(n) for n in wanted], came)
