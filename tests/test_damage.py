"""Texts that are just records: what the program and the second one say of them, and what `checks/damage` says
of programs that are right and wrong.

What is wanted of the texts was worked out by docs/FORMATS.md ("The record").
"""

import os
import sys

from second.outcome import outcome
from tests.playing import EXAMPLES, RECORDS, TOP, FolderCase, assert_run, loaded, run, said
from tests.test_records import status_of
from tests.test_statuses import ONE_KEY, ONE_KEY_REPORT

SCRIPT = TOP / "checks" / "damage"
# (on a machine that does much else the programs, which are in Python, take long)
SECONDS = 900

VERSION_1, VERSION_2 = "inputrecord 1\n", "inputrecord 2\n"
DEVICE_1, OWNED = VERSION_1 + "device d\n", VERSION_2 + "udevice u\nowner o\n"
SOURCE = DEVICE_1 + "source s\n"

# Texts that are records, and their reports.
PLAYED = [
    (ONE_KEY.decode().replace("\n", "\n# \xff\n", 1), ONE_KEY_REPORT.decode()),
    (" # \xff\0\r\n\t\r\n" + VERSION_1.replace("\n", "\r"), ""),
    (DEVICE_1 + "device " + 32 * "e", "device d steps 0\ndevice " + 32 * "e" + " steps 0\n"),
    (DEVICE_1 + "source d\n", "device d steps 0\nsource d calls 0 stop finished\n"),
    (SOURCE + "device e\nhint 8\n", "device d steps 0\nsource s calls 0 stop finished\ndevice e steps 0\n"),
    (SOURCE.replace("source", "type 0x0\ncap 1 KEY_A\ncap EV_REP 0\nslots 00064\nsource")
     + f"do s tick {1000 * '0'}9\ndo\ts  tick\t0x0fF \n",
     "device d steps 2\nsource s calls 2 stop finished\n"),
    (VERSION_2 + "udevice d\ntap d\nowner o\nsource s\ndo  o\tfeedback 0x1000 \ndo o feedback 004096\r\n",
     "device d steps 0\ntap d\nstop finished\nsource s calls 0 stop finished\nowner o\n"
     "feedback 0 0\nfeedback 0 0\nstop finished\n"),
    (OWNED, "device u steps 0\nowner o\nstop finished\n"),
]

RECORD = EXAMPLES / "one_key.rec"
# Programs: the second one, and some that are not as it is.
RIGHT = f"""#!{sys.executable}
import os, sys
sys.path.insert(0, {str(TOP)!r})
from second.outcome import outcome
status, text = outcome(sys.argv[-1], "--history" in sys.argv)
sys.stdout.buffer.write(text)
sys.stdout.buffer.flush()
sys.exit(status)
"""
WRONG = {
    "another text": ("write(text)", "write(text.replace(b'line', b'Line'))", "status 1, with another text"),
    "another status": ("exit(status)", "exit(status and 3)", "status 3 came, and status 1 was wanted"),
    "a signal": ("exit(status)", "exit(status and os.abort())", "SIGABRT came, and status 1 was wanted"),
    "an error": ("exit(status)", "stderr.write('x') and sys.exit(status)", "it wrote to the standard error"),
}


class Texts(FolderCase):
    def ends(self, text, status, wanted):
        """Both programs end so."""
        (self.folder / "f").write_bytes(text.encode("latin1"))
        self.assertEqual((status, wanted), outcome(self.folder / "f"), "the second program")
        assert_run(self, run(["f"], self.folder), status, wanted)

    def test_a_text_is_a_record(self):
        for text, report in PLAYED:
            with self.subTest(text=text[:60]):
                self.ends(text, 0, report.encode())

    def test_the_second_program_plays_the_stored_records(self):
        for record in sorted([*EXAMPLES.glob("*.rec"), *RECORDS.glob("*.rec")]):
            with self.subTest(record=record.name):
                wanted = status_of(record), record.with_suffix(".report").read_bytes()
                self.assertEqual(wanted, outcome(record))


class Damage(FolderCase):
    def damage(self, program, *words, seconds=60):
        script = self.write("program", program, 0o755)
        env, more = {**os.environ, "TMPDIR": str(self.folder)}, ["--jobs", "1", "--seconds", seconds]
        return said(SCRIPT, "--program", script, *more, *words, env=env, timeout=SECONDS)

    def test_the_damage_that_is_done(self):
        forms = dict(loaded(SCRIPT).damaged(b"a#"))
        self.assertEqual(24, len(forms))
        self.assertEqual(b"a", forms["the first 1 bytes"])
        # The letter of place 0 stands there already, and with a bit turned it is a grave accent.
        firsts = {data[:1] for what, data in forms.items() if what.startswith("byte 0 ")}
        self.assertEqual({b"\0", b"\t", b"\n", b"\r", b" ", b"#", b"0", b"`", b"\x7f", b"\x80", b"\xff"},
                         firsts)

    def test_lines_and_words_that_are_moved(self):
        forms = dict(loaded(SCRIPT).rearranged(b"a  b\n# c d\n"))
        self.assertEqual(3 * 3 + 2 * (3 + len(loaded(SCRIPT).WORDS)), len(forms))
        for what, text in (("line 1 left out", b"# c d\n"),
                           ("line 1 twice", b"a  b\na  b\n# c d\n"),
                           ("line 2 behind the next one", b"a  b\n\n# c d"),
                           ("line 1, word 2 left out", b"a\n# c d\n"),
                           ("line 1, word 1 twice", b"a a b\n# c d\n"),
                           ("line 1, word 1 behind the next one", b"b a\n# c d\n"),
                           ("line 1, word 2 as KEY_A", b"a KEY_A\n# c d\n")):
            self.assertEqual(text, forms[what])

    def test_what_it_says(self):
        status, text, errors = self.damage(RIGHT, "--every", "600", RECORD)
        self.assertEqual((0, ""), (status, errors))
        self.assertTrue(text.endswith("damaged records of 1, none that differs\n"), text)
        for name, (before, after, told) in WRONG.items():
            with self.subTest(name):
                status, text, errors = self.damage(RIGHT.replace(before, after), "--every", "900", RECORD)
                self.assertEqual(1, status)
                self.assertIn(told, errors)
                self.assertIn(" that differ\n", text)

    def test_a_run_that_takes_longer_than_it_may(self):
        busy = "import time\nwhile time.process_time() < 1.2: pass\nstatus, text ="
        done = self.damage(RIGHT.replace("status, text =", busy), "--every", "9000", RECORD, seconds=1)
        self.assertEqual(1, done.status)
        self.assertRegex(done.errors, r"the first 0 bytes: it took \d+\.\d seconds")
