"""Plain C does the same as the program with small loads of bench/, and threads are timed. What the scripts
make of loads is tests/transcripts/bench.txt."""

import subprocess

from tests.playing import PROGRAM, TOP, FolderCase, needs, needs_program, run, said

BENCH = TOP / "bench"

# A record, and lines behind it each of which is refused, for a cause of its own.
HEAD = b"inputrecord 1\ndevice keypad\ncap EV_KEY KEY_A\nsource finger\nclient c0\ndo c0 open\n"
REFUSED = (b"do finger event 1 EV_KEY KEY_A \x7f", b"inputrecord 1", b"cap EV_KEY KEY_B", b"hint",
           b"do thumb event 1 EV_KEY KEY_A 1", b"do c0 event 1 EV_KEY KEY_A 1", b"do finger follow",
           b"do finger event 9000000000000001 EV_KEY KEY_A 1", b"do finger event 1 EV_KEY SYN_REPORT 1",
           b"do finger event 1 EV_KAY KEY_A 1", b"do finger event 1 EV_KEY 0xfffff 1",
           b"do finger event 1 EV_KEY KEY_A 2147483648", b"do finger event 1 EV_KEY KEY_A -")


class PlainC(FolderCase):
    def compiled(self, name):
        compiler = needs(self, "cc", "gcc")
        self.write("plain_names.h", said("bench/plain_names").text)
        words = [compiler, "-O2", "-pthread", "-I", self.folder, "-o", self.folder / name,
                 BENCH / f"{name}.c"]
        subprocess.run(words, check=True)
        return self.folder / name

    def both_print_the_same(self, plain, status):
        ours = run(["one"], self.folder)
        theirs = subprocess.run([plain, "one"], cwd=self.folder, capture_output=True, check=False)
        self.assertEqual((status, theirs.stdout), (ours.status, ours.text))

    def test_both_programs_print_the_same(self):
        for kind, plain in (("followed", "plain_play"), ("streamed", "plain_play"),
                            ("recorded", "plain_recorded")):
            with self.subTest(kind=kind):
                made = said("bench/load", kind, "one", "--frames", "300", "--clients", "2", cwd=self.folder)
                self.assertEqual(0, made.status)
                self.both_print_the_same(self.compiled(plain), 0)

    def test_both_programs_refuse_the_same(self):
        plain = self.compiled("plain_recorded")
        for line in REFUSED:
            with self.subTest(line=line):
                self.write("one", HEAD + line + b"\n")
                self.both_print_the_same(plain, 1)

    def test_threads(self):
        plain = self.compiled("plain_turn")
        for lock in ("mutex", "spin"):
            with self.subTest(lock=lock):
                ended = said(plain, lock, "4", "2", "1000", "8")
                self.assertEqual((0, "threads 4 devices 2 steps 1000 entered 4000\n", ""), ended)


class Times(FolderCase):
    def test_threads(self):
        needs_program(self)
        ended = said("bench/threads", PROGRAM, "--frames", "80", "--runs", "1")
        self.assertEqual((0, ""), (ended.status, ended.errors))
        rows = [row.split() for row in ended.text.splitlines()]
        self.assertEqual(["devices", "1", "2", "4", "8"], [row[0] for row in rows])
        self.assertEqual(["177", "185", "201", "233"], [row[1] for row in rows[1:]])
