"""What the tests of tools/ share: they run a tool, read a capture, play a record, and make small files."""

import contextlib
import io
import signal
import struct
import subprocess
import sys
from pathlib import Path
from typing import Iterable, List, Optional, Sequence, Tuple

from inputtools import command, names
from tests.playing import PROGRAM, TOP, FolderCase, loaded, needs_program

TOOLS, DATA = TOP / "tools", TOP / "tests" / "data"

# An event of a capture: its time, type, code and value; and as a raw one has it.
Captured = Tuple[int, int, int, int]
EVENT = struct.Struct("<QQHHi")


def heed_stops() -> None:
    """For a new process: a stop from the keyboard is not ignored, as it is behind `&` in a script."""
    signal.signal(signal.SIGINT, signal.SIG_DFL)


def raw_events(data: bytes) -> List[Captured]:
    """The events of a raw capture: (time from the first one on, type, code, value)."""
    found = [(s * 1000000 + micros, kind, code, value)
             for s, micros, kind, code, value in EVENT.iter_unpack(data)]
    return [(time - found[0][0], kind, code, value) for time, kind, code, value in found]


def raw_capture(events: Iterable[Captured]) -> bytes:
    return b"".join(EVENT.pack(*divmod(1764252210496169 + time, 1000000), *event) for time, *event in events)


class DeskCase(FolderCase):
    """A test that runs tools and plays what they write."""

    file = FolderCase.write

    def tool(self, name: str, *words: object) -> Tuple[int, str, List[str]]:
        """Runs a tool: its status, what it wrote, and the lines on standard error."""
        out, err, status, before = io.StringIO(), io.StringIO(), 0, sys.argv
        sys.argv = [name, *map(str, words)]
        try:
            with contextlib.redirect_stdout(out), contextlib.redirect_stderr(err):
                command.run(name, loaded(TOOLS / name).command)
        except SystemExit as ended:
            status = int(ended.code or 0)
        finally:
            sys.argv = before
        lines = err.getvalue().splitlines()
        if f"{name}: INPUTPLAY names {PROGRAM}, which is no program" in lines:
            needs_program()
        return status, out.getvalue(), lines

    def written(self, name: str, *words: object, notes: Sequence[str] = ()) -> str:
        """What a tool wrote. It said what is in `notes` on standard error, a line each, and no more."""
        status, text, lines = self.tool(name, *words)
        self.assertEqual((0, len(notes)), (status, len(lines)), lines)
        for note, line in zip(notes, lines):
            self.assertIn(note, line)
        return text

    def refused(self, name: str, *words: object, because: str) -> None:
        """A tool refused its input by one line, and wrote nothing else."""
        status, text, lines = self.tool(name, *words)
        self.assertEqual((2, ""), (status, text), lines)
        self.assertEqual(1, len(lines), lines)
        self.assertTrue(lines[0].startswith(f"{name}: "), lines[0])
        self.assertIn(because, lines[0])

    def play(self, text: str, folder: Optional[Path] = None) -> List[str]:
        """The lines of the report that the program prints of a record."""
        needs_program(self)
        path = self.file("played.rec", text)
        done = subprocess.run([PROGRAM, path], cwd=folder or self.folder, capture_output=True, text=True)
        self.assertEqual((0, ""), (done.returncode, done.stderr), done.stdout[:200])
        return done.stdout.splitlines()


def part_of(report: List[str], name: str) -> List[str]:
    start = report.index(f"client {name}")
    return report[start : report.index("stop finished", start)]


def taken(report: List[str], name: str = "reader") -> List[Captured]:
    """The events that a client took, as raw_events has them."""
    events: List[Captured] = []
    for line in part_of(report, name):
        words = line.split()
        if words[0] == "took":
            kind = names.number_of_kind(words[3]) or 0
            events.append((int(words[2]), kind, names.number_of_code(kind, words[4]) or 0, int(words[5])))
    return events


def belief(report: List[str], name: str = "reader") -> List[str]:
    """What a client believes at the end: the lines after its last calls."""
    lines = part_of(report, name)
    first = next(i for i, line in enumerate(lines) if line.split()[0] in ("keys", "switches", "leds", "axes"))
    return lines[first:]
