"""The transcripts of tests/transcripts/: commands, and what each writes, says and ends in.

A line of a transcript that is not indented tells what the lines below it are, which are indented by two:

    == TITLE        begins a case, which has a folder of its own
    # COMMENT
    NAME            a file of the case, which can be run where it begins with #!
    NAME.bin        a raw capture of the case: `time type code value` a line, the time in microseconds
    @NAME           what a file takes in by a line `@NAME`; those before the first case are for all cases
    1..3: A # / B   (in a file) the lines `A 1`, `B 1`, `A 2` and so on
    $ COMMAND       the command's output, in which `...` stands for any lines
    ! TEXT          a line of its standard error
    [STATUS]        its status, where that is not 0

A case's folder has all folders of this repository too, and the program as `inputplay`. A tool runs in this
process, but for `tools/play` and what has characters of a shell. `ACCEPT=1 tests/run transcripts` writes what
came in place of what was wanted.
"""

import difflib
import os
import re
import shlex
import struct
import subprocess
import time
import unittest
import warnings
from pathlib import Path
from typing import Dict, List, NamedTuple, Type
from unittest import mock

from tests.desk_cases import PROGRAM, TOP, DeskCase, needs_program
from tests.playing import FolderCase

NO_LINE_FEED = "(no line feed at the end)"
BELOW = re.compile(r"  .*|")
WANTED = re.compile(r"  .*|! .*|\[\d+\]|")
SPREAD = re.compile(r"(\d+)\.\.(\d+): (.*)")
PLAYS = re.compile(r"(?<!\w/)\binputplay\b(?!-)|--threads")
SHELL = re.compile(r"[|&;<>()$*?]")


class Command(NamedTuple):
    """A command, and the first and the end of the lines that are wanted of it."""

    text: str
    first: int
    end: int


class Case(NamedTuple):
    title: str
    files: Dict[str, List[str]]
    commands: List[Command]


def cases_of(lines: List[str]) -> List[Case]:
    """The cases of a transcript. The first one has what stands before any title."""
    cases, at = [Case("", {}, [])], 0
    while at < len(lines):
        line, first = lines[at], at + 1
        form, at = WANTED if line.startswith("$ ") else BELOW, first
        while at < len(lines) and form.fullmatch(lines[at]):
            at += 1
        end = max([first, *(number + 1 for number in range(first, at) if lines[number])])
        if line.startswith("== "):
            cases.append(Case(line[3:], dict(cases[0].files), []))
        elif line.startswith("$ "):
            cases[-1].commands.append(Command(line[2:], first, end))
        elif line and not line.startswith("#"):
            cases[-1].files[line] = [each[2:] for each in lines[first:end]]
    return cases


def text_of(name: str, files: Dict[str, List[str]]) -> str:
    """What stands in a file, or in what one takes in."""
    return "".join(lines_of(line, files) for line in files[name])


def lines_of(line: str, files: Dict[str, List[str]]) -> str:
    """The lines for which a line of a file stands: often itself alone."""
    spread = SPREAD.fullmatch(line)
    if spread:
        numbers = range(int(spread[1]), int(spread[2]) + 1)
        return "".join(f"{each}\n".replace("#", str(n)) for n in numbers for each in spread[3].split(" / "))
    return text_of(line, files) if line[:1] == "@" and line in files else line + "\n"


def raw_of(text: str) -> bytes:
    """A raw capture of lines `time type code value`, with the time in microseconds."""
    events = (map(int, line.split()) for line in text.splitlines())
    return b"".join(struct.pack("<QQHHi", *divmod(time, 1000000), *event) for time, *event in events)


def told(status: int, text: str, errors: str) -> List[str]:
    """What came of a command, as a transcript has it."""
    text += "" if text[-1:] in ("", "\n") else f"\n{NO_LINE_FEED}\n"
    errors = re.sub("^play: played by .*", "play: played by PROGRAM", errors, flags=re.MULTILINE)
    came = [f"  {line}".rstrip() for line in text.split("\n")[:-1]]
    return [*came, *(f"! {line}" for line in errors.splitlines()), *([f"[{status}]"] if status else [])]


def is_met(wanted: List[str], came: List[str]) -> bool:
    parts = (r"(?:.*\n)*?" if line == "  ..." else re.escape(f"{line}\n") for line in wanted)
    return bool(re.fullmatch("".join(parts), "".join(f"{line}\n" for line in came)))


class Transcript(DeskCase):
    """The cases of one file."""

    path: Path

    def setUp(self) -> None:
        """Each case begins in the folder that it leaves, and all clocks are in one zone."""
        self.addCleanup(os.chdir, os.getcwd())
        self.addCleanup(time.tzset)
        zone = mock.patch.dict(os.environ, TZ="UTC0", COLUMNS="110")
        zone.start()
        self.addCleanup(zone.stop)
        time.tzset()

    def came_of(self, command: str) -> List[str]:
        """What came of a command in the present folder."""
        words = shlex.split(command)
        if words[0].startswith("tools/") and words[0] != "tools/play" and not SHELL.search(command):
            with warnings.catch_warnings():
                warnings.simplefilter("ignore")
                status, text, lines = self.tool(words[0][6:], *words[1:])
            return told(status, text, "\n".join(lines).replace(f"{self.folder}/", ""))
        env = {**os.environ, "PATH": f"{self.folder}:{os.environ['PATH']}", "PYTHONDONTWRITEBYTECODE": "1"}
        done = subprocess.run(["sh", "-c", command], env=env, capture_output=True, check=False, timeout=600)
        text, errors = (each.decode("utf-8", "backslashreplace") for each in (done.stdout, done.stderr))
        if f"INPUTPLAY names {PROGRAM}, which is no program" in errors:
            needs_program()
        return told(done.returncode, text, errors.replace(f"{self.folder}/", ""))

    def run_case(self, case: Case) -> Dict[Command, List[str]]:
        """What came of each command of a case."""
        texts = [*sum(case.files.values(), []), *(command.text for command in case.commands)]
        if any(map(PLAYS.search, texts)):
            needs_program()
        FolderCase.setUp(self)
        os.chdir(self.folder)
        for each in TOP.iterdir():
            os.symlink(each, each.name)
        os.symlink(PROGRAM, "inputplay")
        for name in filter(lambda name: name[0] != "@", case.files):
            text = text_of(name, case.files)
            text = text.replace(f"\n{NO_LINE_FEED}\n", "")
            mode = 0o755 if text.startswith("#!") else 0o644
            self.write(name, raw_of(text) if name.endswith(".bin") else text, mode)
        return {command: self.came_of(command.text) for command in case.commands}

    def check(self) -> None:
        """Runs all cases. What came otherwise fails its case, or is accepted."""
        lines, others = self.path.read_text(encoding="utf-8").split("\n"), []
        for case in cases_of(lines)[1:]:
            with self.subTest(f"{self.path.stem}: {case.title}"):
                for command, came in self.run_case(case).items():
                    wanted = lines[command.first : command.end]
                    if not is_met(wanted, came):
                        others.append((command, came))
                        if "ACCEPT" not in os.environ:
                            self.fail("\n".join(["", command.text, *difflib.ndiff(wanted, came)]))
        for command, came in reversed(others):
            lines[command.first : command.end] = came
        if others and "ACCEPT" in os.environ:
            self.path.write_text("\n".join(lines), encoding="utf-8")


def class_of(path: Path) -> Type[Transcript]:
    """The tests of a transcript, a class of its own, so that they run beside others."""
    return type(path.stem, (Transcript,), {"path": path, "test_cases": Transcript.check})


for FILE in sorted((TOP / "tests" / "transcripts").glob("*.txt")):
    globals()[FILE.stem] = class_of(FILE)


OWN = """# Lines before the first case.
@two
  one
  7..8: two # / 2

== a file, and what is written of it
case.txt
  @two

  three
$ tr '\\n' , < case.txt; cat case.txt
  one,two 7,2,two 8,2,,three,one
  ...
  three

== an error, a status, and no line feed
$ printf x; echo wrong >&2; exit 3
  x
  (no line feed at the end)
! wrong
[3]
# The tool runs in this process.
$ tools/describe none
! describe: none: No such file or directory
[2]

== a raw capture
keys.bin
  1000001 1 30 1
$ od -An -td8 -N16 keys.bin | tr -s ' '
   1 1
"""


class Itself(FolderCase):
    """What comes of a transcript that is right, of one that is wrong, and what is accepted."""

    def failures(self, text: str, **environment: str) -> List[str]:
        path, result = self.write("own.txt", text), unittest.TestResult()
        environment.update((name, value) for name, value in os.environ.items() if name != "ACCEPT")
        with mock.patch.dict(os.environ, environment, clear=True):
            class_of(path)("test_cases").run(result)
        self.assertEqual([], result.errors)
        return [str(test) for test, _ in result.failures]

    def test_what_is_right(self) -> None:
        self.assertEqual([], self.failures(OWN))

    def test_what_is_wrong_is_told_by_its_case_and_accepted(self) -> None:
        for right, wrong, title in (
            ("three,one\n", "three,two\n", "a file, and"), ("  ...\n  three", "  ...\n  two", "a file, and"),
            ("\n  three\n\n", "\n  three\n  four\n\n", "a file, and"), ("! wrong\n", "", "an error, a"),
            ("[3]\n", "", "an error, a"), ("[2]\n", "[4]\n", "an error, a"),
            ("   1 1\n", "   1 2\n", "a raw"),
        ):
            with self.subTest(wrong):
                text = OWN.replace(right, wrong)
                self.assertNotEqual(OWN, text)
                (said,) = self.failures(text)
                self.assertIn(f"own: {title}", said)
                self.assertEqual([], self.failures(text, ACCEPT="1"))
                between = "\n  two 7\n  2\n  two 8\n  2\n\n" if title == "a file, and" else "\n  ...\n"
                whole = OWN.replace("\n  ...\n", between)
                self.assertEqual(whole, (self.folder / "own.txt").read_text())
