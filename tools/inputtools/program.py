"""Finds the program that plays records, and runs it.

The built program is used where there is one: the one that the environment variable INPUTPLAY names, or
crates/inp_main/out/inp_main of this repository. Else the second program plays, which is in Python
(second). Where the tools stand without it the toolchain's `rt try` plays, without proof. It runs the
program in a folder of its own, so it is handed the record and the file of each `stream` line by name.

The program writes its report and its one-line messages to the same output, and they are told apart by how
they begin. The toolchain has statuses of its own: whether a status is the program's is told by the last line
that the toolchain writes.
"""

import os
import re
import shutil
import subprocess
import sys
import tempfile
from abc import ABC, abstractmethod
from typing import IO, List, NamedTuple, Optional, Sequence

from inputtools.command import Wrong, is_installed
from inputtools.progress import progress
from inputtools.record import stream_names

REPOSITORY = os.path.dirname(os.path.dirname(os.path.dirname(os.path.abspath(__file__))))
SOURCE = os.path.join(REPOSITORY, "crates", "inp_main")
# (what is installed has no crates, and the program beside its tools)
INSTALLED = os.path.join(REPOSITORY, "inputplay")
BUILT = INSTALLED if os.path.isfile(INSTALLED) else os.path.join(SOURCE, "out", "inp_main")
SECOND = os.path.join(REPOSITORY, "second")

# The statuses with which a report was written.
CUT = 6
PLAYED = (0, CUT)
GREATEST_STATUS = 7

# How the program's output begins: with a device of a report, or with a message.
MESSAGES = (b"inputplay: ", b"usage: inputplay ")
BEGINS = (b"device ", *MESSAGES)

# The toolchain's own lines: at the end one with how the run ended, before it what it says of the runs.
TOOLCHAIN_LINES = ("checked: ", "races: ", "run=", "interpreter: ")
LAST_LINE = re.compile(r"^run=([a-z-]+)(?: status=(\d+))?.*proved=no$")
BUILD = "build the program with bin/inputplay, which plays it at once"
TOO_LONG = re.compile(r"more than \d+ bytes|the limit on each|standard output")


class Launch(NamedTuple):
    """The words of a command, the folder in which it runs, and the file that it has as standard input."""

    words: List[str]
    folder: str
    given: str = os.devnull


class Ended(NamedTuple):
    """A run that has ended: the program's status, and the text that it wrote."""

    status: int
    text: str


class Run:
    """A running program. What it says beside its output goes to a file, so it never waits for a reader."""

    def __init__(self, player: "Player", launch: Launch) -> None:
        self.player = player
        self.beside = tempfile.TemporaryFile()
        try:
            with open(launch.given, "rb") as given:
                self.process = subprocess.Popen(launch.words, cwd=launch.folder, stdin=given,
                                                stdout=subprocess.PIPE, stderr=self.beside)
        except OSError as fault:
            raise Wrong(f"{player.who()} does not start: {fault.strerror}") from None

    @property
    def output(self) -> IO[bytes]:
        assert self.process.stdout is not None
        return self.process.stdout

    def whole_output(self) -> bytes:
        """All that it writes, until its end."""
        with self.output as written:
            return written.read()

    def stop(self) -> None:
        self.process.kill()
        self.process.wait()

    def lines_beside(self) -> List[str]:
        self.beside.seek(0)
        return self.beside.read().decode("utf-8", "replace").splitlines()

    def said(self) -> List[str]:
        """The lines that were said beside the output, but the toolchain's own."""
        return [line for line in self.lines_beside() if not line.startswith(TOOLCHAIN_LINES)]

    def status(self) -> int:
        """The program's status, once its output was read. Each other end is one line that says what to do."""
        return self.player.status_of(self.process.wait(), self.lines_beside())


class Player(ABC):
    """What plays records. `name` is that by which it is told, and `takes` how long it takes, where that is
    long."""

    name: str
    takes = ""

    @abstractmethod
    def told(self) -> str:
        """What is said of the way in which a record is played."""

    @abstractmethod
    def who(self) -> str:
        """Its name, where it is to be told that something is wrong with it."""

    @abstractmethod
    def launch(self, path: Optional[str], folder: str, flags: Sequence[str]) -> Launch:
        """How it is started for a record, or with its flags alone."""

    def status_of(self, status: int, beside: List[str]) -> int:
        """The program's status, by that of its process and what was said beside its output."""
        if status < 0:
            raise Wrong(f"{self.who()} was ended by signal {-status}")
        if status > GREATEST_STATUS:
            raise Wrong(f"{self.who()} is not inputplay: it ended in status {status}")
        return status

    def check_begin(self, written: bytes, path: str) -> None:
        """Refuses what another program wrote: neither a report nor a message."""
        if written.startswith(BEGINS):
            return
        if written or has_devices(path):
            wrote = "what it wrote is no report" if written else "it wrote nothing"
            raise Wrong(f"{self.who()} is not inputplay, or is broken: {wrote}")

    def start(self, path: Optional[str], folder: str, flags: Sequence[str] = (),
              what: Optional[str] = None) -> Run:
        """The running program. `what` says what it is played for."""
        launch = self.launch(path, folder, flags)
        progress.tell((what or f"{os.path.basename(path or '')} is played") + self.takes)
        return Run(self, launch)

    def play(self, path: Optional[str], folder: str, flags: Sequence[str] = (),
             what: Optional[str] = None) -> Ended:
        """The status, and what was written."""
        run = self.start(path, folder, flags, what)
        try:
            written = run.whole_output()
        except BaseException:
            run.stop()
            raise
        status = run.status()
        self.check_begin(written[:64], path or "")
        return Ended(status, written.decode("ascii", "replace"))


class BuiltProgram(Player):
    """The program that INPUTPLAY names, or the built one of this repository."""

    def __init__(self, program: str, name: str, is_named: bool) -> None:
        self.program, self.name, self.is_named = program, name, is_named

    def told(self) -> str:
        return f"played by {self.name}"

    def who(self) -> str:
        if self.is_named:
            return f"{self.name}, which INPUTPLAY names,"
        return INSTALLED if self.program == INSTALLED else self.name

    def launch(self, path: Optional[str], folder: str, flags: Sequence[str]) -> Launch:
        path = os.path.abspath(path) if path else ""
        if path.isascii() or os.fsencode(path) == path.encode("utf-8", "replace"):
            return Launch([self.program, *flags, *filter(None, [path])], folder)
        # (it takes no name that is not in UTF-8)
        return Launch([self.program, *flags, "/dev/stdin"], folder, path)


class SecondProgram(Player):
    """The second program, which is in Python."""

    name = "the second program (second)"

    def told(self) -> str:
        return f"played by {self.name}, in Python, without proof"

    def who(self) -> str:
        return self.name

    def launch(self, path: Optional[str], folder: str, flags: Sequence[str]) -> Launch:
        return Launch([sys.executable, "-B", SECOND, *flags, *([os.path.abspath(path)] if path else [])],
                      folder)


class Toolchain(Player):
    """The toolchain, which runs the program without proof."""

    name = "rt try"
    takes = " by the toolchain, which takes one to three minutes"

    def __init__(self) -> None:
        if is_installed():
            raise Wrong(f"there is no installed program ({INSTALLED}) and no second one ({SECOND}): "
                        "install them again")
        if shutil.which("rt") is None:
            raise Wrong("there is no built program (crates/inp_main/out/inp_main) and no toolchain (rt)")

    def told(self) -> str:
        return "played by the toolchain without proof (rt try); this takes one to three minutes"

    def who(self) -> str:
        return "the toolchain (rt)"

    def launch(self, path: Optional[str], folder: str, flags: Sequence[str]) -> Launch:
        if path is None:
            return Launch(["rt", "try", "--", *flags], SOURCE)
        name, words = os.path.basename(path), ["rt", "try"]
        files = {name: os.path.abspath(path)}
        files.update({stream: os.path.abspath(os.path.join(folder, stream)) for stream in stream_names(path)})
        for each, file in files.items():
            words += ["--data", f"{each}={file}"] if os.path.isfile(file) else []
        return Launch([*words, "--", *flags, f"./{name}"], SOURCE)

    def check_begin(self, written: bytes, path: str) -> None:
        """(what it wrote is known by its last line)"""

    def status_of(self, status: int, beside: List[str]) -> int:
        """The program's status, by the toolchain's last line. Each other end is told with what to do."""
        last = LAST_LINE.match(beside[-1]) if beside else None
        how = last[1] if last else "none"
        if last and how == "ended" and last[2] is not None:
            return int(last[2])
        told = next((line for line in reversed(beside[:-1]) if line.startswith("checked: ")), "")
        told = told or next((line for line in beside if "error" in line or line.startswith("rt: ")), "")
        raise Wrong(f"{toolchain_end(how, told)}" + (f" [{told[:160]}]" if told else ""))


def find_player() -> Player:
    """What plays: the built or installed program, else the second one, else the toolchain."""
    named = os.environ.get("INPUTPLAY")
    program = os.path.abspath(named) if named else BUILT
    if is_program(program):
        return BuiltProgram(program, named or os.path.relpath(BUILT, REPOSITORY), bool(named))
    if named:
        raise Wrong(f"INPUTPLAY names {named}, which is no program")
    return SecondProgram() if has_second() else Toolchain()


def is_program(path: str) -> bool:
    return os.access(path, os.X_OK) and os.path.isfile(path)


def has_second() -> bool:
    """Is the second program there?"""
    return os.path.isfile(os.path.join(SECOND, "__main__.py"))


def has_devices(path: str) -> bool:
    """Does a file have a line that begins a device? Its report is not empty then."""
    try:
        with open(path, "rb") as file:
            return re.search(rb"^[ \t]*u?device[ \t]", file.read(), re.MULTILINE) is not None
    except OSError:
        return False


def toolchain_end(how: str, told: str) -> str:
    if how == "no-answer" and TOO_LONG.search(told):
        return f"the toolchain hands on 1 MiB of a report at most, and this one is longer: {BUILD}"
    if how == "no-answer":
        return f"the toolchain ended the run, since it took more than it grants: {BUILD}"
    if how == "fault":
        return "the program stopped at a fault under the toolchain: keep the record, and report it"
    if how == "differs":
        return "the toolchain's two runs of the program differ: keep the record, and report it"
    return "the toolchain built no program and played nothing: look at `rt try` in crates/inp_main"
