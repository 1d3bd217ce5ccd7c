"""How a command reads its words, and how it ends: one line for wrong input and status 2, or its text."""

import argparse
import gc
import os
import re
import signal
import sys
from enum import Enum
from types import FrameType
from typing import Any, Callable, IO, List, NamedTuple, NoReturn, Optional, Sequence, Union

from inputtools.progress import progress

VERSION = "1.0.0"
WRONG, CUT_OFF, STOPPED = 2, 4, 130
MOST = 10**9

# What stands before a tool's name where it is installed, and a tool's name in a clone.
PREFIX = "inputplay-"
IN_A_CLONE = re.compile(r"(?<![\w./-])tools/(?!build|install)(?=[a-z]+(?![\w/-]|\.\w))")


class Wrong(Exception):
    """Input that is refused. Its text is the one line that is written."""


class Result(NamedTuple):
    """What a command comes to: what is written, what is noted on standard error, and its status."""

    text: Union[str, bytes] = ""
    notes: List[str] = []
    status: int = 0


# Names


def is_installed() -> bool:
    """Was the command begun by the name that it has where it is installed?"""
    return os.path.basename(sys.argv[0]).startswith(PREFIX)


def name_of(program: str) -> str:
    """A tool's name as its user has it."""
    return PREFIX + program if is_installed() and not program.startswith(PREFIX) else program


def with_names(text: str) -> str:
    """A text that names tools of a clone, with the names that they have for its user."""
    return IN_A_CLONE.sub(PREFIX, text) if is_installed() else text


def with_pages(text: str) -> str:
    """A text that names pages of a clone, with the places that they have for its user."""
    lib = os.path.dirname(os.path.dirname(os.path.dirname(os.path.realpath(sys.argv[0]))))
    pages = os.path.join(os.path.dirname(lib), "share", "doc", "inputplay", "docs", "")
    return text.replace("docs/", pages) if is_installed() else text


# Words


class Words(argparse.ArgumentParser):
    """The words of a command. Wrong ones are refused as any other wrong input is, by one line."""

    def __init__(self, prog: str, **more: Any) -> None:
        form = argparse.RawDescriptionHelpFormatter
        super().__init__(prog=name_of(prog), formatter_class=form, allow_abbrev=False, **more)
        self.add_argument("--version", action=Version, nargs=0, help="show the version and exit")

    def error(self, message: str) -> NoReturn:
        raise Wrong(message)

    def parse_args(self, args: Optional[Sequence[str]] = None, namespace: Any = None) -> Any:
        """(options may stand between files, but where words stand behind `--`)"""
        if "--" in (args or ()):
            return super().parse_args(args, namespace)
        return self.parse_intermixed_args(args, namespace)

    def print_help(self, file: Optional[IO[str]] = None) -> None:
        status = write(self.prog, with_pages(with_names(self.format_help())))
        if status:
            sys.exit(status)


class Version(argparse.Action):
    """Writes the version and ends."""

    def __call__(self, parser: argparse.ArgumentParser, *_: object) -> NoReturn:
        sys.exit(write(parser.prog, f"{parser.prog} (inputplay) {VERSION}\n"))


def plain(text: str) -> str:
    """A text in printable ASCII, whatever characters a file's own names and words have."""
    ascii_text = text.encode("ascii", "backslashreplace").decode()
    return re.sub(r"[^ -~]", lambda found: f"\\x{ord(found[0]):02x}", ascii_text)


def tell(line: str) -> None:
    """A line on standard error, where that is open."""
    progress.clear()
    if sys.stderr is not None:
        try:
            print(plain(with_names(line)), file=sys.stderr, flush=True)
        except OSError:
            pass


def say(program: str, text: str) -> None:
    """One line on standard error, by who says it."""
    tell(f"{name_of(program)}: {' '.join(text.split())}")


class Wrote(Enum):
    """What became of something that was written to standard output."""

    ALL = "all of it is written"
    ENOUGH = "who reads it has read enough"
    FAILED = "it failed, which was said"


def put(program: str, data: Union[str, bytes]) -> Wrote:
    """Writes a text, or bytes, to standard output. Where that fails it is said."""
    progress.clear()
    if sys.stdout is None:
        say(program, "standard output is closed")
        return Wrote.FAILED
    try:
        if isinstance(data, str):
            sys.stdout.write(data)
        else:
            sys.stdout.buffer.write(data)
        sys.stdout.flush()
    except BrokenPipeError:
        forget_output()
        return Wrote.ENOUGH
    except OSError as fault:
        forget_output()
        say(program, f"standard output: {fault.strerror}")
        return Wrote.FAILED
    return Wrote.ALL


def write(program: str, data: Union[str, bytes]) -> int:
    """Writes all that a command has to write; the status of its end."""
    return CUT_OFF if data and put(program, data) is Wrote.FAILED else 0


def forget_output() -> None:
    """What was not written to standard output yet goes nowhere. (Python would try to write it once more at
    its end.)"""
    os.dup2(os.open(os.devnull, os.O_WRONLY), sys.stdout.fileno())


def stop_by(handler: Union[Callable[[int, Optional[FrameType]], Any], signal.Handlers]) -> None:
    """What a stop from the keyboard does from now on. Where it is ignored it stays so."""
    if signal.getsignal(signal.SIGINT) is not signal.SIG_IGN:
        signal.signal(signal.SIGINT, handler)


def status_of(program: str, body: Callable[[], int]) -> int:
    """The status of what a command does: that which it gives, or 2 for wrong input."""
    try:
        return body()
    except Wrong as wrong:
        say(program, str(wrong))
        return WRONG


def fill_closed() -> None:
    """Has no file that is opened later take the number of a standard stream that is closed."""
    for number in range(3):
        try:
            os.fstat(number)
        except OSError:
            os.open(os.devnull, os.O_RDWR)


def ends(program: str, body: Callable[[], int]) -> None:
    """Does what a command does, and ends in its status: 130 where it is stopped from the keyboard. Before and
    after that a stop ends the process at once."""
    fill_closed()
    # (a tool ends soon, and what it reads has no cycles: to look for some would take a third of its time)
    gc.disable()
    progress.begin(name_of(program))
    try:
        stop_by(signal.default_int_handler)
        status = status_of(program, body)
        stop_by(signal.SIG_DFL)
    except KeyboardInterrupt:
        stop_by(signal.SIG_DFL)
        say(program, "stopped")
        status = STOPPED
    progress.end()
    # (what there is now goes with the process, and is not looked through once more)
    gc.freeze()
    gc.enable()
    if status:
        sys.exit(status)


def run(program: str, command: Callable[[List[str]], Result]) -> None:
    """Ends in what the command comes to: its text on stdout, its notes on standard error, and its status."""

    def body() -> int:
        text, notes, *status = command(sys.argv[1:])
        for note in notes:
            say(program, f"note: {note}")
        return write(program, text) or (status[0] if status else 0)

    ends(program, body)


def number(text: str, low: int, high: int, what: str, base: int = 10) -> int:
    """The number that digits stand for, within its bounds."""
    value = int(text, base) if len(text) <= 32 else high + 1
    if not low <= value <= high:
        raise Wrong(f"{what} {text[:40]} is not in {low} to {high}")
    return value


def natural(text: Optional[str], what: str, low: int = 0) -> Optional[int]:
    """A number of a command's words, or None where none was given."""
    if text is None:
        return None
    if not re.fullmatch("[0-9]+", text):
        raise Wrong(f"{what} {text[:40]} is no number")
    return number(text, low, MOST, what)


class Shard(NamedTuple):
    """The K-th of N parts of what is to be done."""

    number: int
    parts: int


def shard_of(text: Optional[str]) -> Shard:
    """The part that `K/N` names; all where none is named."""
    if text is None:
        return Shard(1, 1)
    found = re.fullmatch("([0-9]{1,4})/([0-9]{1,4})", text)
    if not found or not 1 <= int(found[1]) <= int(found[2]):
        raise Wrong(f"--shard {text[:40]} is not K/N, the K-th of N parts")
    return Shard(int(found[1]), int(found[2]))


def counted(count: int, one: str) -> str:
    """A count of things: 1 event, 2 events."""
    return f"1 {one}" if count == 1 else f"{count} {one}s"


def at_line(index: int, what: object) -> Wrong:
    """What is wrong with a line of a file, for people; lines are numbered from 1."""
    return Wrong(f"line {index + 1}: {what}")
