"""The words of tools/run, and what it does with them."""

from __future__ import annotations

import argparse
import os
from typing import Any, Dict, List, NoReturn, Optional, Tuple

from inputtools import running
from inputtools.command import Words, Wrong, name_of, say
from inputtools.running import FAILED, NOT_HELD, NOT_STARTED, NoProgram, Run, Settings
from inputtools.runsystem import with_system_files
from inputtools.source import Given

HELP = """Runs PROGRAM on the devices of RECORD: it and all that it starts find them as /dev/input/event0
and on, and share them. There is no kernel device, and no privilege is wanted. What the devices answer is
what the library answers: rings that lose events, grabs, masks, clocks, revocation, queries that flush.

The record's lines come at their times, once programs have opened a node and have read nothing new for a
while. With --frames they come wherever all programs wait, so that each run is the same. Lines of clients do
what they say beside the program: a client that opens and grabs is another program that grabs. With --as the
program stands in for one of them, and what the record expects of that one in its `#=` lines (see
tools/check --help) is judged over what the program did.

A program that is statically linked, sets itself more rights or makes system calls by itself is not reached.
tools/build --run builds what this needs; docs/RUN.md says what is served and what is not."""

USAGE = """%(prog)s [OPTIONS] RECORD -- PROGRAM [ARGS]
       %(prog)s --server FOLDER [OPTIONS] [RECORD] [-- PROGRAM [ARGS]]"""

STATUSES = """The status is the program's: 128 and the number of the signal where one ended it, and 0 where
that was the signal of --end. These are run's own, each with a line on standard error: 125 what the record
expects did not come; 126 wrong words or a wrong record, or the run could not go on; 127 PROGRAM cannot be
started; 128 the time of --timeout was out."""


class RunWords(Words):
    """Wrong words are refused with run's own status."""

    def error(self, message: str) -> NoReturn:
        raise Wrong(f"{message}; see {name_of('run')} --help")


def count(text: str) -> int:
    if not text.isascii() or not text.isdigit() or len(text) > 9:
        raise argparse.ArgumentTypeError(f"{text[:40]} is no number")
    return int(text)


def seconds(text: str) -> float:
    try:
        value = float(text)
    except ValueError:
        value = -1.0
    if not 0 < value < 1e9:
        raise argparse.ArgumentTypeError(f"{text[:40]} is no time in seconds")
    return value


# The options, each with what is told of it and how argparse takes it.
FLAG, FILE = {"action": "store_true"}, {"metavar": "FILE"}
COUNT, MILLISECONDS = {"metavar": "N", "type": count}, {"metavar": "MS", "type": count}
OPTIONS: Tuple[Tuple[str, str, Dict[str, Any]], ...] = (
    ("--as", "the program is this client of the record, whose lines are left out (*: each that reads)",
     {"dest": "actor", "metavar": "NAME"}),
    ("--frames", "play N frames whenever all programs have read all and wait", COUNT),
    ("--first-loss", "from this place of the history on programs read nothing until one has lost events "
     "(frames: 1)", {"metavar": "PLACE", "type": count}),
    ("--speed", "play the record's times X times as fast", {"metavar": "X"}),
    ("--end", "behind the last line: nothing, an unplug, or this signal to the programs",
     {"choices": ("stay", "gone", "int", "term"), "default": "stay"}),
    ("--clock", "which times events have", {"choices": ("now", "record"), "default": "now"}),
    ("--virtual", "programs' clocks, sleeps and timeouts go by the record's times, as fast as they can "
     "(frames: 1)", FLAG),
    ("--joysticks", "each device is /dev/input/jsN too", FLAG),
    ("--repeats", "keys repeat by a timer", FLAG),
    ("--quiet", "begin when nothing was asked for so long (100)", MILLISECONDS),
    ("--patience", "by frames a program that has asked nothing for so long, and does not run, waits (3000)",
     MILLISECONDS),
    ("--clients", "begin when nodes have been opened N times (1)", COUNT),
    ("--first", "the number of the first node (0)", {**COUNT, "default": 0}),
    ("--history", "write what programs did as a record, for the other tools", FILE),
    ("--draw", "write a page that shows it", FILE),
    ("--timeout", "end the program after so long", {"metavar": "SECONDS", "type": seconds}),
    ("--sys", "whether programs find /sys and udev's data of the devices, by umockdev-run",
     {"choices": ("auto", "none"), "default": "auto"}),
    ("--server", "with RECORD: start a server that stays, for programs that start later; without: use it",
     {"metavar": "FOLDER"}),
    ("--stop", "end the server of --server", FLAG),
)
# Those that the server is handed on.
NAMED = "as frames first-loss speed end clock quiet patience clients first history".split()
FLAGS = ("joysticks", "repeats", "virtual")


def words() -> RunWords:
    told = RunWords(prog="run", description=HELP, epilog=STATUSES, usage=USAGE)
    told.add_argument("record", metavar="RECORD", nargs="?", help="a record; - is standard input")
    for word, text, how in OPTIONS:
        told.add_argument(word, help=text, **how)
    return told


def wants_history(asked: argparse.Namespace) -> bool:
    return bool(asked.history or asked.draw or asked.actor)


def server_words(asked: argparse.Namespace, record: Given, history: Optional[str]) -> List[str]:
    """The words of the server."""
    values = {**vars(asked), "as": asked.actor, "history": history}
    named = ((name, values[name.replace("-", "_")]) for name in NAMED)
    given = [word for name, value in named if value is not None for word in (f"--{name}", str(value))]
    return [*given, *(f"--{name}" for name in FLAGS if values[name]), "--", os.path.abspath(record.path)]


def settings_of(asked: argparse.Namespace) -> Settings:
    is_by_frames = bool(asked.frames) or asked.first_loss is not None or asked.virtual
    return Settings(asked.first, is_by_frames, asked.end, asked.virtual)


def run_program(run: Run, asked: argparse.Namespace, program: List[str], record: Optional[Given]) -> int:
    """Runs the program, and gives its status."""
    if asked.sys == "auto" and record is not None:
        program = with_system_files(program, record.path, run.folder, run.settings.first)
    ended = running.Program(program, running.environment(run)).wait(asked.timeout)
    if ended.is_late:
        say("run", f"{program[0]} was ended after {asked.timeout:g} seconds")
    return running.status_of(ended, run.settings.end)


def finish(asked: argparse.Namespace, record: Given, path: str, status: int) -> int:
    """Keeps, draws and judges the history; the status of the whole."""
    if not wants_history(asked):
        return status
    # (most runs want none of this, and begin sooner without it)
    from inputtools.runjudging import History

    history = History(record, asked.actor, path)
    if asked.history:
        history.copy(asked.history)
    if asked.draw:
        history.draw(asked.draw)
    text, is_held = history.judged()
    for line in text.splitlines():
        say("run", line)
    return status if is_held or status else NOT_HELD


def run_alone(asked: argparse.Namespace, program: List[str]) -> int:
    """A run of its own: the server ends with the program."""
    record, folder = Given(asked.record), running.new_folder()
    history = os.path.join(folder, running.HISTORY)
    try:
        own = server_words(asked, record, history if wants_history(asked) else None)
        run = running.start_server(folder, settings_of(asked), own, is_kept=False)
        assert run.server is not None
        try:
            status = run_program(run, asked, program, record)
        finally:
            ended = running.end_server(run.server)
        if ended:
            raise Wrong(f"the server ended {'by signal' if ended < 0 else 'in status'} {abs(ended)}")
        return finish(asked, record, history, status)
    finally:
        running.remove_folder(folder)


def start_kept(asked: argparse.Namespace, folder: str, record: Given) -> Run:
    """Starts a server that stays, and says how it is used."""
    try:
        os.makedirs(folder, mode=0o700)
    except OSError as fault:
        raise Wrong(f"{folder}: {fault.strerror}") from None
    history = os.path.join(folder, running.HISTORY)
    run = running.start_server(folder, settings_of(asked), server_words(asked, record, history), is_kept=True)
    running.keep(run)
    use = f"{name_of('run')} --server {asked.server} -- PROGRAM"
    say("run", f"the server stays: {use} uses it, and --stop ends it")
    return run


def run_kept(asked: argparse.Namespace, program: List[str]) -> int:
    """A run whose server stays, or is there already."""
    folder = os.path.abspath(asked.server)
    if asked.stop:
        running.stop(folder)
        return 0
    record = None if asked.record is None else Given(asked.record)
    run = running.join(folder) if record is None else start_kept(asked, folder, record)
    return run_program(run, asked, program, record) if program else 0


def split_words(arguments: List[str]) -> Tuple[List[str], List[str]]:
    """The words of run, and the program with its own."""
    if "--" not in arguments:
        return arguments, []
    at = arguments.index("--")
    return arguments[:at], arguments[at + 1 :]


def checked_words(asked: argparse.Namespace, program: List[str]) -> None:
    if asked.server is None and (asked.record is None or not program):
        raise Wrong(f"a RECORD and, behind --, a PROGRAM are wanted; see {name_of('run')} --help")
    if asked.stop and (asked.server is None or asked.record is not None or program):
        raise Wrong("--stop wants --server FOLDER, and nothing else")
    if asked.server is not None and (asked.history or asked.draw):
        where = f"--server writes its history to {running.HISTORY} in its folder"
        raise Wrong(f"--history and --draw are of a run alone; {where}")


def command(arguments: List[str]) -> int:
    try:
        own, program = split_words(arguments)
        asked = words().parse_args(own)
        checked_words(asked, program)
        return run_kept(asked, program) if asked.server is not None else run_alone(asked, program)
    except Wrong as wrong:
        say("run", str(wrong))
        return FAILED
    except NoProgram as wrong:
        say("run", str(wrong))
        return NOT_STARTED
