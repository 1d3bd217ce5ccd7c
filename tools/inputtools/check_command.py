"""Checks what records expect of their play."""

import argparse
import contextlib
import gc
import multiprocessing
import os
import signal
import time
from multiprocessing.connection import Connection, wait
from typing import Iterator, List, NamedTuple, Optional, Tuple

from inputtools.checking import outcomes_of
from inputtools.command import (
    CUT_OFF, STOPPED, Result, Words, Wrong, Wrote, counted, natural, put, say, shard_of,
)
from inputtools.program import BuiltProgram, Player, find_player
from inputtools.progress import progress
from inputtools.results import Checked, ForPeople, Form, Json, Tap, write_junit
from inputtools.source import is_stream, paths_of, shown
from inputtools.wall import add_wall, wall

HELP = """Plays records and checks what they expect, which stands in comments that begin with `#=`. So a
record with expectations is played as one without. NAME is an actor of the record:

  #= NAME at-end keys KEY_A ..    its view at the end has these keys down and no others (none: no word);
                                  likewise switches, leds, and a joystick's buttons and axes
  #= NAME at-end axes ABS_X=5 ..  its view at the end has these values, among others; likewise
                                  slot 0 ABS_MT_TRACKING_ID=-1 .., and current 0
  #= NAME never SYN_DROPPED       it is never handed such an event: a code (KEY_A, EV_KEY/656) or a type
                                  (EV_KEY), of any value or of one (KEY_A 1); an owner too
  #= NAME takes KEY_A 0           it is handed such an event, once or more; an owner too
  #= NAME drops 3                 it loses events so many times: it takes so many SYN_DROPPED
  #= NAME agrees                  its view at the end is the device's own state
  #= report FILE                  the report is that of FILE, which is in the record's folder or below it
  #= status 6                     the program ends with this status; 0 is expected where no line tells one

They may stand anywhere in the record. The files of `stream` lines are looked for in the record's folder too,
and for standard input in the present one. What an event is handed to a client for does not matter: it was
read, or its reader made it when it synchronised.

Each expectation that fails is one line: the record, its line, the expectation with its client, the place in
the device's history, the time of the device there, and what came. The last line counts. Lines come as records
are done: with -j above 1 in that order, while the file of --junit keeps that of the records.

With --threads each actor is a thread of its own, which the built program alone can do, and an expectation has
to hold in each of --runs runs. Of a run that fails the report with its history is left beside the record, as
NAME.run7.history for the seventh: `python3 -m second.replay RECORD FILE` plays it again.

A record that expects nothing is wrong input, and so is one that is not played where no status is expected. So
is what cannot fail: an event that the device cannot send, or an actor that never opens the device or never
reads."""

STATUSES = """Status 0: all that was expected came. 1: something that was expected did not. 2: wrong words, a
wrong expectation, or a record that cannot be checked; the others are checked all the same. 4: standard output
failed. 130: stopped from the keyboard, or by SIGTERM: what was checked until then is written, and the file of
--junit tells the others as errors."""

NOT_CHECKED = "it was not checked: what was to check it was stopped"


class Task(NamedTuple):
    """A record that is to be checked: its number, its file, what plays it, and how often on threads."""

    number: int
    path: str
    player: Player
    runs: Optional[int]


# The number of a record, and what came of it.
Done = Tuple[int, Checked]


def check(task: Task) -> Done:
    """A record, checked."""
    begun, path = time.monotonic(), task.path
    try:
        outcomes, wrong = outcomes_of(path, task.player, task.runs), None
    except Wrong as refusal:
        outcomes, wrong = [], str(refusal)
        wrong = wrong[len(shown(path)) + 2 :] if wrong.startswith(f"{shown(path)}: ") else wrong
    return task.number, Checked(shown(path), outcomes, wrong, time.monotonic() - begun)


def serve(theirs: Connection, connection: Connection) -> None:
    """What a process does that checks records: each that it is sent, until who started it is gone. A stop
    from the keyboard is for that one."""
    theirs.close()
    signal.signal(signal.SIGINT, signal.SIG_IGN)
    signal.signal(signal.SIGTERM, signal.SIG_DFL)
    progress.is_over.set()
    with contextlib.suppress(EOFError, OSError):
        while True:
            connection.send(check(connection.recv()))


class Worker:
    """A process that checks records, and whether it has one."""

    def __init__(self) -> None:
        context = multiprocessing.get_context("fork")
        self.connection, theirs = context.Pipe()
        self.process = context.Process(target=serve, args=(self.connection, theirs), daemon=True)
        self.process.start()
        theirs.close()
        self.is_busy = False

    def give(self, task: Optional[Task]) -> None:
        """Has it check a record, where there is one, and the process is not gone."""
        with contextlib.suppress(OSError):
            if task is not None:
                self.connection.send(task)
                self.is_busy = True

    def done(self) -> Optional[Done]:
        """What came of its record; None where the process was ended."""
        self.is_busy = False
        with contextlib.suppress(EOFError, OSError):
            result: Done = self.connection.recv()
            return result
        return None


def all_done(tasks: List[Task], jobs: int) -> Iterator[Done]:
    """The records as they are done, so many at a time. Those of a process that was ended are left out."""
    if jobs == 1:
        yield from map(check, tasks)
        return
    waiting, workers = iter(tasks), [Worker() for _ in range(jobs)]
    try:
        for worker in workers:
            worker.give(next(waiting, None))
        while busy := {worker.connection: worker for worker in workers if worker.is_busy}:
            worker = busy[wait(list(busy))[0]]  # type: ignore[index]
            done = worker.done()
            if done is not None:
                worker.give(next(waiting, None))
                yield done
    finally:
        for worker in workers:
            worker.process.kill()


class Checking:
    """The records that are checked, what came of each until now, and how that is written."""

    def __init__(self, tasks: List[Task], form: Form, junit: Optional[str]) -> None:
        self.tasks, self.form, self.junit = tasks, form, junit
        self.records = [Checked(shown(task.path), [], NOT_CHECKED, 0.0) for task in tasks]
        self.done: List[Checked] = []
        self.is_cut_off = False

    def run(self, jobs: int) -> int:
        """Checks all; the status."""
        self.write_junit()
        self.put(self.form.begin)
        is_stopped, before = False, signal.signal(signal.SIGTERM, signal.default_int_handler)
        try:
            for done in all_done(self.tasks, jobs):
                self.take(*done)
        except KeyboardInterrupt:
            is_stopped = True
        signal.signal(signal.SIGTERM, before)
        self.put(self.form.end(self.done, is_stopped))
        self.write_junit()
        if is_stopped:
            checked = f": {len(self.done)} of {counted(len(self.tasks), 'record')} checked"
            say("check", f"stopped{checked if self.done else ''}")
        return STOPPED if is_stopped else self.status()

    def take(self, number: int, checked: Checked) -> None:
        """Takes over what came of a record, and writes it."""
        self.records[number] = checked
        self.done.append(checked)
        if checked.wrong is not None:
            say("check", f"{checked.path}: {checked.wrong}")
        self.put(self.form.of(checked))
        progress.tell(f"{len(self.done)} of {counted(len(self.tasks), 'record')} checked")

    def put(self, text: str) -> None:
        self.is_cut_off |= bool(text) and put("check", text) is Wrote.FAILED

    def write_junit(self) -> None:
        """(it is there from the start, so that a stop of any kind leaves one)"""
        if self.junit is not None:
            write_junit(self.junit, self.records)

    def status(self) -> int:
        for checked in (each for each in self.records if each.wrong is NOT_CHECKED):
            say("check", f"{checked.path}: {checked.wrong}")
        if self.is_cut_off:
            return CUT_OFF
        if any(checked.wrong is not None for checked in self.records):
            return 2
        return int(any(checked.failed() for checked in self.records))


def tasks_of(asked: argparse.Namespace) -> List[Task]:
    """The records that are to be checked by this part of all."""
    runs, player, shard = natural(asked.runs, "--runs", 1), find_player(), shard_of(asked.shard)
    if runs is not None and not asked.threads:
        raise Wrong("--runs goes with --threads: else each run is the same")
    if asked.threads and not isinstance(player, BuiltProgram):
        raise Wrong(f"--threads wants the built program (bin/inputplay): {player.name} plays on one thread")
    paths = paths_of(asked.records)[shard.number - 1 :: shard.parts]
    often = (runs or 1) if asked.threads else None
    return [Task(number, path, player, often) for number, path in enumerate(paths)]


def command(arguments: List[str]) -> Result:
    words = Words(prog="check", description=HELP, epilog=STATUSES)
    words.add_argument("records", metavar="RECORD", nargs="+",
                       help="a record, or a folder of them; - is standard input")
    forms = words.add_mutually_exclusive_group()
    forms.add_argument("--tap", action="store_true", help="write the Test Anything Protocol")
    forms.add_argument("--json", action="store_true", help="write JSON, one object a line (docs/JSON.md)")
    words.add_argument("--junit", metavar="FILE", help="write JUnit's XML to FILE besides")
    words.add_argument("-j", metavar="N",
                       help="check N records at a time: as many as processors for a folder, else 1")
    words.add_argument("--shard", metavar="K/N", help="check the K-th of N parts of the records")
    words.add_argument("--threads", action="store_true", help="play each actor on a thread of its own")
    words.add_argument("--runs", metavar="N", help="--threads: play each record N times (1)")
    add_wall(words)
    asked = words.parse_args(arguments)
    wall.ask(asked.wall, asked.json)
    if asked.junit is not None and asked.junit.endswith(".rec"):
        raise Wrong(f"--junit wants a file for the results, and {asked.junit} is a record")
    has_folder = any(map(os.path.isdir, asked.records))
    jobs = natural(asked.j, "-j", 1) or (len(os.sched_getaffinity(0)) if has_folder else 1)
    tasks = tasks_of(asked)
    form = Tap() if asked.tap else Json() if asked.json else ForPeople()
    # (a report has cycles, and here are many; and what can be read once is for this process)
    gc.enable()
    most = 1 if any(map(is_stream, asked.records)) else max(len(tasks), 1)
    return Result(status=Checking(tasks, form, asked.junit).run(min(jobs, most)))
