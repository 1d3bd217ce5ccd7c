"""Compares two reports, or the results of two records."""

import argparse
import json
import os
from dataclasses import replace
from typing import Callable, List, Optional, Sequence, Tuple

from inputtools import files
from inputtools.command import Result, Words, Wrong, counted
from inputtools.comparing import Difference, compare
from inputtools.comparing_capture import END, Captured, Reading
from inputtools.description import is_name
from inputtools.places import seconds_text
from inputtools.program import PLAYED, Player, find_player
from inputtools.progress import progress
from inputtools.refusal_hints import refusal_text
from inputtools.report import Entry, Report, is_report
from inputtools.source import Given, read_text, shown

HELP = """Compares two reports, and says where they differ first. A and B are reports of the program, with or
without a history; what is none is taken for a record, and is played first.

Each actor's entries are paired: its calls by their kind, its events by type, code and value. An entry that
one of both has alone is one difference, and so is one that has other words. Places, the numbers of clients
and how many events a read took are not compared word by word, since one event more changes all behind it. But
the places have to stand in the same order, also among the actors of a device; and how many steps a device and
a source made is compared where nothing else differs. Times are compared by how far they are apart: a run of
entries that come later by the same time is one difference.

Each difference is one line: the actor, the number of the entry in its part of the report, the place in the
device's history, what differs, and the line of each report, or the one before which it would stand. They
stand actor by actor, and of a device's actors the one that differs at the first place is in front.

With RECORD:CLIENT as A, B is a capture of what a real program read: raw, or as evtest, evemu or libinput
record write it. It is compared with the events that this client reads. A second line tells the likely
cause of the difference: a grab, a mask, a loss, the capture's begin or end .."""

STATUSES = """Status 0: no difference. 1: they differ. 2: wrong words, or a file that is neither a report nor
a record that can be played. 4: standard output failed. 130: stopped from the keyboard."""


# The lines by which a difference is told.
Lines = Callable[[Difference], List[str]]


class Compared:
    """One of both: its report, and by which name a line of it is told."""

    def __init__(self, path: str) -> None:
        self.given = Given(path)
        self.name, self.text = self.given.name, read_text(self.given.path)
        if not self.text:
            raise Wrong(f"{self.name}: the file is empty")

    def play(self, player: Player) -> None:
        status, written = player.play(self.given.path, self.given.folder)
        if status not in PLAYED:
            raise Wrong(f"{self.name}: {refusal_text(self.text, written, status, self.given.folder)}")
        self.name, self.text = f"the report of {self.name}", written

    def report(self) -> Report:
        progress.tell(f"{self.name} is read")
        try:
            return Report(self.text)
        except Wrong as wrong:
            raise Wrong(f"{self.name}: {wrong}") from None


def reports_of(paths: Sequence[str]) -> List[Compared]:
    """The two reports. The program is looked for where a record is to be played."""
    compared = [Compared(path) for path in paths]
    player: Optional[Player] = None
    for each in compared:
        if not is_report(each.text):
            player = player or find_player()
            each.play(player)
    return compared


def side_text(name: str, line: Optional[Entry], before: Optional[Entry] = None) -> str:
    """A line of a report, or an event of a capture; where there is none, that before which it would stand."""
    if line is None:
        return "nothing" + (f" before {side_text(name, before)}" if before else "")
    if isinstance(line, Captured):
        return f"{name}, event {line.number} at {seconds_text(line.time)}: {line.event.text()}"
    return END if line.text == END else f"{name}:{line.number}: {line.text}"


def difference_text(each: Difference, names: Sequence[str]) -> str:
    who = each.actor if each.actor is not None else f"device {each.device}"
    numbers = {"entry": each.entry, "place": each.place}
    where = "".join(f", {name} {number}" for name, number in numbers.items() if number is not None)
    sides = [side_text(name, line, each.before) for name, line in zip(names, (each.first, each.second))]
    return f"{who}{where}: {each.what}" + ("" if each.first is each.second else f": {' | '.join(sides)}")


def difference_json(each: Difference, **more: str) -> str:
    where = {"device": each.device, "actor": each.actor, "entry": each.entry, "place": each.place}
    lines = {"first": each.first, "second": each.second, "before": each.before}
    sides = {side: line and {"line": line.number, "text": line.text} for side, line in lines.items()}
    return json.dumps({**where, "what": each.what, **sides, **more})


def client_of(path: str) -> Optional[Tuple[str, str]]:
    """The record and the client that a word names, or None where it names a file."""
    record, colon, name = path.rpartition(":")
    return (record, name) if colon and is_name(name) and not os.path.exists(path) else None


def told(found: List[Difference], asked: argparse.Namespace, lines: Lines) -> Result:
    """The lines of the differences that are asked for."""
    shown_ones = found if asked.all else found[:1]
    text = "".join(f"{line}\n" for each in shown_ones for line in lines(each))
    notes = [f"{len(found)} differences; --all writes them all"] if len(found) > len(shown_ones) else []
    return Result(text, notes, int(bool(found)))


def compare_reports(asked: argparse.Namespace) -> Result:
    first, second = reports_of([asked.first, asked.second])
    found = compare(first.report(), second.report(), asked.ignore == "times")
    names = first.name, second.name

    def lines(each: Difference) -> List[str]:
        return [difference_json(each) if asked.json else difference_text(each, names)]

    return told(found, asked, lines)


def compare_with_capture(asked: argparse.Namespace, record: str, client: str) -> Result:
    """What a client of a record reads, and what a program read."""
    given, name = Given(record), shown(asked.second)
    events = files.read(asked.second, asked.device, 16 if asked.is_16 else None).events
    if not events:
        raise Wrong(f"{name}: it has no events")
    least = min(event.time for event in events)
    events = [event._replace(time=event.time - least) for event in events]
    reading = Reading(given, client, events, find_player())

    def lines(each: Difference) -> List[str]:
        cause, each = reading.cause_of(each), replace(each, place=reading.place_of(each))
        if asked.json:
            return [difference_json(each, cause=cause)]
        return [difference_text(each, (f"the report of {given.name}", name)), f"  likely: {cause}"]

    result = told(reading.differences(asked.ignore == "times"), asked, lines)
    notes = [] if result.status else [f"{counted(len(events), 'event')} of {name} as {client} reads them"]
    return result._replace(notes=result.notes + notes)


def command(arguments: List[str]) -> Result:
    words = Words(prog="compare", description=HELP, epilog=STATUSES)
    words.add_argument("first", metavar="A", help="a report, a record, RECORD:CLIENT, or - (stdin)")
    words.add_argument("second", metavar="B", help="another one; with RECORD:CLIENT a capture")
    words.add_argument("--all", action="store_true", help="write all differences, not only the first")
    words.add_argument("--ignore", choices=["times"], help="leave the times of events out")
    words.add_argument("--json", action="store_true", help="write JSON, one object a line (docs/JSON.md)")
    words.add_argument("--device", metavar="N", help="the capture's device of this number or name")
    words.add_argument("--16", dest="is_16", action="store_true", help="the capture is raw, of 16 bytes")
    asked = words.parse_args(arguments)
    client = client_of(asked.first)
    if client:
        return compare_with_capture(asked, *client)
    if asked.device is not None or asked.is_16:
        raise Wrong("--device and --16 are of a capture, which goes with RECORD:CLIENT")
    return compare_reports(asked)
