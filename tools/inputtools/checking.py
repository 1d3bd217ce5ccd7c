"""Checks what a record expects of its play: each expectation, and what came."""

import os
from functools import cached_property
from itertools import zip_longest
from typing import Dict, List, NamedTuple, Optional, Sequence

from inputtools.command import Wrong, counted
from inputtools.expectations import (
    AT_END, FLAG_KINDS, Expectation, ends_well, expectations_of, why_not_seen, why_not_sent,
)
from inputtools.places import Places, time_text
from inputtools.played import Reader, played as devices_of
from inputtools.program import PLAYED, Player
from inputtools.progress import progress
from inputtools.record import Device as RecordDevice, Record
from inputtools.refusal_hints import refusal_text
from inputtools.report import (
    ActorLine, Again, Call, Device, DeviceLine, Entry, Fed, Feedback, Made, Part, Report, SourceLine, Took,
    cut_text, entry_of, without_history,
)
from inputtools.source import Given, read_text, write_bytes
from inputtools.wall import wall

OF_A_VIEW = (AT_END, "agrees")
# The words with which a record is played once, and on threads.
ALONE = ("--history",)
THREADED = ("--threads", "--history")


class Where(NamedTuple):
    """A place of a device's history, and its time; each None where it is not told."""

    place: Optional[int] = None
    time: Optional[int] = None


class Outcome:
    """The result of an expectation: whether it holds, and else at which place and time, and what came.

    `number` is the expectation's line in the record, or None for the status that is expected of each.
    """

    def __init__(self, expectation: Expectation, where: Where = Where(), came: Optional[str] = None) -> None:
        self.number, self.text, self.client = expectation.number, expectation.text, expectation.actor
        self.place, self.time, self.came = where.place, where.time, came
        self.when = "" if where.time is None else f" ({time_text(where.time)})"
        self.is_held = came is None


class Expecting:
    """A record with what it expects of its play, and what plays it."""

    def __init__(self, path: str, player: Player) -> None:
        self.given, self.player = Given(path), player
        self.name, self.folder, self.text = self.given.name, self.given.folder, read_text(self.given.path)
        self.expectations = expectations_of(self.text)
        wall.begin(self.name, self.text)

    @cached_property
    def record(self) -> Record:
        """The record, where it was played."""
        return Record(self.text)

    def device_of(self, actor: str) -> RecordDevice:
        """The device of an actor."""
        return self.record.devices[self.record.actors[actor].device]


class Played:
    """A record that was played once, with its history."""

    def __init__(self, of: Expecting, flags: Sequence[str]) -> None:
        self.of, self.flags = of, flags
        self.status, self.written = of.player.play(of.given.path, of.folder, flags)
        self.report: Optional[Report] = None
        self.places: Dict[str, Places] = {}
        if self.status in PLAYED:
            self.report = Report(self.written)
            for device in self.report.devices:
                self.places[device.name] = Places(device.history)

    def refusal(self) -> str:
        """Why it was not played."""
        return refusal_text(self.of.text, self.written, self.status, self.of.folder)

    def device_of(self, part: Part) -> Optional[Device]:
        """The actor's device. That of a joystick and of an owner no report tells where there are several."""
        devices = self.report.devices if self.report else []
        return part.device or (devices[0] if len(devices) == 1 else None)

    def at(self, part: Part, place: Optional[int]) -> Where:
        """A place of the actor's device, with its time."""
        device = self.device_of(part)
        return Where(place, self.places[device.name].moment(place) if device and place is not None else None)

    def place_text(self, part: Part, place: int) -> str:
        """A place with its time."""
        device = self.device_of(part)
        return f"place {place}" if device is None else self.places[device.name].text(place)

    def end(self, part: Part) -> Where:
        """The end of the actor's device."""
        device = self.device_of(part)
        return Where() if device is None else self.at(part, device.steps)

    @cached_property
    def clients(self) -> Dict[str, Reader]:
        """The clients, as they were compared with their devices."""
        of, is_threaded = self.of, self.flags == THREADED
        devices = devices_of(of.name, of.text, of.folder, of.player, self.written, is_threaded)
        return {each.name: each for device in devices for each in device.readers()}


def outcomes_of(path: str, player: Player, runs: Optional[int] = None) -> List[Outcome]:
    """The result of each expectation of a record: of one play, or of so many runs on threads."""
    of = Expecting(path, player)
    return outcomes_of_play(Played(of, ALONE)) if runs is None else outcomes_of_runs(of, runs)


def outcomes_of_play(played: Played) -> List[Outcome]:
    expectations = list(played.of.expectations)
    if all(each.kind != "status" for each in expectations):
        if played.status not in PLAYED:
            raise Wrong(played.refusal())
        if played.status:
            expectations.insert(0, ends_well())
    return [outcome_of(played, each) for each in expectations]


class Run(NamedTuple):
    """A run on threads: its number, its results, and the file that it left, where one of them fails."""

    number: int
    outcomes: Dict[str, Outcome]
    left: Optional[str]


def outcomes_of_runs(of: Expecting, runs: int) -> List[Outcome]:
    """The results over so many runs: each expectation has to hold in each."""
    done = [run_of(of, number) for number in range(1, runs + 1)]
    return [over_runs(key, done) for key in sorted({key for run in done for key in run.outcomes})]


def run_of(of: Expecting, number: int) -> Run:
    """A run. Of one that fails the report with its history is left beside the record, for second.replay."""
    progress.tell(f"{of.name} is played on threads, run {number}")
    played = Played(of, THREADED)
    outcomes = {f"{outcome.number or 0:9} {outcome.text}": outcome for outcome in outcomes_of_play(played)}
    if all(outcome.is_held for outcome in outcomes.values()):
        return Run(number, outcomes, None)
    stem = os.path.basename(of.name)[:-4] if of.name.endswith(".rec") else os.path.basename(of.name)
    left = os.path.join(os.path.dirname(of.name), f"{stem}.run{number}.history")
    write_bytes(os.path.join(of.folder, os.path.basename(left)), played.written.encode("ascii", "replace"))
    return Run(number, outcomes, left)


def over_runs(key: str, runs: Sequence[Run]) -> Outcome:
    """What came of an expectation over all runs: in how many it failed, and what came in the first one."""
    failed = [run for run in runs if key in run.outcomes and not run.outcomes[key].is_held]
    if not failed:
        return next(run.outcomes[key] for run in runs if key in run.outcomes)
    first = failed[0].outcomes[key]
    where = f"first in run {failed[0].number} ({failed[0].left})"
    first.came = f"{first.came}; in {len(failed)} of {counted(len(runs), 'run')}, {where}"
    return first


def outcome_of(played: Played, expectation: Expectation) -> Outcome:
    if expectation.kind == "status":
        return of_status(played, expectation)
    if played.report is None:
        return Outcome(expectation, came=f"the record was not played: {played.refusal()}")
    if expectation.kind == "report":
        return of_report(played, expectation)
    part = played.report.parts[expectation.name]
    check_meaning(played, expectation, part)
    checks = {
        AT_END: of_view, "never": of_never, "takes": of_takes, "drops": of_drops, "agrees": of_agreement,
    }
    return checks[expectation.kind](played, expectation, part)


def check_meaning(played: Played, expectation: Expectation, part: Part) -> None:
    """Refuses what no play can meet, or each play does."""
    kind, is_whole = expectation.kind, played.report is not None and played.report.cut is None
    is_opened = part.role == "owner" or any(call.reply.name == "opened" for call in part.all_of(Call))
    if not is_opened and (is_whole or kind in OF_A_VIEW):
        why: Optional[str] = f"{expectation.actor} never opened the device"
    elif kind in ("never", "drops") and is_whole and not any(map(is_reading, part.sight)):
        why = f"{expectation.actor} never reads, so each play meets it"
    else:
        why_not = why_not_sent if kind in ("never", "takes") else why_not_seen
        why = why_not(played.of.device_of(expectation.name), expectation)
    if why:
        raise wrong_expectation(played, expectation, why)


def wrong_expectation(played: Played, expectation: Expectation, why: str) -> Wrong:
    """An expectation that cannot be met or missed."""
    return Wrong(f"{played.of.name}: line {expectation.number}: {expectation.text}: {why}")


def is_reading(entry: Entry) -> bool:
    """Does this entry of a sight come of a read?"""
    is_handed = isinstance(entry, (Took, Made, Fed, Again, Feedback))
    return is_handed or (isinstance(entry, Call) and entry.step.name == "read")


def of_status(played: Played, expectation: Expectation) -> Outcome:
    if played.status == int(expectation.words[0]):
        return Outcome(expectation)
    came = f"status {played.status} came"
    if played.report is None:
        return Outcome(expectation, came=f"{came}: {played.refusal()}")
    cut = played.report.cut
    return Outcome(expectation, came=f"{came}: {cut_text(cut)}" if cut else came)


def of_report(played: Played, expectation: Expectation) -> Outcome:
    folder, path = os.path.realpath(played.of.folder), os.path.join(played.of.folder, expectation.words[0])
    if os.path.commonpath([folder, os.path.realpath(path)]) != folder:
        raise wrong_expectation(played, expectation, "the file is not below the record's folder")
    wanted = read_text(path)
    came = played.written if "\nstep " in wanted else without_history(played.written)
    number = first_difference(wanted, came)
    if number is None:
        return Outcome(expectation)
    rows = [text.split("\n")[:-1] for text in (came, wanted)]
    shown = [repr(lines[number][:100]) if number < len(lines) else "the end" for lines in rows]
    text = f"{shown[0]} came as line {number + 1}, and {shown[1]} was wanted"
    return Outcome(expectation, place_in_report(played, rows[0], number), text)


def first_difference(wanted: str, came: str) -> Optional[int]:
    """The index of the first line in which two texts differ, or None."""
    pairs = enumerate(zip_longest(wanted.split("\n"), came.split("\n")))
    return next((index for index, (one, other) in pairs if one != other), None)


def place_in_report(played: Played, rows: List[str], number: int) -> Where:
    """The place and the time that the last line up to one tells, within its actor's part."""
    above = [entry_of(0, row) for row in rows[number::-1]]
    name = next((entry.name for entry in above if isinstance(entry, DeviceLine)), "")
    for entry in above:
        place = entry.place_told()
        if isinstance(entry, (DeviceLine, ActorLine, SourceLine)):
            break
        if place is not None:
            return Where(place, played.places[name].moment(place) if name in played.places else None)
    return Where()


def of_view(played: Played, expectation: Expectation, part: Part) -> Outcome:
    """A line of the view at the end."""
    size = len(expectation.line)
    line = next((line for line in part.view if list(line.words[:size]) == expectation.line), None)
    if line is None:
        what = " ".join(expectation.line)
        why = f"its view has no line {what}, since the device has no such thing"
        raise wrong_expectation(played, expectation, why)
    words, wanted = list(line.words[size:]), expectation.wanted
    if is_line_held(expectation, words):
        return Outcome(expectation)
    if not is_exact(expectation):
        words = [pair for pair in words if pair.split("=")[0] in {pair.split("=")[0] for pair in wanted}]
    came = " ".join(words) or "nothing"
    return Outcome(expectation, played.end(part), f"{came} came{told_text(played, part, words, wanted)}")


def is_exact(expectation: Expectation) -> bool:
    """Is a line of a view to have nothing else than what is wanted?"""
    return expectation.line[0] in FLAG_KINDS or expectation.role == "joy" or expectation.line[0] == "current"


def is_line_held(expectation: Expectation, words: List[str]) -> bool:
    """Are these words of a view's line as they are wanted?"""
    if not is_exact(expectation):
        return set(expectation.wanted) <= set(words)
    if expectation.line[0] in (*FLAG_KINDS, "buttons"):
        return sorted(words) == sorted(expectation.wanted)
    return words == expectation.wanted


def told_text(played: Played, part: Part, words: List[str], wanted: List[str]) -> str:
    """Where the first thing that is there and was not wanted, or the other way, was told last."""
    thing = next((word for word in [*words, *wanted] if (word in words) != (word in wanted)), None)
    code = thing.split("=")[0] if thing else None
    handed = [entry for entry in part.all_of(Took) if entry.event.code == code]
    if not handed:
        return ""
    return f"; it took {handed[-1].event.text()} last, at {played.place_text(part, handed[-1].place)}"


def is_such(expectation: Expectation, entry: Entry) -> bool:
    """Is this entry of a sight an event that is spoken of?"""
    return isinstance(entry, (Took, Made, Fed)) and expectation.speaks_of(entry.event)


def place_of_entry(part: Part, entry: Entry) -> Optional[int]:
    """The place that an entry of a sight tells, or that of the last one before it that tells one."""
    before = reversed(part.sight[: part.sight.index(entry) + 1])
    return next((place for place in (each.place_told() for each in before) if place is not None), None)


def of_never(played: Played, expectation: Expectation, part: Part) -> Outcome:
    found = [entry for entry in part.sight if is_such(expectation, entry)]
    if not found:
        return Outcome(expectation)
    where = played.at(part, place_of_entry(part, found[0]))
    more = f", the first of {len(found)}" if len(found) > 1 else ""
    return Outcome(expectation, where, f"{found[0].text!r} came{more}")


def of_takes(played: Played, expectation: Expectation, part: Part) -> Outcome:
    if any(is_such(expectation, entry) for entry in part.sight):
        return Outcome(expectation)
    events = sum(isinstance(entry, (Took, Made, Fed)) for entry in part.sight)
    return Outcome(expectation, played.end(part), f"it did not come among {counted(events, 'event')}")


def of_drops(played: Played, expectation: Expectation, part: Part) -> Outcome:
    lost = [entry for entry in part.all_of(Took) if entry.event.is_loss]
    if len(lost) == int(expectation.words[0]):
        return Outcome(expectation)
    places = [played.place_text(part, entry.place) for entry in lost]
    shown = ", ".join(places if len(places) <= 4 else [*places[:3], "..", places[-1]])
    return Outcome(expectation, played.end(part), f"{len(lost)} came" + (f": {shown}" if lost else ""))


def of_agreement(played: Played, expectation: Expectation, part: Part) -> Outcome:
    client = played.clients[expectation.name]
    if not client.at_end:
        return Outcome(expectation)
    first = client.at_end[0]
    more = f", and {len(client.at_end) - 1} things more differ" if len(client.at_end) > 1 else ""
    came = f"{first.thing.text()} is {first.believed_text} for it and {first.present_text} on the device: "
    return Outcome(expectation, played.at(part, first.since or 0), f"{came}{first.cause.text}{more}")
