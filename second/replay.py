"""Checks what `inputplay --threads --history RECORD` printed: `python3 -m second.replay RECORD REPORT`.

The printed history of each device is played on one thread, by a second program that shares no code with the
first. Then every job does its lines of the record again. The place of each of its calls is the one that it
printed, and the reply is the one-thread device's at that place. Both reports must be the same, byte for byte;
and each step of a history must be one job's, once, in the order of its lines.

The exit status is 0 where all is so, 1 where it is not, with a line that says what differs, and 2 for words
that are wrong or a file that cannot be read.
"""

import argparse
import os
import sys
from typing import Any, Dict, List, Optional, Set, Tuple

from second.device import Caps, Device, Outputs, is_report
from second.model import (LATER_ROLES, Actor, Record, code_of, event_of, number, read_record, report,
                          single_step, source_steps, step_text, streams_of)
from second.names import ABS
from second.values import Answer, Event, Fed, Step, Streams

IDLE = 1000000

# The texts of a device's steps, and the lines of its actors by their names.
Printed = Tuple[List[str], Dict[str, List[str]]]


class Differs(Exception):
    """What was printed is not what comes of the printed history."""


def step_of(text: str) -> Step:
    """The step that a text of a history says."""
    op, *words = text.split()
    if op in ("inject", "write"):
        return (op, *map(number, words[:-3]), event_of(words[-3:]))
    if op in ("getaxis", "getslots"):
        return (op, number(words[0]), code_of(ABS, words[1]))
    step = single_step(number(words[0]), [op, *words[1:]]) if words else None
    return step or (op, *map(number, words))


class Client:
    """What a refusal asks of a client."""

    def __init__(self, client: Any) -> None:
        self.revoked: bool = client.revoked
        self.count: int = client.visible()

    def visible(self) -> int:
        return self.count


class Moment:
    """What a device refuses at one place of its history."""

    def __init__(self, device: Device) -> None:
        self.caps, self.holder, self.history = device.caps, device.holder, range(len(device.history))
        self.clients = {number: Client(client) for number, client in device.clients.items()}

    def refusal(self, step: Step) -> Optional[str]:
        moment: Any = self
        return Device.refusal(moment, step)


class Played:
    """A printed history, played on one thread: the answer at each place, and who made the step there."""

    def __init__(self, name: str, caps: Caps, texts: List[str], asked: Set[int]) -> None:
        self.device, self.answers, self.moments = Device(name, caps), [], {}
        # What each step sends to the device; and by the place of each read of a line `follow` those of the reports it took.
        self.sent: List[List[Event]] = []
        self.followed: Dict[int, List[int]] = {}
        for place, text in enumerate(texts):
            if place in asked:
                self.moments[place] = Moment(self.device)
            step = step_of(text)
            self.device.outputs = Outputs(caps.log)
            reply, written = self.device.step(step)
            if step_text(step) != text or reply[0] in ("again", "refused"):
                raise Differs(f"device {name}: step {place} {text} is answered {reply[0]}")
            self.answers.append((reply, written))
            self.sent.append(self.device.outputs.waiting)
        self.moments[len(texts)] = Moment(self.device)
        self.callers: List[Optional[str]] = [None] * len(texts)

    def ends(self, place: int) -> int:
        return self.device.history[:place].count(("end",))

    def claim(self, place: int, step: Step, caller: str) -> Answer:
        if not place < len(self.callers) or self.device.history[place] != step:
            raise Differs(f"{caller}: its call {step_text(step)} is not step {place} of the history")
        if self.callers[place] is not None:
            raise Differs(f"{caller}: step {place} is also a call of {self.callers[place]}")
        self.callers[place] = caller
        return self.answers[place]

    def changes(self) -> int:
        """In how many places the job changes: the step is another job's than the one before. All sources count as one job."""
        return sum(caller != before for before, caller in zip(self.callers, self.callers[1:]))

    def waits(self) -> int:
        """How many reads of lines `follow` took frames that all ended behind the step that their job made before."""
        last: Dict[Optional[str], int] = {}
        count = 0
        for place, caller in enumerate(self.callers):
            reports = self.followed.get(place)
            count += bool(reports and min(reports) > last[caller])
            last[caller] = place
        return count

    def refuse(self, place: int, step: Step, caller: str) -> Answer:
        why = self.moments[place].refusal(step) if place in self.moments else None
        if why is None:
            raise Differs(f"{caller}: its call {step_text(step)} is not refused at {place}")
        return (("again", place) if why == "again" else ("refused", place, why)), None


class Share:
    """The device as one job saw it: its calls have the places that the job printed, which rise."""

    def __init__(self, played: Played, name: str, told: List[str]) -> None:
        self.played, self.name, self.caps, self.history = played, name, played.device.caps, played.device.history
        self.told = iter([place_and_word(line) for line in told if is_call(line)])
        self.told_feedback = iter([place for line in told for place in places_of_feedback(line)])
        self.outputs = Outputs(self.caps.log)
        self.seen, self.follows = 0, False

    def step(self, step: Step) -> Answer:
        place, word = next(self.told, (None, None))
        if place is None:
            raise Differs(f"{self.name}: it printed no call {step_text(step)}")
        if place < self.seen:
            raise Differs(f"{self.name}: its call {step_text(step)} at {place} is below what it had seen")
        is_refused = word in ("again", "refused")
        self.seen = place + (not is_refused)
        answer = (self.played.refuse if is_refused else self.played.claim)(place, step, self.name)
        if self.follows and answer[0][0] == "took":
            self.played.followed[place] = [at for event, _, at in answer[1] if is_report(event)]
        return answer

    def feedback(self, room: int) -> Fed:
        """A feedback call, which takes of what the steps before the place sent that the owner printed."""
        place = next(self.told_feedback, None)
        if place is None:
            raise Differs(f"{self.name}: it printed no call feedback {room}")
        if not self.seen <= place <= len(self.history):
            raise Differs(f"{self.name}: its feedback call at {place} is below what it had seen, or past the history")
        for events in self.played.sent[self.seen : place]:
            self.outputs.send(events)
        self.seen = place
        return place, self.outputs.feedback(room)


def is_call(line: str) -> bool:
    return line.startswith(("call ", "again "))


def place_and_word(line: str) -> Tuple[int, str]:
    """The place that a call's line has, and the first word of its reply."""
    words = line.split(" reply ")[-1].split()
    return int(words[1]), words[0]


def places_of_feedback(line: str) -> List[int]:
    """The history's length that an owner's line has, if it has one: that of a feedback call, or of its stop."""
    words = line.split()
    if words[0] == "feedback":
        return [int(words[1])]
    return [int(words[2])] if words[:2] == ["stop", "full"] else []


class Job(Actor):
    """An actor that is no source and does its lines again."""

    def __init__(self, name: str, role: str, share: Share, sources: int, idle: int) -> None:
        super().__init__(name, role, share)
        self.sources, self.idle = sources, idle

    def do_client(self, words: List[str], streams: Streams) -> None:
        self.device.follows = words[0] == "follow"
        super().do_client(words, streams)
        last = self.sight[-1].split() if words[0] == "follow" else [""]
        if last[0] == "again" and self.device.played.ends(int(last[1])) < self.sources:
            self.stop = f"idle {self.idle} {last[1]}"


class Source(Actor):
    """A source: its calls are not printed, so it says how many there were and how they ended."""

    def __init__(self, name: str, share: Share, steps: List[Step], told: str) -> None:
        super().__init__(name, "source", share)
        count, _, stop = told.split(maxsplit=2)
        self.accepted, self.steps = int(count), steps[: int(count)]
        if stop == "finished":
            self.accepted, self.steps = len(steps), steps + [("end",)]
        elif len(share.history) < share.caps.log:
            raise Differs(f"{name}: it stopped {stop}, and the history has room")
        else:
            self.stop = f"full {len(share.history)}"


def share_out(played: Played, sources: List[Any]) -> None:
    """The steps that no other job made are those of the sources, each in its own order."""
    states = {(0,) * len(sources)}
    for place, step in enumerate(played.device.history):
        if played.callers[place] is None:
            states = {
                (*state[:i], state[i] + 1, *state[i + 1 :])
                for state in states
                for i, source in enumerate(sources)
                if state[i] < len(source.steps) and source.steps[state[i]] == step
            }
        if not states:
            raise Differs(f"device {played.device.name}: step {place} {step_text(step)} is nobody's next call")
    if tuple(len(source.steps) for source in sources) not in states:
        raise Differs(f"device {played.device.name}: a source's call is not in the history")


def parts_of(lines: List[str]) -> Tuple[List[Printed], Dict[str, List[str]]]:
    """For each device its steps' texts, and its parts by their actors' names; beside them the parts of joysticks and owners."""
    devices: List[Printed] = []
    later: Dict[str, List[str]] = {}
    part: List[str] = []
    for line in lines:
        word, *words = line.split(" ", 2)
        if word == "device":
            devices.append(([], {}))
        elif not devices:
            raise Differs(f"it begins with no device, but with {line!r}")
        elif word == "step":
            devices[-1][0].append(words[1])
        elif word in ("source", "client", "tap"):
            part = devices[-1][1].setdefault(words[0], [])
            part += words[1:]
        elif word in LATER_ROLES:
            part = later.setdefault(words[0], [])
        else:
            part.append(line)
    return devices, later


def replay_device(i: int, record: Record, printed: Printed, streams: Streams,
                  idle: int) -> Tuple[Played, List[Any]]:
    """A device as its printed history has it, and its jobs with what they saw."""
    name, caps = record.descriptions[i]
    texts, parts = printed
    actors = [(actor, role) for actor, role, device in record.actors if device == i]
    asked = {place_and_word(line)[0] for actor, _ in actors for line in parts.get(actor, ()) if is_call(line)}
    played = Played(name, caps, texts, asked)
    sources = sum(role == "source" for _, role in actors)
    jobs: List[Any] = []
    for actor, role in actors:
        if actor not in parts:
            raise Differs(f"{actor} is not in the report")
        share = Share(played, actor, parts[actor])
        lines = [words for who, *words in record.actions if who == actor]
        if role == "source":
            steps = [step for words in lines for step in source_steps(words, streams)]
            jobs.append(Source(actor, share, steps, parts[actor][0].split(" ", 1)[1]))
        else:
            jobs.append(Job(actor, role, share, sources, idle))
            for words in lines:
                jobs[-1].do(words, streams)
    share_out(played, [job for job in jobs if job.role == "source"])
    for job in jobs:
        job.device = played.device
    return played, jobs


def replay(text: str, printed: List[str], folder: str = ".",
           idle: int = IDLE) -> Tuple[List[str], List[Played]]:
    """The report that comes of a printed one's histories, and the devices; `Differs` where none does."""
    record = read_record(text)
    devices, later = parts_of(printed)
    if len(devices) != len(record.descriptions):
        raise Differs(f"the record has {len(record.descriptions)} devices, and the report {len(devices)}")
    devices = [(texts, {**later, **parts}) for texts, parts in devices]
    ended = [replay_device(i, record, device, streams_of(folder), idle) for i, device in enumerate(devices)]
    lines = report([played.device for played, _ in ended], [job for _, jobs in ended for job in jobs], history=True)
    return lines, [played for played, _ in ended]


def check(text: str, printed: List[str], folder: str = ".", idle: int = IDLE) -> List[Played]:
    """The devices of a printed report, each a `Played`. Raises `Differs` where it is not what comes of its histories."""
    try:
        wanted, devices = replay(text, printed, folder, idle)
    except (IndexError, KeyError, ValueError) as error:
        raise Differs(f"it has a line that is none of a report ({error})") from error
    for number, (line, other) in enumerate(zip(wanted, printed), start=1):
        if line != other:
            raise Differs(f"line {number} is {other!r}, and {line!r} comes of the history")
    if len(wanted) != len(printed):
        raise Differs(f"the report has {len(printed)} lines, and {len(wanted)} come of the history")
    return devices


def status_of(printed: List[str]) -> int:
    """The status of a run that printed this: 6 where the history of a device was full."""
    return 6 if any(" full " in line for line in printed if line.startswith(("stop ", "source "))) else 0


def text_of(path: str) -> str:
    """The text of a record or a report. A comment may have any bytes."""
    with open(path, encoding="latin1", newline="") as file:
        return file.read()


def main() -> int:
    parser = argparse.ArgumentParser(prog="second.replay", description=__doc__, formatter_class=argparse.RawDescriptionHelpFormatter)
    parser.add_argument("--idle", type=int, default=IDLE, help=f"what the program was given ({IDLE})")
    parser.add_argument("record", help="the record's file")
    parser.add_argument("report", help="what the program printed of it with --threads and --history")
    words = parser.parse_args()
    try:
        text, printed = text_of(words.record), text_of(words.report).split("\n")[:-1]
        check(text, printed, os.path.dirname(os.path.abspath(words.record)), words.idle)
    except OSError as error:
        parser.error(str(error))
    except Differs as error:
        print(f"second.replay: {error}", file=sys.stderr)
        return 1
    return 0


if __name__ == "__main__":
    sys.exit(main())
