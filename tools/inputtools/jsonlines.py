"""One JSON object a line, of what `tools/play`, `tools/stuck` and `tools/describe` say. docs/JSON.md has the
objects."""

import json
from typing import Any, Dict, List, Optional, Sequence

from inputtools.belief import Thing
from inputtools.devicestate import Sent
from inputtools.divergences import Divergence, Point
from inputtools.joysticks import JoyWalk
from inputtools.owners import Owner
from inputtools.places import Places
from inputtools.played import PlayedDevice, Reader, cut_of
from inputtools.report import (
    BEHIND, ActorLine, Again, Call, DeviceLine, Entry, Event, Fed, Feedback, JoyRecord, Made, SourceLine,
    StepLine, Stop, Took, ViewLine, cut_text, entry_of,
)
from inputtools.still_down import still_down_of

Fields = Dict[str, Any]


def line_of(kind: str, **more: object) -> str:
    """An object of a kind, as a line."""
    return json.dumps({"kind": kind, **more}, ensure_ascii=True, separators=(", ", ": "))


def event_fields(event: Event) -> Fields:
    return {"type": event.kind, "code": event.code, "value": event.value}


# A report, line by line


class ReportLines:
    """The objects of a report's lines. It is given one line after another."""

    def __init__(self, file: str) -> None:
        self.file = file
        self.device: Optional[str] = None
        self.actor: Fields = {}

    def line(self, text: str) -> str:
        """The object of a line of the report."""
        entry = entry_of(0, text)
        if isinstance(entry, DeviceLine):
            self.device, self.actor = entry.name, {}
            return self.of("device", steps=entry.steps)
        if isinstance(entry, StepLine):
            return self.of("step", place=entry.place, step=list(entry.step.words))
        if isinstance(entry, SourceLine):
            return self.of("source", role="source", name=entry.name, calls=entry.calls, stop=entry.reason)
        if isinstance(entry, ActorLine):
            self.device = None if entry.role in BEHIND else self.device
            self.actor = {"role": entry.role, "name": entry.name}
            return self.of("actor")
        return self.of("view" if isinstance(entry, ViewLine) else text.split(" ", 1)[0], **fields_of(entry))

    def of(self, kind: str, **more: object) -> str:
        device: Fields = {} if self.device is None else {"device": self.device}
        return line_of(kind, file=self.file, **{**device, **self.actor, **more})


def fields_of(entry: Entry) -> Fields:
    """What a line of an actor's part says."""
    if isinstance(entry, Call):
        return {"step": list(entry.step.words), "reply": list(entry.reply.words)}
    if isinstance(entry, Took):
        return {"place": entry.place, "time": entry.time, **event_fields(entry.event)}
    if isinstance(entry, (Made, Fed)):
        return event_fields(entry.event)
    if isinstance(entry, Again):
        return {"place": entry.place}
    if isinstance(entry, JoyRecord):
        return {"time": entry.time, "value": entry.value, "type": entry.kind, "number": entry.index}
    if isinstance(entry, Feedback):
        return {"place": entry.place, "count": entry.count}
    if isinstance(entry, ViewLine):
        return {"what": entry.name, "words": list(entry.words[1:])}
    return {"stop": entry.reason} if isinstance(entry, Stop) else {}


# Where beliefs and devices part


def moment_fields(at: Places, place: Optional[int]) -> Fields:
    """A place and its time, both None where no place is given."""
    return {"place": place, "time": None if place is None else at.moment(place)}


def thing_fields(thing: Thing) -> Fields:
    """A thing: its name, its type and code, and the number of its slot."""
    slot = {} if thing.slot is None else {"slot": thing.slot}
    return {"thing": thing.text(), "type": thing.kind, "code": thing.code, **slot}


def point_fields(at: Places, point: Point) -> Fields:
    seen = {"at": {"again": "nothing-left"}.get(point.kind, point.kind)}
    return seen if point.place is None else {**seen, **moment_fields(at, point.place)}


def divergence_line(device: PlayedDevice, reader: Reader, divergence: Divergence) -> str:
    at, how = device.state.at, divergence.met_by
    return line_of(
        "parting",
        **named(device, reader),
        **thing_fields(divergence.thing),
        believed=divergence.believed,
        present=divergence.present,
        since=moment_fields(at, divergence.since),
        cause=divergence.cause.kind,
        text=divergence.cause.text,
        seen=[point_fields(at, point) for point in divergence.points],
        met=None if how is None else {"how": how, **moment_fields(at, divergence.met_at)},
    )


def named(device: PlayedDevice, reader: Reader) -> Fields:
    return {"device": device.name, "role": reader.role, "name": reader.name}


def sent_fields(at: Places, sent: Sequence[Sent]) -> List[Fields]:
    return [{**moment_fields(at, each.place), **event_fields(each.event)} for each in sent]


def reader_line(device: PlayedDevice, reader: Reader) -> str:
    """The object of a reader itself, before those of its divergences."""
    at = device.state.at
    if isinstance(reader, Owner):
        told = {"told": reader.told(), "lost": reader.lost, "waiting": reader.waiting}
        more = {what: sent_fields(at, sent) for what, sent in told.items()}
        return line_of("reader", **named(device, reader), calls=len(reader.calls), **more)
    walk = reader.walk
    losses = walk.losses + (walk.synchronised if isinstance(walk, JoyWalk) else [])
    lost = [moment_fields(at, place) for place in losses]
    return line_of("reader", **named(device, reader), opened=bool(walk.clients), losses=lost)


def end_line(device: PlayedDevice, reader: Reader) -> str:
    things = [divergence.thing.text() for divergence in reader.at_end]
    return line_of("end", **named(device, reader), agrees=not things, things=things)


def cut_lines(devices: Sequence[PlayedDevice]) -> List[str]:
    """The object of a play that was cut, if it was."""
    cut = cut_of(devices)
    if cut is None:
        return []
    return [line_of("cut", role=cut.role, name=cut.name, place=cut.end.place_told(), text=cut_text(cut))]


def stuck_lines(devices: Sequence[PlayedDevice]) -> List[str]:
    """The objects that say where beliefs and devices part."""
    lines = cut_lines(devices)
    for device in devices:
        lines.append(line_of("device", device=device.name, steps=device.report.steps))
        for reader in device.readers():
            lines.append(reader_line(device, reader))
            if isinstance(reader, Owner) or reader.walk.clients:
                lines += [divergence_line(device, reader, divergence) for divergence in reader.divergences]
                lines.append(end_line(device, reader))
        for held in still_down_of(device.state):
            more = {"value": held.value, "since": moment_fields(device.state.at, held.since)}
            lines.append(line_of("held", device=device.name, **thing_fields(held.thing), **more))
        lines += [line_of("state", device=device.name, **fields_of(line)) for line in device.state.view]
    return lines


# Descriptions


# The fields of a line by its first word. Those of all other lines are `words`.
FIELDS = {
    "cap": "type code", "type": "type", "device": "device", "hint": "count", "slots": "count", "log": "count",
    "axis": "code value minimum maximum fuzz flat resolution",
}
NAMES = ("type", "code", "device")


def description_line(line: str) -> str:
    """The object of a description's line, which may be a comment."""
    if line.startswith("#"):
        return line_of("comment", text=line[1:].strip())
    first, *words = line.split()
    if first not in FIELDS:
        return line_of(first, words=words)
    fields = zip(FIELDS[first].split(), words)
    return line_of(first, **{name: word if name in NAMES else int(word) for name, word in fields})
