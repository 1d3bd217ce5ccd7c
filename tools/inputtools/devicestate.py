"""The device's own state, as the program itself tells it.

A second record is made of the history of the first one, and played by the same program. It has the same
device and all steps that a device's state comes from: what was injected and written, ticks and inhibitions,
and axes that were described anew, in order. Nobody else is there, so there is no grab and no mask; the
filters are left out, since they keep events from clients and not from the device; and the log limit is the
greatest one. Two clients watch:

- `frames` reads whatever each step ended. So its events are the frames that were passed, and its belief at
each report is the device's state at that frame's end.
- `state` synchronises where the state is wanted as it is at a place, in the midst of a frame too: at each
synchronisation of slots, whose answer no report writes, and at the end.

Where axes were described anew, a tap `axes` describes them, which no event tells, and asks for these axes
after each step. Where the device is made by requests, an owner `owner` asks after each step that may send
it something, so it is told what each of them sent.

Their own steps are taken out again: those of the source, and the descriptions, stand for those of the first
history, one for one.
"""

import bisect
import os
import tempfile
from functools import lru_cache
from typing import Callable, Dict, List, NamedTuple, Optional, Sequence, Set, Tuple

from inputtools.belief import CURRENT, QUERIED_KIND, Belief, Thing, first_difference, view_of_lines
from inputtools.command import Wrong
from inputtools.filters import eater
from inputtools.handles import Handles
from inputtools.names import number_of_code, number_of_kind
from inputtools.places import Places
from inputtools.program import Player
from inputtools.record import GREATEST_LOG, Device
from inputtools.recording import Event as Captured
from inputtools.report import Again, Call, Event, Feedback, Fed, Made, Part, Report, Step, Took, ViewLine
from inputtools.report import Device as ReportedDevice

TEXT_LIMIT = 16777216
DESCRIPTION = "setaxis"
# The steps that a source makes, and all that a device's state comes from.
SOURCE_STEPS = frozenset(("inject", "tick", "inhibit", "uninhibit"))
STATE_STEPS = SOURCE_STEPS | {"write", DESCRIPTION}

# The types of the events that go to the device, for its owner to read; and the one code of EV_SYN.
OUTPUT_KINDS = ("EV_LED", "EV_SND", "EV_MSC", "EV_REP")
OUTPUT_SYN = "SYN_CONFIG"


class Frame:
    """A frame: the place of the step that ended it, its moment, its events, and of each of them the number of
    the filter that ate it, from 1, or None."""

    def __init__(self, place: int, time: int, events: List[Event]) -> None:
        self.place, self.time, self.events = place, time, events
        self.eaten: List[Optional[int]] = [None] * len(events)


class Changes:
    """How a thing changed: the numbers of the frames, and the values after them. Number -1 stands for the
    start."""

    def __init__(self, value: int) -> None:
        self.frames, self.values = [-1], [value]

    def add(self, frame: int, value: int) -> None:
        """The value after a frame, which is behind those that are there."""
        self.frames.append(frame)
        self.values.append(value)

    def index(self, frame: int) -> int:
        """Which change was the last one up to a frame."""
        return bisect.bisect_right(self.frames, frame) - 1


class Sent(NamedTuple):
    """An event that was sent to a device, and the place of the step that did so."""

    place: int
    event: Event


class DeviceState:
    """What is told of a device.

    `frames` are its frames, `changes` how each thing changed, and `changed` what each frame set; `frames_at`
    has for a place the numbers of the frames that its step ended, and `frame_places` the other way round.
    `sync_states` is its state at each synchronisation of slots, `end` that at the end, and `view` the lines
    in which a report has it. `sent` has what was sent to it; `handles` says what its history does of clients,
    and `at` tells places with their times.
    """

    def __init__(self, description: Device, history: List[Step]) -> None:
        self.description, self.history, self.name = description, history, description.name
        self.handles, self.at = Handles(history), Places(history)
        self.sent: List[Sent] = []
        self.frames: List[Frame] = []
        self.changes: Dict[Thing, Changes] = {}
        self.changed: List[Dict[Thing, int]] = []
        self.sync_states: Dict[int, Dict[Thing, int]] = {}
        self.end: Dict[Thing, int] = {}
        self.view: List[ViewLine] = []
        self.places = [place for place, step in enumerate(history) if step.name in STATE_STEPS]
        self.frame_places: List[int] = []
        self.frames_at: Dict[int, List[int]] = {}
        self.described = sorted({step.code for step in history if step.name == DESCRIPTION})

    def changes_of(self, thing: Thing) -> Changes:
        return self.changes.get(thing) or Changes(thing.first_value)

    def value(self, thing: Thing, frame: int) -> int:
        """The value of a thing at the end of a frame; number -1 stands for the start."""
        changes = self.changes_of(thing)
        return changes.values[changes.index(frame)]

    def end_value(self, thing: Thing) -> int:
        """The value of a thing at the end of the record, in the midst of a frame too."""
        return self.end.get(thing, thing.first_value)

    def last_change(self, thing: Thing, frame: int) -> int:
        """The number of the last frame up to `frame` that changed a thing, or -1."""
        changes = self.changes_of(thing)
        return changes.frames[changes.index(frame)]

    def other_since(self, thing: Thing, frame: int, value: int, seen: Callable[[int], int]) -> int:
        """The number of the frame since which a thing was always another than `value`, up to `frame`. `seen`
        says as what a reader is told a value."""
        changes = self.changes_of(thing)
        index = changes.index(frame)
        while index > 0 and seen(changes.values[index - 1]) != value:
            index -= 1
        return changes.frames[index]

    def eater_of(self, thing: Thing, frame: int) -> Optional[int]:
        """The number of the filter that ate the event by which a frame set a thing last, from 1, or None."""
        belief, eaten_by = Belief(self.description.slots), None
        belief.values[CURRENT] = self.value(CURRENT, frame - 1)
        for event, by in zip(self.frames[frame].events, self.frames[frame].eaten):
            eaten_by = by if belief.take(event, None) == thing else eaten_by
        return eaten_by

    def place_of(self, frame: int) -> Optional[int]:
        """The place of a frame, or None for the start."""
        return self.frame_places[frame] if frame >= 0 else None

    def frame_before(self, place: int) -> int:
        """The number of the last frame that ended before a place, or -1."""
        return bisect.bisect_left(self.frame_places, place) - 1

    def cells_at(self, place: int) -> Dict[Thing, int]:
        """The values of the slots that a synchronisation at a place was told."""
        values = self.sync_states[bisect.bisect_left(self.places, place)]
        return {thing: value for thing, value in values.items() if thing.slot is not None}

    def filter_frames(self) -> None:
        """Finds which filter ate each event, of the frames that ended while no client held the grab."""
        filters = self.description.filters
        for frame in self.frames if filters else ():
            if self.handles.grab_at(frame.place) is None:
                frame.eaten = [eater(filters, event, frame.time) for event in frame.events]


# The second record


def sync_points(state: DeviceState) -> Set[int]:
    """After how many of the source's steps a synchronisation of slots stands."""
    places = (place for place, step in enumerate(state.history) if step.name == "syncslots")
    return {bisect.bisect_left(state.places, place) for place in places}


@lru_cache(maxsize=None)
def numbers_of(kind: str, code: str) -> str:
    """A type and a code by their numbers, which are shorter than their names."""
    number = number_of_kind(kind) or 0
    return f"{number} {number_of_code(number, code)}"


def action_line(number: int, step: Step, base: int) -> str:
    """The line by which the source makes a step, or the tap describes an axis. A written event is a raw event
    as an injected one is. Moments count from `base` on, so that they are short."""
    if step.name == DESCRIPTION:
        return f"do axes{number} {DESCRIPTION} {step.rest.split(' ', 1)[1]}"
    moment, event = step.moment, step.event
    if moment is None:
        return f"do s{number} {step.text()}"
    if event is None:
        return f"do s{number} {step.name} {moment - base}"
    return f"do s{number} event {moment - base} {numbers_of(event.kind, event.code)} {event.value}"


def base_of(state: DeviceState) -> int:
    """The least moment of the device's steps; 0 where the first one has none: its frames have 0 then too."""
    moments = [state.history[place].moment for place in state.places]
    known = [moment for moment in moments if moment is not None]
    return min(known) if known and moments[0] is not None else 0


def is_read_behind(step: Step, waiting: int, hint: int) -> bool:
    """Is to be read after this step? Where more may have come than an event, and long before more events wait
    than a ring holds, which is eight times the hint."""
    return step.name not in ("inject", "write") or waiting >= hint


def is_sent(step: Step) -> bool:
    """May this step send something to the device?"""
    event = step.event
    return event is not None and (event.kind in OUTPUT_KINDS or event.code == OUTPUT_SYN)


def sending_places(state: DeviceState) -> List[int]:
    """The places of the steps after which the owner asks, where there is one."""
    places = state.places if state.description.is_requested else []
    return [place for place in places if is_sent(state.history[place])]


def device_lines(number: int, state: DeviceState) -> List[str]:
    """The lines of a device and its actors: a source `s`, the clients `frames` and `state`, a tap where axes
    are described, and an owner where it is made by requests."""
    word = "udevice" if state.description.is_requested else "device"
    lines = [f"{word} d{number}", f"log {GREATEST_LOG}"] + state.description.lines
    lines += [f"source s{number}", f"client frames{number}", f"client state{number}"]
    lines += [f"tap axes{number}"] if state.described else []
    return lines + ([f"owner owner{number}"] if state.description.is_requested else [])


def action_lines(number: int, state: DeviceState) -> List[str]:
    """What the source and both clients of a device do."""
    read, ask = [f"do frames{number} follow"], [f"do state{number} force", f"do state{number} follow"]
    axes = [f"do axes{number} axis {code}" for code in state.described]
    points, sending, base = sync_points(state), set(sending_places(state)), base_of(state)
    lines = [f"do frames{number} open", f"do frames{number} clock monotonic 0", f"do state{number} open"]
    lines += [f"do axes{number} open"] if state.described else []
    lines += ask if 0 in points else []
    waiting = 0
    for index, place in enumerate(state.places, 1):
        step = state.history[place]
        lines.append(action_line(number, step, base))
        lines += axes
        lines += [f"do owner{number} feedback 1"] if place in sending else []
        waiting += 1
        if is_read_behind(step, waiting, state.description.hint):
            lines += read
            waiting = 0
        lines += ask if index in points else []
    return lines + read + ask


def too_long(count: int, size: int) -> Wrong:
    """So many steps would need a record of this size: how many can be, and what helps."""
    most = count * TEXT_LIMIT // size // 1000 * 1000
    return Wrong(f"its devices' state can be asked for after about {most} steps at most, and there are "
                 f"{count}: take a part of the capture by tools/record --from and --to")


def check_length(events: Sequence[Captured]) -> None:
    """Refuses so many events of streams at once, where it is known before they are played."""
    base = min((event.time for event in events), default=0)
    lines = (f"do s0 event {time - base} {kind} {code} {value}\n" for time, kind, code, value in events)
    size = sum(map(len, lines))
    if size > TEXT_LIMIT:
        raise too_long(len(events), size)


def second_record(states: List[DeviceState]) -> str:
    """The text of the second record."""
    # (version 2 has all that version 1 has, and more slots)
    lines = ["inputrecord 2"]
    for lines_of in (device_lines, action_lines):
        for number, state in enumerate(states):
            lines += lines_of(number, state)
    text = "\n".join(lines) + "\n"
    if len(text) > TEXT_LIMIT:
        raise too_long(sum(len(state.places) for state in states), len(text))
    return text


# The result


class SourcePlaces:
    """The source's places of the second history, each with its place in the first history."""

    def __init__(self, device: ReportedDevice, state: DeviceState) -> None:
        taken = {call.reply.place for part in device.readers() for call in part.all_of(Call)
                 if call.step.name != DESCRIPTION and not call.reply.is_refused}
        self.own = [place for place in range(device.steps) if place not in taken]
        self.first = state.places
        if len(self.own) != len(self.first):
            raise Wrong(f"{state.name}: the second history does not have the steps of the first one")

    def last_before(self, place: int) -> int:
        """The source's last place up to a place of the second history, as one of the first history."""
        return self.first[bisect.bisect_right(self.own, place) - 1]


def start_values(part: Part) -> Dict[Thing, int]:
    """The state at the start, as the answers to a client's first queries tell it."""
    belief = Belief(0)
    starts = ("open", "getaxis", "syncslots", *QUERIED_KIND)
    for call in part.sight:
        if not isinstance(call, Call) or call.step.name not in starts:
            break
        if call.reply.name == "bits":
            belief.answer_bits(QUERIED_KIND[call.step.name], call.reply.rest, None)
        elif call.reply.name == "axis":
            belief.set(Thing("EV_ABS", call.step.code), call.reply.number, None)
    return belief.values


def frames_of(part: Part, places: SourcePlaces, base: int) -> List[Frame]:
    """The frames that the client read. Events that it made itself, since its ring ran over, stand for those
    lost."""
    frames: List[Frame] = []
    events: List[Event] = []
    time = called = 0
    for entry in part.sight:
        if isinstance(entry, Took):
            place, time = entry.place, base + entry.time
        elif isinstance(entry, Made):
            place = called
        else:
            called = entry.reply.place if isinstance(entry, Call) else called
            continue
        if not entry.event.is_loss:
            events.append(entry.event)
        if entry.event.is_report:
            frames.append(Frame(places.last_before(place), time, events))
            events = []
    return frames


def read_frames(state: DeviceState, part: Part, places: SourcePlaces) -> None:
    """The frames, and how each changed each thing."""
    belief = Belief(state.description.slots)
    belief.values = start_values(part)
    changes = state.changes = {thing: Changes(value) for thing, value in belief.values.items()}
    state.frames = frames_of(part, places, base_of(state))
    state.frame_places = [frame.place for frame in state.frames]
    for number, frame in enumerate(state.frames):
        things = (thing for event in frame.events for thing in [belief.take(event, None)] if thing)
        values = {thing: belief.values[thing] for thing in things}
        state.frames_at.setdefault(frame.place, []).append(number)
        state.changed.append(values)
        for thing, value in values.items():
            if thing not in changes:
                changes[thing] = Changes(thing.first_value)
            changes[thing].add(number, value)
    is_told_by(part, belief, state)


def read_described(state: DeviceState, part: Part, places: SourcePlaces) -> None:
    """The axes that were described anew, at the end of each frame, as the tap was told after its step."""
    told: Dict[Tuple[int, Thing], int] = {}
    for call in part.all_of(Call):
        if call.step.name == "getaxis":
            told[places.last_before(call.reply.place), Thing("EV_ABS", call.step.code)] = call.reply.number
    for thing in {thing for _, thing in told}:
        state.changes[thing] = changes = Changes(state.value(thing, -1))
        for number, frame in enumerate(state.frames):
            if changes.values[-1] != told[frame.place, thing]:
                changes.add(number, told[frame.place, thing])
                state.changed[number][thing] = told[frame.place, thing]


def read_synchronisations(state: DeviceState, part: Part) -> None:
    """The slots at each synchronisation, and the state at the end."""
    belief = Belief(state.description.slots)
    belief.values = start_values(part)
    told: List[Dict[Thing, int]] = []
    for entry in part.sight:
        if isinstance(entry, Made):
            belief.take(entry.event, None)
        elif isinstance(entry, Again):
            told.append(dict(belief.values))
    state.sync_states = dict(zip(sorted(sync_points(state)), told))
    state.end, state.view = told[-1], part.view
    is_told_by(part, belief, state)


def read_sent(state: DeviceState, part: Part) -> None:
    """What each step sent to the device, as its owner was told after it. A step sends one event at most."""
    calls, place = iter(sending_places(state)), 0
    for entry in part.sight:
        if isinstance(entry, Feedback):
            place = next(calls)
        elif isinstance(entry, Fed):
            state.sent.append(Sent(place, entry.event))


def is_told_by(part: Part, belief: Belief, state: DeviceState) -> None:
    """Refuses to go on where a client's belief is not the one that the report has at its end."""
    thing = first_difference(belief, view_of_lines(part.view), state.description)
    if thing:
        raise Wrong(f"{part.name}: {thing.text()} is not as the report has it at the end")


def ask(states: List[DeviceState], player: Player) -> None:
    """Plays the second record, and reads the state of each device from its report."""
    text = second_record(states)
    with tempfile.TemporaryDirectory() as folder:
        path = os.path.join(folder, "state.rec")
        with open(path, "w", encoding="ascii") as file:
            file.write(text)
        status, written = player.play(path, folder, what="the device's own state is asked for")
    if status != 0:
        raise Wrong(f"the record that asks for the device's state was not played: {written.strip()}")
    report = Report(written)
    for number, (device, state) in enumerate(zip(report.devices, states)):
        places = SourcePlaces(device, state)
        read_frames(state, report.parts[f"frames{number}"], places)
        if state.described:
            read_described(state, report.parts[f"axes{number}"], places)
        read_synchronisations(state, report.parts[f"state{number}"])
        if state.description.is_requested:
            read_sent(state, report.parts[f"owner{number}"])
        state.filter_frames()
