"""Where a client's belief and the device's state part and meet again, and what kept the event from the
client.

The belief is compared at each report that the client was handed, with the device's state at the end of that
report's frame; where it found nothing more to read, with the state at the end of the last frame; and at the
end of the record, with the state then.
"""

from dataclasses import dataclass, field
from typing import Any, Callable, Dict, Iterable, List, NamedTuple, Optional, Set, Tuple, Type

from inputtools.belief import (
    CURRENT, QUERIED_KIND, SLOT, Belief, Origin, Thing, first_difference, is_slot_code, view_of_lines,
)
from inputtools.command import Wrong
from inputtools.devicestate import DeviceState
from inputtools.progress import progress
from inputtools.report import Again, Call, Event, Part, Took

# How many entries of a sight are gone through between two words of how far it is.
TOLD_EVERY = 4096


class Point(NamedTuple):
    """A place at which a belief is compared: "report", "again" or "end", with the index of the entry and the
    number of the device's frame."""

    kind: str
    place: Optional[int]
    entry: int
    frame: int


@dataclass(frozen=True)
class Cause:
    """A cause: which of the known ones it is, and what is said of it."""

    kind: str
    text: str


class Why(NamedTuple):
    """Since which place a belief is not the device's state, None for the start, and what kept the event."""

    since: Optional[int]
    cause: Cause


@dataclass
class Divergence:
    """A thing in which belief and device differ: both values at first, since which place, why, and at which
    points.

    `since` is None where they differed from the start. `met_by` tells how they met again ("asked", "event",
    "device" or None), and `met_at` the place.
    """

    thing: Thing
    believed: int
    present: int
    since: Optional[int]
    cause: Cause
    points: List[Point] = field(default_factory=list)
    met_by: Optional[str] = None
    met_at: Optional[int] = None

    @property
    def believed_text(self) -> str:
        """What the client believed, in words."""
        return self.thing.value_text(self.believed)

    @property
    def present_text(self) -> str:
        """What the device had, in words."""
        return self.thing.value_text(self.present)


class Client(NamedTuple):
    """A client that was opened: the place, and its number."""

    opened: int
    number: int


def in_order(things: Iterable[Thing]) -> List[Thing]:
    return sorted(things, key=lambda thing: thing.order)


def is_part_of(events: List[Event], frame: List[Event]) -> bool:
    """Are these events among those of a frame, in order?"""
    rest = iter(frame)
    return all(event in rest for event in events)


class Walk:
    """One pass over what a client saw."""

    def __init__(self, part: Part, state: DeviceState,
                 cause_of: "Callable[[Walk, Thing, Point], Why]") -> None:
        self.part, self.state, self.cause_of = part, state, cause_of
        self.belief = Belief(state.description.slots)
        self.clients: List[Client] = []
        self.losses: List[int] = []
        self.discards: List[int] = []
        self.slot_of_taken: Dict[Tuple[int, str], int] = {}
        self.frame, self.reported = -1, -1
        self.taken: List[Event] = []
        self.touched: Set[Thing] = set()
        # (what the device has at the end of the present frame)
        self.present = {thing: changes.values[0] for thing, changes in state.changes.items()}
        self.differing = {thing for thing in state.changes if self.is_other(thing)}
        self.divergences: List[Divergence] = []
        self.open: Dict[Thing, Divergence] = {}
        self.answers: Optional[List[Tuple[Origin, Call]]] = None
        self.missing = 0
        self.sees: Dict[Type[Any], Callable[[int, Any], None]] = {
            Took: self.see_took, Again: self.see_again, Call: self.see_call,
        }

    def run(self) -> List[Divergence]:
        """Goes through the whole sight; those at the end. All are in `divergences` then."""
        sight, what = self.part.sight, f"{self.part.name} is compared with its device, entry"
        for number, entry in enumerate(sight):
            if number % TOLD_EVERY == 0:
                progress.tell(what, number, len(sight))
            # (of an event that the reader made itself its belief was told by the answers already)
            see = self.sees.get(type(entry))
            if see:
                see(number, entry)
        self.check()
        return self.finish(len(sight))

    def check(self) -> None:
        """The belief that was computed must be the one that the report has at the end."""
        thing = first_difference(self.belief, view_of_lines(self.part.view), self.state.description)
        if thing:
            raise Wrong(f"{self.part.name}: the belief in {thing.code} is not as the report has it at the end")

    # Comparing

    def seen(self, thing: Thing, value: int) -> int:
        """As what the client is told a value of the device."""
        return value

    def own_cause(self, thing: Thing, point: Point) -> Optional[Why]:
        """Since which place and why it differs, where that is seen of the client alone; or None."""
        return None

    def is_other(self, thing: Thing) -> bool:
        present = self.present.get(thing)
        return self.belief.value(thing) != self.seen(thing, thing.first_value if present is None else present)

    def note(self, thing: Thing) -> None:
        """Enters whether a thing differs now."""
        (self.differing.add if self.is_other(thing) else self.differing.discard)(thing)

    def move_to(self, frame: int) -> None:
        """The device's state is now that at the end of this frame. Notes all that may have changed."""
        before, self.frame = self.frame, frame
        if frame < before:
            self.present = {thing: self.state.value(thing, frame) for thing in self.state.changes}
            self.touched.update(self.present)
        for changed in self.state.changed[before + 1 : frame + 1]:
            self.present.update(changed)
            self.touched.update(changed)
        for thing in self.touched:
            self.note(thing)
        self.touched.clear()

    def compare(self, kind: str, place: int, entry: int, frame: int) -> None:
        """Compares with the state at a frame's end."""
        self.move_to(frame)
        if self.differing or self.open:
            point = Point(kind, place, entry, frame)
            self.enter({thing for thing in self.differing if not self.is_told_behind(thing, point)}, point)

    def enter(self, differing: Set[Thing], point: Point) -> None:
        """Begins, goes on with and ends divergences at a point."""
        for thing in in_order(set(self.open) - differing):
            self.meet(thing)
        for thing in in_order(differing):
            if thing not in self.open:
                self.part_at(thing, point)
            self.open[thing].points.append(point)

    def is_told_behind(self, thing: Thing, point: Point) -> bool:
        """Where nothing was left to read: was the value told by an answer after the last frame's end?"""
        origin = self.belief.origin(thing)
        if point.kind != "again" or origin is None or not origin.is_answer:
            return False
        return point.frame < 0 or origin.place > self.state.frame_places[point.frame]

    def part_at(self, thing: Thing, point: Point) -> None:
        """A divergence begins, since the frame that made the device's value another one, or since the belief
        changed."""
        since, cause = self.cause_of(self, thing, point)
        is_end, believed = point.kind == "end", self.belief.value(thing)
        present = self.state.end_value(thing) if is_end else self.state.value(thing, point.frame)
        divergence = Divergence(thing, believed, present, since, cause)
        self.open[thing] = divergence
        self.divergences.append(divergence)

    def meet(self, thing: Thing) -> None:
        """A divergence ends: by an answer, by an event, or since the device's value is the believed one
        again."""
        divergence = self.open.pop(thing)
        origin = self.belief.origin(thing)
        if origin is not None and origin.entry > divergence.points[-1].entry:
            divergence.met_by, divergence.met_at = "asked" if origin.is_answer else "event", origin.place
        else:
            last = self.state.last_change(thing, self.frame)
            divergence.met_by, divergence.met_at = "device", self.state.place_of(last)

    def finish(self, number: int) -> List[Divergence]:
        """Compares with the state at the end; the things that differ there, each with a divergence."""
        point = Point("end", None, number, len(self.state.frames) - 1)
        self.move_to(point.frame)
        differing = self.differing_at_end()
        self.enter(differing, point)
        return [self.open[thing] for thing in in_order(differing)]

    def differing_at_end(self) -> Set[Thing]:
        things = set(self.belief.values) | set(self.state.end)
        return {thing for thing in things if self.belief.value(thing) != self.end_seen(thing)}

    def end_seen(self, thing: Thing) -> int:
        """As what the client is told the device's value at the end."""
        return self.seen(thing, self.state.end_value(thing))

    # What the client saw

    def see_took(self, number: int, entry: Took) -> None:
        _, _, place, _, event = entry
        kind, code, _ = event
        self.taken.append(event)
        if kind == "EV_SYN":
            if event.is_loss:
                self.losses.append(place)
            if event.is_report:
                self.compare("report", place, number, self.frame_of_report(place))
                self.taken = []
            return
        if code != SLOT and is_slot_code(kind, code):
            self.slot_of_taken[place, code] = self.belief.value(CURRENT)
        thing = self.belief.take(event, Origin(number, False, place))
        if thing is not None:
            self.touched.add(thing)

    def frame_of_report(self, place: int) -> int:
        """The number of the frame whose report was taken. One step may end several: the next that has the
        events."""
        all_frames = self.state.frames_at.get(place, [])
        if len(all_frames) == 1:
            self.reported = all_frames[0]
            return self.reported
        frames = [frame for frame in all_frames if frame > self.reported] or all_frames
        taken = [event for event in self.taken if not event.is_loss]
        fitting = (frame for frame in frames if is_part_of(taken, self.state.frames[frame].events))
        self.reported = next(fitting, frames[-1])
        return self.reported

    def see_again(self, number: int, entry: Again) -> None:
        self.compare("again", entry.place, number, self.state.frame_before(entry.place))

    def see_call(self, number: int, entry: Call) -> None:
        step, reply = entry.step, entry.reply
        if reply.is_refused:
            self.answers = None
        elif step.name == "open":
            self.clients.append(Client(reply.place, reply.number))
            self.begin_answers()
        elif step.name == "discard":
            self.discards.append(reply.place)
            self.begin_answers()
        elif step.is_question:
            self.see_answer(number, entry)

    def begin_answers(self) -> None:
        """A reader asks for all that the device has, and takes the answers over with the last one."""
        if self.part.role == "client":
            self.answers, self.missing = [], self.state.description.queries()

    def see_answer(self, number: int, entry: Call) -> None:
        origin = Origin(number, True, entry.reply.place)
        if self.part.role == "tap":
            self.take_answer(origin, entry)
            return
        if self.answers is None:
            return
        self.answers.append((origin, entry))
        if len(self.answers) == self.missing:
            for each in self.answers:
                self.take_answer(*each)
            self.answers = None

    def take_answer(self, origin: Origin, entry: Call) -> None:
        """Takes an answer over. What a synchronisation of slots told is the device's state at its place."""
        changed: Set[Thing] = set()
        step, reply = entry.step, entry.reply
        if step.name in QUERIED_KIND:
            changed = self.belief.answer_bits(QUERIED_KIND[step.name], reply.rest, origin)
        elif step.name == "getaxis" and not is_slot_code("EV_ABS", step.code):
            thing = Thing("EV_ABS", step.code)
            changed = {thing} if self.belief.set(thing, reply.number, origin) else set()
        elif step.name == "syncslots":
            changed = self.belief.answer_slots(self.state.cells_at(origin.place), reply.slot, origin)
        for thing in changed:
            self.note(thing)
            if thing in self.open:
                self.meet(thing)
