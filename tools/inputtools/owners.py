"""What an owner was told of what was sent to its device, against all that was sent.

The last 15 events at most wait for an owner, of those sent and not taken yet; where one more is sent, the
oldest is lost, and nothing tells of it (docs/RULES.md, "Devices made by requests"). What was sent is the
second record's answer (`inputtools.devicestate`).
"""

from itertools import islice
from typing import List, NamedTuple

from inputtools.belief import Thing
from inputtools.command import Wrong
from inputtools.devicestate import DeviceState, Sent
from inputtools.divergences import Cause, Divergence, Point
from inputtools.report import Fed, Feedback, Part

MOST_WAITING = 15
# Lights, sounds and settings stay as they were set last; what else is sent is an event alone.
LASTING = ("EV_LED", "EV_SND", "EV_REP")
FIRST_SETTINGS = {"REP_DELAY": 250, "REP_PERIOD": 33}


class Asked(NamedTuple):
    """A feedback call: its place, and the events that it took."""

    place: int
    events: List[Sent]


class Owner:
    """An owner: its feedback calls; what was lost and what waits at the end; and the things in which what it
    was told last is not what was sent last."""

    role = "owner"

    def __init__(self, part: Part, state: DeviceState) -> None:
        self.name, self.part, self.state = part.name, part, state
        self.calls: List[Asked] = []
        self.lost: List[Sent] = []
        self.waiting: List[Sent] = []
        self.follow()
        self.divergences = self.at_end = self.parted()

    def told(self) -> List[Sent]:
        return [each for call in self.calls for each in call.events]

    def follow(self) -> None:
        """Goes through the calls, with what was sent before each."""
        sent, fed = 0, (entry.event for entry in self.part.all_of(Fed))
        for call in self.part.all_of(Feedback):
            sent, count = self.send(sent, call.place), call.count
            taken, self.waiting = self.waiting[:count], self.waiting[count:]
            if [each.event for each in taken] != list(islice(fed, count)):
                raise Wrong(f"{self.name}: what it was told is not what was sent to its device")
            self.calls.append(Asked(call.place, taken))
        self.send(sent, len(self.state.history))

    def send(self, first: int, end: int) -> int:
        """Has the events wait that were sent before a place; how many were sent until then."""
        sent = self.state.sent
        while first < len(sent) and sent[first].place < end:
            self.waiting.append(sent[first])
            first += 1
        self.lost += self.waiting[:-MOST_WAITING]
        self.waiting = self.waiting[-MOST_WAITING:]
        return first

    def parted(self) -> List[Divergence]:
        """The things that were set last by an event that it was not told, each with a divergence."""
        told = {thing_of(each): each.event.value for each in self.told()}
        last = {thing_of(each): each for each in self.state.sent}
        lost = {each.place for each in self.lost}
        point = Point("end", None, len(self.part.sight), len(self.state.frames) - 1)
        divergences = []
        for thing, sent in sorted(last.items(), key=lambda each: (each[0].kind, each[0].code)):
            believed = told.get(thing, FIRST_SETTINGS.get(thing.code, 0))
            if thing.kind in LASTING and believed != sent.event.value:
                cause = LOST if sent.place in lost else FULL if self.part.end.is_full else WAITS
                divergences.append(Divergence(thing, believed, sent.event.value, sent.place, cause, [point]))
        return divergences


def thing_of(sent: Sent) -> Thing:
    return Thing(sent.event.kind, sent.event.code)


LOST = Cause("owner-lost", f"lost before it asked: {MOST_WAITING} events wait for an owner at most")
WAITS = Cause("owner-waits", "it waits: the owner has not asked since")
FULL = Cause("owner-waits", "it waits: no more of the owner's calls are kept")
