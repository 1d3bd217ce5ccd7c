"""Compares what a client of a record reads with a capture of what a real program read, and says why they
differ.

Events are paired as entries of two reports are. Times are told from the first pair on, since a capture has
the clock of its machine. The cause is what kept an event from the client, as a play tells it; else it is
guessed from what the capture has. """

from dataclasses import dataclass
from typing import Iterator, List, Optional, Sequence, Tuple

from inputtools.belief import Thing
from inputtools.causes import Causes
from inputtools.command import Wrong
from inputtools.comparing import Difference, Item, Parts, in_order
from inputtools.devicestate import Frame
from inputtools.names import code_text, kind_text
from inputtools.played import play
from inputtools.program import Player
from inputtools.recording import UNTOLD, Event as RawEvent
from inputtools.report import Entry, Event, Line, Part, Stop, Took
from inputtools.source import Given

# The clocks of some tools are rounded.
ROUNDED = 1
END = "the end"


@dataclass(frozen=True)
class Captured(Line):
    """An event of a capture: its number, its words as a report has those of an event, and its time."""

    time: int
    event: Event

    def time_told(self) -> Optional[int]:
        return self.time


def captured_of(number: int, event: RawEvent) -> Captured:
    value = 0 if event.value == UNTOLD else event.value
    told = Event(kind_text(event.kind), code_text(event.kind, event.code), value)
    return Captured(number, f"took {told.text()}", event.time, told)


def without_report(took: Took) -> Took:
    """The same event, a report's value as where a form does not tell it."""
    if not took.event.is_report:
        return took
    return took._replace(text=took.text.rpartition(" ")[0] + " 0", event=took.event._replace(value=0))


class BothParts(Parts):
    """The events of both sides, in pairs."""

    def base(self) -> int:
        """How far the clock of the capture is ahead, by the first pair."""
        return next((shift for shift, _ in Parts.shifts(self)), 0)

    def shifts(self) -> Iterator[Tuple[int, Tuple[Item, Item]]]:
        base = self.base()
        for shift, items in super().shifts():
            yield (shift - base if abs(shift - base) > ROUNDED else 0), items


class Reading:
    """What a client of a record, which is played, and a program read."""

    def __init__(self, given: Given, name: str, events: List[RawEvent], player: Player) -> None:
        devices = play(given, player)
        clients = {client.name: (client, device) for device in devices for client in device.clients}
        if name not in clients:
            listed = f"there are {', '.join(clients)}" if clients else "it has none"
            raise Wrong(f"{given.name}: no client or tap is named {name}; {listed}")
        client, self.device = clients[name]
        self.walk, took = client.walk, client.part.all_of(Took)
        if any(event.value == UNTOLD for event in events):
            took = list(map(without_report, took))
        self.captured = [captured_of(number, event) for number, event in enumerate(events, 1)]
        self.parts = BothParts(self.part(took), self.part(self.captured))

    def part(self, sight: Sequence[Entry]) -> Part:
        """The events of one side as a part of a report."""
        own = self.walk.part
        part = Part(own.role, own.name, own.device, Stop(0, END, "finished"))
        part.sight = [*sight]
        return part

    def differences(self, ignores_times: bool) -> List[Difference]:
        return in_order(self.parts.differences(ignores_times))

    def frame_of(self, captured: Captured) -> Optional[Frame]:
        """The device's frame with such an event that is the nearest in time, or None where it sends none."""
        time = captured.time - self.parts.base() - self.device.state.description.realtime
        found = [frame for frame in self.device.state.frames if captured.event in frame.events]
        return min(found, key=lambda each: abs(each.time - time)) if found else None

    def place_of(self, each: Difference) -> Optional[int]:
        """The place of a difference: of an event that the client was not given, that of its frame."""
        theirs = each.second
        frame = self.frame_of(theirs) if each.first is None and isinstance(theirs, Captured) else None
        return frame.place if frame else each.place

    def cause_of(self, each: Difference) -> str:
        """Why they likely differ."""
        ours, theirs = each.first, each.second
        if each.what.startswith("another time"):
            return "the clocks went apart, as in another run; --ignore times leaves times out"
        if isinstance(theirs, Captured):
            frame = self.frame_of(theirs)
            if frame is None and isinstance(ours, Took) and ours.event[:2] == theirs.event[:2]:
                return of_another_value(ours.event)
            kept = not_sent(theirs.event) if frame is None else self.kept_from_client(frame, theirs.event)
            if kept:
                return kept
        if isinstance(ours, Took):
            return self.kept_from_program(ours.event, each.before or theirs)
        return "nothing that is known here"

    def kept_from_client(self, frame: Frame, event: Event) -> Optional[str]:
        """What kept an event of a frame from the client, or None."""
        causes, place = Causes(self.device.state, self.device.report, lambda name: []), frame.place
        eaten = causes.of_filter(frame.eaten[frame.events.index(event)])
        clients = [client.number for client in self.walk.clients if client.opened < place]
        if eaten or not clients:
            return (eaten or causes.of_no_client(self.walk)).text
        kept = causes.of_offer(clients[-1], place)
        kept = kept or causes.of_mask(clients[-1], place, Thing(event.kind, event.code))
        lost = [loss for loss in self.walk.losses if loss >= place]
        return kept.text if kept else causes.of_loss(clients[-1], lost[0]).text if lost else None

    def kept_from_program(self, event: Event, behind: Optional[Entry]) -> str:
        """Why the program did not read what the client read, before another event."""
        if event.is_loss:
            return "the client's ring was full there, and the program read sooner"
        if all(each.event[:2] != event[:2] for each in self.captured):
            return f"the program reads no {event.code} at all: a mask of its own, or its device has none"
        if not isinstance(behind, Captured):
            return "the capture ends there"
        if behind.number == 1:
            return "the capture begins there: the program opened the device later"
        if behind.event.is_loss:
            return "the program's ring was full there: it read later than the client"
        return "another program had grabbed the device meanwhile, or this one had closed it"


def not_sent(event: Event) -> str:
    """Why the program read what the record's device does not send."""
    if event.is_loss:
        return "the program's ring was full there: it read later than the client"
    if (event.kind, event.value) == ("EV_KEY", 2):
        return "the key was repeated where the program ran, and is not in the record"
    return "the record's device does not send it: it is another device, or another run"


def of_another_value(ours: Event) -> str:
    """Why both have an event of one code, and other values."""
    if ours.is_report:
        return "SYN_REPORT 1 ends a repeat of the kernel, or a frame that was cut: only one of both had that"
    if ours.kind == "EV_ABS":
        return "the axis had another value: fuzz that was applied once more, another slot, or another run"
    return "the values differ: another run"
