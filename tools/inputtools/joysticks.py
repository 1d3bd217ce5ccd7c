"""A joystick's picture against its device: which buttons and axes it has, what its records tell, and where
both part.

The rules are in docs/RULES.md, "Joystick clients". A joystick's records have no place, so its picture is
compared where it found nothing more to read, and at the end.
"""

from typing import Callable, List, Optional, Set, Tuple

from inputtools.belief import Origin, Thing
from inputtools.command import Wrong
from inputtools.devicestate import DeviceState
from inputtools.divergences import Cause, Client, Point, Walk, Why
from inputtools.names import ABS, KEY, code_text
from inputtools.record import Device
from inputtools.report import Call, Event, JoyRecord, Part

BUTTON, AXIS, STARTUP = 1, 2, 0x80
FIRST_OF_ALL, FIRST_OF_JOYSTICKS = 0x100, 0x120
MOST_BUTTONS = 64
GREATEST = 32767


def things_of(description: Device) -> Tuple[List[Thing], List[Thing]]:
    """The buttons and the axes of a device as a joystick, in the order of their numbers."""
    keys = sorted(description.codes.get(KEY, ()))
    behind = [code for code in keys if FIRST_OF_ALL <= code < FIRST_OF_JOYSTICKS]
    buttons = ([code for code in keys if code >= FIRST_OF_JOYSTICKS] + behind)[:MOST_BUTTONS]
    axes = sorted(description.codes[ABS])
    return (
        [Thing("EV_KEY", code_text(KEY, code)) for code in buttons],
        [Thing("EV_ABS", code_text(ABS, code)) for code in axes],
    )


class JoyWalk(Walk):
    """One pass over what a joystick saw. `untold` are the things whose record of the last startup was not
    handed out yet."""

    def __init__(self, part: Part, state: DeviceState, cause_of: Callable[[Walk, Thing, Point], Why]) -> None:
        self.buttons, self.axes = things_of(state.description)
        self.numbered = set(self.buttons + self.axes)
        self.untold: Set[Thing] = set()
        self.startup: Optional[int] = None
        self.refused: Optional[int] = None
        self.synchronised: List[int] = []
        self.cursor, self.answered = 0, -1
        super().__init__(part, state, cause_of)
        self.sees[JoyRecord] = self.see_record

    def seen(self, thing: Thing, value: int) -> int:
        return max(-GREATEST, min(GREATEST, value)) if thing.kind == "EV_ABS" else value

    def is_other(self, thing: Thing) -> bool:
        return thing in self.numbered and super().is_other(thing)

    def own_cause(self, thing: Thing, point: Point) -> Optional[Why]:
        if thing in self.untold and self.startup is not None:
            where = self.state.at.text(self.startup)
            return Why(self.startup, Cause("startup", f"its startup of {where} was not read to its end"))
        if self.startup is None and self.refused is not None:
            where = self.state.at.text(self.refused)
            return Why(self.refused, Cause("start-refused", f"its start was refused at {where}"))
        return None

    def differing_at_end(self) -> Set[Thing]:
        return super().differing_at_end() & self.numbered

    def check(self) -> None:
        """The picture that was computed must be the one that the report has at the end."""
        lines = {line.name: list(line.words[1:]) for line in self.part.view}
        down = [str(i) for i, thing in enumerate(self.buttons) if self.belief.value(thing)]
        values = [str(self.belief.value(thing)) for thing in self.axes]
        if (down, values) != (lines["buttons"], lines["axes"]):
            raise Wrong(f"{self.part.name}: its picture is not as the report has it at the end")

    # What the joystick saw

    def see_call(self, number: int, entry: Call) -> None:
        place = entry.reply.place
        if entry.reply.is_refused:
            self.refused = place if self.answered >= 0 else self.refused
            self.answered = -1
        elif entry.step.name in ("open", "discard"):
            self.begin(entry)
        elif self.answered >= 0 and entry.step.is_question:
            self.answered += 1
            if self.answered == self.missing:
                self.begin_startup(place)

    def begin(self, entry: Call) -> None:
        """A start, or a synchronisation: it asks for all that the device has."""
        place = entry.reply.place
        if entry.step.name == "open":
            self.clients.append(Client(place, entry.reply.number))
        else:
            self.synchronised.append(place)
        self.answered, self.missing = 0, self.state.description.queries()
        if not self.missing:
            self.begin_startup(place)

    def begin_startup(self, place: int) -> None:
        """All was answered: the picture is blank, and the records of a startup follow."""
        self.answered, self.startup = -1, place
        self.belief.values, self.belief.origins = {}, {}
        self.untold = set(self.numbered)
        for thing in self.numbered:
            self.note(thing)

    def thing_of(self, record: JoyRecord) -> Thing:
        """The button or the axis that a record tells of."""
        return (self.buttons if record.kind % STARTUP == BUTTON else self.axes)[record.index]

    def see_record(self, number: int, entry: JoyRecord) -> None:
        thing = self.thing_of(entry)
        if entry.kind >= STARTUP:
            self.untold.discard(thing)
            origin = Origin(number, True, self.startup or 0)
        else:
            origin = Origin(number, False, self.place_of_event(entry.time, thing, entry.value))
        self.belief.set(thing, entry.value, origin)
        self.note(thing)

    def place_of_event(self, time: int, thing: Thing, value: int) -> int:
        """The place of the frame that a record tells of: the next one that has such an event at this time."""
        for frame in range(self.cursor, len(self.state.frames)):
            found = self.state.frames[frame]
            moment = found.time + self.state.description.realtime
            events = (event for event in found.events if (event.kind, event.code) == thing.event)
            if moment // 1000 % 2**32 == time and any(self.is_told(event, thing, value) for event in events):
                self.cursor = frame
                return found.place
        return self.state.frame_places[self.cursor] if self.state.frame_places else 0

    def is_told(self, event: Event, thing: Thing, value: int) -> bool:
        """Does a record with this value tell of the event?"""
        if event.kind == "EV_KEY":
            return event.value != 2 and int(event.value != 0) == value
        return self.seen(thing, event.value) == value
