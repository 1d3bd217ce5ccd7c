"""What a device's state must have been when a capture began, so that the kernel passed each of its events.

No form tells which keys were down or which contacts were there. It follows from the description, which
tells what was on, the values of axes and the announced slot, and from the first event on each thing: a key
that goes up first was down, and a contact that ends or moves first was there. Where an event would change
nothing its thing had another value.
"""

import copy
from typing import Dict, Iterable, Iterator, List, NamedTuple, Optional, Set, Tuple, TypeVar

from inputtools.description import REPEAT_AT_FIRST
from inputtools.names import ABS, KEY, LED, MSC, REL, REP, SLOT, SND, SW, SYN, TRACKING_ID, is_slot_value
from inputtools.recording import GREATEST, Axis, Device, Event, Frame

FLAGS = (KEY, LED, SW)

RawEvent = Tuple[int, int, int]
Values = TypeVar("Values", Dict[int, int], Dict[int, Optional[int]])


class Placed(NamedTuple):
    """An event with its frame's number and the slot that it belongs to."""

    frame: int
    slot: int
    event: Event


class State:
    """The state that raw events change, and whether one of them is passed."""

    def __init__(self, slots: int, axes: Dict[int, Axis]) -> None:
        self.slots, self.axes = slots, axes  # the axes as the device has them, for their ranges
        self.on: Dict[int, Set[int]] = {kind: set() for kind in FLAGS}
        self.repeat = dict(REPEAT_AT_FIRST)
        own = {code: axis for code, axis in axes.items() if code != SLOT and not is_slot_value(code)}
        self.values: Dict[int, Optional[int]] = {code: axis.value for code, axis in own.items()}
        self.cells: Dict[Tuple[int, int], int] = {}
        self.slot = self.staged = 0

    def copy(self) -> "State":
        other = copy.copy(self)
        other.on = {kind: set(codes) for kind, codes in self.on.items()}
        other.repeat, other.values, other.cells = dict(self.repeat), dict(self.values), dict(self.cells)
        return other

    def cell(self, slot: int, code: int) -> int:
        return self.cells.get((slot, code), -1 if code == TRACKING_ID else 0)

    def take(self, event: Event) -> bool:
        """Takes an event over; is it passed? ABS_MT_SLOT is where it names another slot."""
        kind, code, value = event.kind, event.code, event.value
        if kind in FLAGS:
            return (kind == KEY and value == 2) or self.turn(kind, code, value != 0)
        if kind == REL:
            return value != 0
        if kind == REP:
            return value >= 0 and self.set(self.repeat, code, value)
        if kind != ABS:
            return kind in (SYN, MSC, SND)
        if code == SLOT:
            self.staged = value if 0 <= value < self.slots else self.staged
            return self.staged != self.slot
        if not is_slot_value(code):
            return self.set(self.values, code, value)
        return not self.slots or self.take_cell(code, value)

    def take_cell(self, code: int, value: int) -> bool:
        is_passed = self.cell(self.staged, code) != value
        self.cells[self.staged, code] = value
        self.slot = self.staged if is_passed else self.slot
        return is_passed

    def turn(self, kind: int, code: int, on: bool) -> bool:
        is_passed = on != (code in self.on[kind])
        (self.on[kind].add if on else self.on[kind].discard)(code)
        return is_passed

    def set(self, values: Values, code: int, value: int) -> bool:
        is_passed = values.get(code) != value
        values[code] = value
        return is_passed

    def other_value(self, code: int, value: int) -> int:
        """A value beside this one, within the axis's range where it can be."""
        least = self.axes[code].minimum if code in self.axes else 0
        return value - 1 if value > least else value + 1 if value < GREATEST else value - 1


def state_described(device: Device, slots: int) -> State:
    """The state that a device was described in, as far as the description tells."""
    state = State(slots, device.axes)
    for kind in FLAGS:
        state.on[kind] = {code for code in device.on[kind] if code in device.codes.get(kind, ())}
    if REP in device.codes:
        told = {code: value for code, value in device.repeat.items() if code <= 1 and value >= 0}
        state.repeat.update(told)
    if slots and SLOT in device.axes:
        slot = device.axes[SLOT].value or 0
        state.slot = state.staged = slot if 0 <= slot < slots else 0
    return state


class Before:
    """The state before some frames: a known one, but where it would keep an event from being passed."""

    def __init__(self, known: State, frames: List[Frame], ids: Iterable[int]) -> None:
        self.state, self.frames, self.ids = known.copy(), frames, set(ids)
        self.begun: Set[Tuple[int, int, Optional[int]]] = set()
        self.repeated: Set[int] = set()
        self.new_contacts: Set[int] = set()
        self.find_slot()
        self.find_contacts()
        self.find_values()

    def find_slot(self) -> None:
        """The announced slot is not the one that the frames announce first."""
        state = self.state
        events = (event for frame in self.frames for event in frame.events)
        named = next((event.value for event in events if (event.kind, event.code) == (ABS, SLOT)), None)
        if state.slots > 1 and named == state.slot:
            state.slot = 0 if named else 1
        state.staged = state.slot

    def events(self) -> Iterator[Placed]:
        """Each event with its frame's number and the slot that it belongs to."""
        slot = self.state.slot
        for number, frame in enumerate(self.frames):
            for event in frame.events:
                if self.state.slots and (event.kind, event.code) == (ABS, SLOT):
                    slot = event.value
                else:
                    yield Placed(number, slot, event)

    def is_cell(self, event: Event) -> bool:
        return self.state.slots > 0 and event.kind == ABS and is_slot_value(event.code)

    def find_contacts(self) -> None:
        """A contact was there in each slot whose first frame ends it, or moves it and no contact comes."""
        first: Dict[int, Tuple[int, List[Event]]] = {}
        for number, slot, event in self.events():
            if self.is_cell(event) and first.setdefault(slot, (number, []))[0] == number:
                first[slot][1].append(event)
        for slot, (_, events) in first.items():
            began = next((event.value for event in events if event.code == TRACKING_ID), -1)
            if began < 0 and self.state.cell(slot, TRACKING_ID) < 0:
                self.new_contacts.add(slot)
                self.state.cells[slot, TRACKING_ID] = self.unused_id()

    def unused_id(self) -> int:
        """An id that no contact of the capture has."""
        unused = next(i for i in range(len(self.ids) + 1) if i not in self.ids)
        self.ids.add(unused)
        return unused

    def find_values(self) -> None:
        for _, slot, event in self.events():
            thing = (event.kind, event.code, slot if self.is_cell(event) else None)
            if event.kind == KEY and event.value == 2:
                self.repeated.add(event.code)
            elif thing not in self.begun:
                self.begun.add(thing)
                self.set_before(event, slot)
        self.state.on[KEY] |= {code for code in self.repeated if (KEY, code, None) not in self.begun}

    def set_before(self, event: Event, slot: int) -> None:
        """The first event on a thing is passed."""
        state, kind, code, value = self.state, event.kind, event.code, event.value
        if kind in FLAGS:
            state.turn(kind, code, value == 0)
        elif kind == REP and state.repeat.get(code) == value:
            state.repeat[code] = value + 1
        elif self.is_cell(event):
            self.set_before_in_slot(code, value, slot)
        elif kind == ABS and not is_slot_value(code) and state.values.get(code) in (None, value):
            state.values[code] = state.other_value(code, value)

    def set_before_in_slot(self, code: int, value: int, slot: int) -> None:
        state = self.state
        if code == TRACKING_ID:
            if state.cell(slot, code) == value:
                state.cells[slot, code] = self.unused_id() if value < 0 else -1
        elif slot in self.new_contacts or state.cell(slot, code) == value:
            state.cells[slot, code] = state.other_value(code, value)


def state_before(known: State, frames: List[Frame], ids: Iterable[int]) -> State:
    return Before(known, frames, ids).state


def events_between(old: State, new: State) -> List[RawEvent]:
    """The raw events, (type, code, value), that lead from one state to another."""
    events = [(kind, code, int(code in new.on[kind])) for kind in FLAGS
              for code in sorted(old.on[kind] ^ new.on[kind])]
    events += [(REP, code, value) for code, value in sorted(new.repeat.items())
               if value != old.repeat.get(code)]
    events += [(ABS, code, value) for code, value in sorted(new.values.items())
               if value is not None and value != old.values.get(code)]
    return events + (slot_events(old, new) if new.slots else [])


def slot_events(old: State, new: State) -> List[RawEvent]:
    """The values of slots that differ, those of the slot that is announced in the end last."""
    changes: Dict[int, List[RawEvent]] = {}
    cells = set(old.cells) | set(new.cells)
    for slot, code in sorted(cells, key=lambda cell: (cell[0], cell[1] != TRACKING_ID, cell[1])):
        if old.cell(slot, code) != new.cell(slot, code):
            changes.setdefault(slot, []).append((ABS, code, new.cell(slot, code)))
    events: List[RawEvent] = []
    announced = old.slot
    for slot in sorted(changes, key=lambda slot: (slot == new.slot, slot)):
        events += [(ABS, SLOT, slot)] + changes[slot]
        announced = slot
    if announced != new.slot:
        events += [(ABS, SLOT, new.slot)] + change_for_a_moment(new)
    return events


def change_for_a_moment(state: State) -> List[RawEvent]:
    """Changes a value of the announced slot for a moment: a slot is announced by a value alone."""
    codes = [code for code in sorted(state.axes) if is_slot_value(code) and code != TRACKING_ID]
    code = (codes or [TRACKING_ID])[0]
    value = state.cell(state.slot, code)
    return [(ABS, code, state.other_value(code, value)), (ABS, code, value)]
