"""The likeliest slot of events that name none, where a capture lost which slot was announced last.

The kernel announces a slot only where it is another one, and passes no event that changes nothing: a slot in
which the capture would have such an event is out of the question. Of the others the likeliest is the one
whose last and next values are the nearest. ABS_X and ABS_Y follow the oldest contact, so they tell whether
the events are that one's. """

from dataclasses import dataclass
from typing import Dict, List, Optional, Sequence, Tuple

from inputtools.capture import seconds
from inputtools.command import counted
from inputtools.initial_state import State
from inputtools.names import ABS, SLOT, TRACKING_ID, is_slot_value
from inputtools.recording import Event, Frame

# The position of a contact, each with the axis that follows the oldest one.
POINTERS = {0x35: 0, 0x36: 1}
# How long an axis is whose range is not told.
UNTOLD_LENGTH = 65536


@dataclass(frozen=True)
class Guess:
    """Events behind a loss that name no slot, the one that they are taken for, and whether there is no
    other."""

    lost: int
    slot: int
    events: Sequence[Event]
    is_certain: bool

    def text(self) -> str:
        first, last = self.events[0], self.events[-1]
        which = f"{first.text()} at {seconds(first.time)}"
        which += f" to {last.text()} at {seconds(last.time)}" if last is not first else ""
        return f"slot {self.slot} is a guess for {counted(len(self.events), 'event')} that name none: {which}"


class Nameless:
    """The events of slots that stand before the first one that names a slot, that slot, and the first values
    of each slot from there on."""

    def __init__(self, frames: Sequence[Frame]) -> None:
        events = [event for frame in frames for event in frame.events if event.kind == ABS]
        self.named = next((event.value for event in events if event.code == SLOT), None)
        self.pointer = {(event.time, event.code): event.value for event in events}
        self.events: List[Event] = []
        self.next: Dict[Tuple[Optional[int], int], int] = {}
        slot: Optional[int] = None
        for event in events:
            slot = event.value if event.code == SLOT else slot
            if is_slot_value(event.code) and slot is None:
                self.events.append(event)
            elif is_slot_value(event.code):
                self.next.setdefault((slot, event.code), event.value)
        self.first = {event.code: event.value for event in reversed(self.events)}
        self.last = {event.code: event.value for event in self.events}

    def is_possible(self, slot: int) -> bool:
        """Can the events be in this slot? Its next values are others then."""
        return all(self.next.get((slot, code)) != value for code, value in self.last.items())

    def distance(self, state: State, slot: int) -> float:
        """How far they are from the slot's last values and its next ones, in lengths of the axes. What is not
        known, as where a contact was before it came, counts as a whole length."""
        is_held = state.cell(slot, TRACKING_ID) >= 0 > self.first.get(TRACKING_ID, -1)
        far = 0.0
        for code in self.first.keys() - {TRACKING_ID}:
            length = max(state.axes[code].maximum - state.axes[code].minimum, 0) or UNTOLD_LENGTH
            before = state.cells.get((slot, code)) if is_held else None
            behind = self.next.get((slot, code))
            far += 1 if before is None else abs(self.first[code] - before) / length
            far += 1 if behind is None else abs(self.last[code] - behind) / length
        return far

    def pointed_at(self, state: State) -> int:
        """More than 0 where the pointer follows them, and less where it does not."""
        told = [event for event in self.events if POINTERS.get(event.code) in state.axes]
        follows = [self.pointer.get((event.time, POINTERS[event.code])) == event.value for event in told]
        return 2 * sum(follows) - len(follows)

    def likely_slots(self, state: State) -> List[int]:
        """The slots that they can be in, the likeliest first. `state` is that before the loss."""
        held = {state.cell(slot, TRACKING_ID): slot for slot in range(state.slots)}
        oldest = held.get(min((number for number in held if number >= 0), default=-2))
        pointed = self.pointed_at(state) if oldest is not None else 0

        def unlikely(slot: int) -> Tuple[float, bool, int]:
            is_other = pointed != 0 and (slot == oldest) != (pointed > 0)
            return self.distance(state, slot) + is_other, slot != state.slot, slot

        slots = sorted((slot for slot in range(state.slots) if slot != self.named), key=unlikely)
        return list(filter(self.is_possible, slots)) or slots


def guess_of(state: State, frames: Sequence[Frame]) -> Optional[Guess]:
    """The slot of the events behind a loss that name none, by the state before it; None where all do."""
    nameless = Nameless(frames)
    if not nameless.events or state.slots < 1:
        return None
    slots = nameless.likely_slots(state)
    return Guess(frames[0].lost or 0, slots[0], nameless.events, len(slots) == 1)
