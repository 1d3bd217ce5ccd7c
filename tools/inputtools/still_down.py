"""What a device itself holds at its end: keys that are down and slots with a contact, with no release."""

from typing import List, NamedTuple, Optional

from inputtools.belief import TRACKING_ID, Thing
from inputtools.devicestate import DeviceState
from inputtools.places import Places


class StillDown(NamedTuple):
    """A key or a slot that is held: the thing, its value, and the place at which that began."""

    thing: Thing
    value: int
    since: Optional[int]

    def text(self, at: Places) -> str:
        """The line on it. `at` tells places."""
        is_key = self.thing.kind == "EV_KEY"
        held = f"{self.thing.text()}: down" if is_key else f"slot {self.thing.slot}: touched"
        return f"{held} on the device itself {at.since(self.since)}: no release followed"


def is_down(thing: Thing, value: int) -> bool:
    if thing.slot is not None:
        return thing.code == TRACKING_ID and value != -1
    return thing.kind == "EV_KEY" and value != 0


def still_down_of(state: DeviceState) -> List[StillDown]:
    """All that a device holds at its end, in the order in which it was pressed or touched."""
    things = [(thing, state.end_value(thing)) for thing in set(state.end) | set(state.changes)]
    found = [StillDown(*each, since_of(state, *each)) for each in things if is_down(*each)]
    return sorted(found, key=lambda held: (-1 if held.since is None else held.since, held.thing.order))


def since_of(state: DeviceState, thing: Thing, value: int) -> Optional[int]:
    """The place of the step since which a thing has its value at the end."""
    last = len(state.frames) - 1
    if state.value(thing, last) != value:
        return place_in_open_frame(state, thing)
    return state.place_of(state.last_change(thing, last))


def place_in_open_frame(state: DeviceState, thing: Thing) -> Optional[int]:
    """The place of the last step after the last frame that has an event for a thing."""
    ended = state.frame_places[-1] if state.frames else -1
    behind = [place for place in state.places if place > ended and state.history[place].words[-3:-1] == thing.event]
    return behind[-1] if behind else None
