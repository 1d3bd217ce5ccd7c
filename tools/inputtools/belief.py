"""What a client believes of its device: the fold of what it read and of the answers to its queries.

A thing is what a belief has a value of. At first nothing is down or on, axes and the current slot are 0, and
no slot has a contact.
"""

from functools import lru_cache
from typing import Dict, Iterable, NamedTuple, Optional, Set, Tuple

from inputtools.record import Device
from inputtools.report import Event, ViewLine

TRACKING_ID = "ABS_MT_TRACKING_ID"
SLOT = "ABS_MT_SLOT"
BIT_KINDS = ("EV_KEY", "EV_SW", "EV_LED")
QUERIED_KIND = {"getkeys": "EV_KEY", "getswitches": "EV_SW", "getleds": "EV_LED"}
VIEW_KIND = {"keys": "EV_KEY", "switches": "EV_SW", "leds": "EV_LED"}


class Thing(NamedTuple):
    """A key, a switch, an LED or an axis; a value of a slot, with the slot's number; or the current slot."""

    kind: str
    code: str
    slot: Optional[int] = None

    @property
    def is_of_slots(self) -> bool:
        return self.slot is not None or self.code == SLOT

    @property
    def event(self) -> Tuple[str, str]:
        """The type and the code of the events that set it."""
        return self.kind, self.code

    @property
    def first_value(self) -> int:
        """What a new client believes of it."""
        return -1 if self.slot is not None and self.code == TRACKING_ID else 0

    @property
    def order(self) -> Tuple[bool, bool, int, str, str]:
        """By this things are told: keys and axes by their names, the current slot, the values of slots."""
        slot = -1 if self.slot is None else self.slot
        return self.slot is not None, self.code == SLOT, slot, self.kind, self.code

    def text(self) -> str:
        if self.slot is not None:
            return f"slot {self.slot} {self.code}"
        return "the current slot" if self.code == SLOT else self.code

    def value_text(self, value: int) -> str:
        """A value of it in words."""
        if self.kind == "EV_KEY":
            return "down" if value else "up"
        if self.kind in ("EV_SW", "EV_LED"):
            return "on" if value else "off"
        return str(value)


CURRENT = Thing("EV_ABS", SLOT)


class Setting(NamedTuple):
    """A thing that an event sets, and its value."""

    thing: Thing
    value: int


class Origin(NamedTuple):
    """Where a value comes from: the index of the entry, whether it was an answer, and the place."""

    entry: int
    is_answer: bool
    place: int


def is_slot_code(kind: str, code: str) -> bool:
    """Is this a value that belongs to a slot, or the number of one?"""
    return kind == "EV_ABS" and code.startswith("ABS_MT_")


@lru_cache(maxsize=65536)
def setting_of(event: Event, current: int, slots: int) -> Optional[Setting]:
    """What an event sets, or None. The current slot is `current` of `slots`."""
    kind, code, value = event
    if kind in BIT_KINDS:
        return None if kind == "EV_KEY" and value == 2 else Setting(Thing(kind, code), int(value != 0))
    if kind != "EV_ABS":
        return None
    if code != SLOT and is_slot_code(kind, code):
        return Setting(Thing(kind, code, current), value) if 0 <= current < slots else None
    return Setting(Thing(kind, code), value)


class Belief:
    """A client's belief: the values that are not as at first, and where that of each thing comes from."""

    def __init__(self, slots: int) -> None:
        self.slots = slots
        self.values: Dict[Thing, int] = {}
        self.origins: Dict[Thing, Optional[Origin]] = {}
        self.whole: Dict[str, Optional[Origin]] = {}

    def value(self, thing: Thing) -> int:
        found = self.values.get(thing)
        return thing.first_value if found is None else found

    def origin(self, thing: Thing) -> Optional[Origin]:
        """Where the value comes from, or None where no event and no answer told it."""
        own, whole = self.origins.get(thing), self.whole.get("slot" if thing.is_of_slots else thing.kind)
        return max(own, whole) if own and whole else own or whole

    def set(self, thing: Thing, value: int, origin: Optional[Origin]) -> bool:
        """Sets a value; True where it changed."""
        changed = self.value(thing) != value
        self.values[thing] = value
        self.origins[thing] = origin
        return changed

    def take(self, event: Event, origin: Optional[Origin]) -> Optional[Thing]:
        """Takes an event over; the thing that it sets, or None."""
        setting = setting_of(event, self.values.get(CURRENT, 0), self.slots)
        if setting is None:
            return None
        thing, value = setting
        self.values[thing], self.origins[thing] = value, origin
        return thing

    def answer_bits(self, kind: str, codes: Iterable[str], origin: Optional[Origin]) -> Set[Thing]:
        """An answer that tells all keys, switches or LEDs; the things that changed."""
        on = {Thing(kind, code) for code in codes}
        before = {thing for thing, value in self.values.items() if thing.kind == kind and value}
        for thing in on ^ before:
            self.values[thing] = int(thing in on)
        self.whole[kind] = origin
        return on ^ before

    def answer_slots(self, cells: Dict[Thing, int], current: int, origin: Optional[Origin]) -> Set[Thing]:
        """An answer that tells all values of all slots; the things that changed."""
        told = {**cells, CURRENT: current}
        before = {thing for thing in self.values if thing.is_of_slots}
        values = {thing: told.get(thing, thing.first_value) for thing in before | set(told)}
        changed = {thing for thing, value in values.items() if self.value(thing) != value}
        self.values.update(values)
        self.whole["slot"] = origin
        return changed


def view_of_lines(lines: Iterable[ViewLine]) -> Dict[Thing, int]:
    """The things of a view's lines that are not as at first, and their values."""
    values: Dict[Thing, int] = {}
    for line in lines:
        name, *words = line.words
        if name in VIEW_KIND:
            values.update({Thing(VIEW_KIND[name], code): 1 for code in words})
            continue
        if name == "current":
            values[CURRENT] = int(words[0])
            continue
        slot = int(words.pop(0)) if name == "slot" else None
        for code, _, value in (word.partition("=") for word in words):
            values[Thing("EV_ABS", code, slot)] = int(value)
    return {thing: value for thing, value in values.items() if value != thing.first_value}


def first_difference(belief: Belief, values: Dict[Thing, int], description: Device) -> Optional[Thing]:
    """The first thing in which a belief is not `values`, or None. Only what a report writes is compared."""
    written = {kind: description.written_codes(kind) for kind in (*BIT_KINDS, "EV_ABS")}
    for thing in sorted(set(belief.values) | set(values), key=lambda thing: thing.order):
        is_written = thing.is_of_slots or thing.code in written[thing.kind]
        if is_written and belief.value(thing) != values.get(thing, thing.first_value):
            return thing
    return None
