"""Reads a listing of types and codes for people, as evtest prints it and as other tools put it into comments.

    Event type 3 (EV_ABS)
      Event code 0 (ABS_X)
        Value   1231
        Min        0

The numbers count and the names do not: those are of the tool's time, and a code without one has `(?)`.
"""

import re
from typing import Match, Optional

from inputtools.command import number
from inputtools.names import ABS, KEY, LED, REP, SLOT, SW, is_slot_value
from inputtools.recording import GREATEST, LEAST, Axis, Device

TYPE = re.compile(r"\s*(Event|Repeat) type (\d+)")
CODE = re.compile(r"\s*(Event|Repeat) code (\d+)(?:.*\sstate (\d+))?")
FIELD = re.compile(r"\s*(Value|Min|Max|Fuzz|Flat|Resolution|State)\s+(-?\d+)\s*$")
PROPERTY = re.compile(r"\s*Property\s+(?:type\s+)?(\d+)")
LONGER = {"Min": "minimum", "Max": "maximum"}


class Listing:
    """Takes a listing's lines, one by one, and keeps the device that they tell."""

    def __init__(self, form: str) -> None:
        self.device = Device(form)
        self.kind: Optional[int] = None
        self.code: Optional[int] = None

    def take(self, line: str) -> None:
        for pattern, takes in ((FIELD, self.take_field), (CODE, self.take_code), (TYPE, self.take_type),
                               (PROPERTY, self.take_property)):
            found = pattern.match(line)
            if found:
                takes(found)
                return

    def take_property(self, found: Match[str]) -> None:
        self.device.properties.append(number(found[1], 0, 1023, "the property"))

    def take_type(self, found: Match[str]) -> None:
        self.kind, self.code = number(found[2], 0, 65535, "the type"), None
        if self.kind:
            self.device.add(self.kind)

    def take_code(self, found: Match[str]) -> None:
        if not self.kind:
            return
        self.code = number(found[2], 0, 65535, "the code")
        self.device.add(self.kind, [self.code])
        if self.kind == ABS:
            self.device.axes[self.code] = Axis()
        self.take_state(found[3])

    def take_state(self, state: Optional[str]) -> None:
        if state and int(state) and self.kind in (KEY, SW, LED) and self.code is not None:
            self.device.on[self.kind].add(self.code)

    def take_field(self, found: Match[str]) -> None:
        if self.kind is None or self.code is None:
            return
        if found[1] == "State":
            self.take_state(found[2])
        elif self.kind == ABS:
            name = LONGER.get(found[1], found[1].lower())
            setattr(self.device.axes[self.code], name, number(found[2], LEAST, GREATEST, found[1]))
        elif self.kind == REP and found[1] == "Value":
            self.device.repeat[self.code] = number(found[2], LEAST, GREATEST, "Value")


def complete(device: Device, listing: Device) -> None:
    """Has each axis of a description, also one without ranges, and takes over what a listing beside it tells
    besides: values of axes, and what is on."""
    for code in device.codes.get(ABS, ()):
        device.axes.setdefault(code, Axis())
    if device.axes:
        device.add(ABS, device.axes)
    for code in listing.axes.keys() & device.axes.keys():
        device.axes[code].value = listing.axes[code].value
    for kind, codes in listing.on.items():
        device.on[kind] |= codes
    device.repeat.update(listing.repeat)
    forget_values_of_slots(device)


def forget_values_of_slots(device: Device) -> None:
    """An axis whose values belong to slots has none of its own: what a tool prints there is always 0."""
    for code, axis in device.axes.items():
        if is_slot_value(code) or (code == SLOT and not device.slot_count()):
            axis.value = 0
