"""Writes what a record has for other tools: a device and its sources' events as evemu has them, and what a
client read as the bytes that a read of its event node gives.

The record need not be one that the program takes: what is wrong in the lines that are read is said here.
"""

import struct
from typing import Dict, Iterable, List, Optional, Set

from inputtools import raw
from inputtools.command import Wrong, at_line
from inputtools.identity import Ids
from inputtools.names import ABS, KEY, LED, SW, SYN, TYPES, code_text, kind_text, number_of_code, number_of_kind
from inputtools.record import DEVICE_WORDS, Line, descriptions_of, lines_of
from inputtools.recording import Axis, Device, Event, index_of
from inputtools.report import Part, Took
from inputtools.source import Given

# How many bytes of bits evemu writes of a type, from which on the kernel has no more codes.
COUNTS = {SYN: 0x10, KEY: 0x300, 2: 0x10, ABS: 0x40, 4: 8, 0x15: 0x80, SW: 0x11, LED: 0x10, 0x12: 8, 0x14: 2}
KINDS_WRITTEN = (0, 1, 2, 3, 4, 5, 0x11, 0x12, 0x14, 0x15)
BUS_VIRTUAL = 6


class Source:
    """The device of a record that is exported, its sources' events in the order of the record, and notes on
    what is left out."""

    def __init__(self, given: Given, text: str, chosen: Optional[str]) -> None:
        self.path, self.folder = given.name, given.folder
        try:
            devices = descriptions_of(text)
            if not devices:
                raise Wrong("it has no device")
            self.number = index_of([device.name for device in devices], chosen)
        except Wrong as wrong:
            raise Wrong(f"{self.path}: {wrong}") from None
        self.device = devices[self.number]
        self.notes: List[str] = []
        self.events: List[Event] = []
        self.left_out: Dict[str, List[int]] = {}
        sources = self.sources_of(text)
        for line in lines_of(text):
            if line.is_action and line.actor in sources:
                self.take(line)
        self.note_left_out()

    def sources_of(self, text: str) -> Set[str]:
        """The names of the device's sources."""
        number, names = -1, set()
        for line in lines_of(text):
            number += line.first in DEVICE_WORDS
            if line.names_actor and line.first == "source" and number == self.number:
                names.add(line.actor)
        return names

    def take(self, line: Line) -> None:
        """An action of a source."""
        try:
            if line.is_event:
                self.events.append(line.event())
            elif line.stream:
                self.events += line.stream.events(self.folder)
            elif line.command[0] in ("tick", "inhibit", "uninhibit"):
                self.left_out.setdefault(line.command[0], []).append(line.number)
            else:
                raise Wrong(f"no action of a source: {' '.join(line.command)[:60]}")
        except Wrong as wrong:
            raise Wrong(f"{self.path}: {at_line(line.number - 1, wrong)}") from None

    def note_left_out(self) -> None:
        for word, lines in self.left_out.items():
            more = f" and {len(lines) - 1} more" if len(lines) > 1 else ""
            self.notes.append(f"no capture has a line `{word}`: line {lines[0]}{more} is left out")
        filters = [line for line in self.device.other_lines if line.startswith("filter ")]
        if filters:
            self.notes.append(f"the events are those before the device's filters ({filters[0]} ..)")


# evemu


def evemu_text(source: Source) -> str:
    """The device and its events as evemu-record writes them."""
    device = source.device
    lines = ["# EVEMU 1.3", f"# {device.name}, of a record of inputplay"]
    # (what evemu has no line for)
    lines += [line for line in device.identity.lines() if line.startswith(("# phys:", "# uniq:", "# began:"))]
    lines += value_comments(device)
    lines += identity_lines(device)
    for kind in KINDS_WRITTEN:
        lines += bit_lines(kind, codes_of(device, kind))
    lines += [axis_line(code, axis) for code, axis in sorted(device.axes.items())]
    lines += [f"L: {code:02x} {int(code in device.on[LED])}" for code in sorted(device.codes.get(LED, ()))]
    lines += [f"S: {code:02x} {int(code in device.on[SW])}" for code in sorted(device.codes.get(SW, ()))]
    lines.append("################################")
    lines += [event_line(event) for event in source.events]
    return "".join(line + "\n" for line in lines)


def identity_lines(device: Device) -> List[str]:
    """The name, the ids and the properties, those of a virtual device where the record does not tell them."""
    identity = device.identity
    ids = identity.ids or Ids(BUS_VIRTUAL, 0, 0, 0)
    return [
        f"N: {identity.name or device.name}",
        f"I: {' '.join(f'{number:04x}' for number in ids)}",
        f"P: {bytes_of(identity.properties, 8).hex(' ')}",
    ]


def bytes_of(codes: Iterable[int], count: int) -> bytes:
    """The bits of codes as so many bytes, the lowest one first."""
    return sum(1 << code for code in set(codes) if code < 8 * count).to_bytes(count, "little")


def codes_of(device: Device, kind: int) -> Set[int]:
    """The codes of a type; the type 0 has the same ones in each file of evemu."""
    if kind == SYN:
        return {0, 1, 3}
    return {0, 1} if kind == TYPES["EV_REP"] and kind in device.codes else device.codes.get(kind, set())


def bit_lines(kind: int, codes: Set[int]) -> List[str]:
    count = (COUNTS[kind] + 63) // 64 * 8
    octets = bytes_of(codes, count)
    return [f"B: {kind:02x} {octets[index : index + 8].hex(' ')}" for index in range(0, count, 8)]


def axis_line(code: int, axis: Axis) -> str:
    numbers = (axis.minimum, axis.maximum, axis.fuzz, axis.flat, axis.resolution)
    return " ".join([f"A: {code:02x}", *map(str, numbers)])


def value_comments(device: Device) -> List[str]:
    """The values of axes, which evemu has in comments alone."""
    if not device.axes:
        return []
    lines = ["# Supported events:", f"#   Event type {ABS} (EV_ABS)"]
    for code, axis in sorted(device.axes.items()):
        lines += [f"#     Event code {code} ({code_text(ABS, code)})", f"#       Value   {axis.value or 0:6}"]
        lines += [f"#       Min     {axis.minimum:6}", f"#       Max     {axis.maximum:6}"]
    return lines


def event_line(event: Event) -> str:
    seconds, micros = divmod(event.time, 1000000)
    name = f"{kind_text(event.kind)} / {code_text(event.kind, event.code)}"
    return f"E: {seconds}.{micros:06d} {event.kind:04x} {event.code:04x} {event.value:04d}\t# {name}"


# What a client read


def raw_bytes(part: Part, size: int) -> bytes:
    """The records of the events that a client or a tap read."""
    form, data = raw.FORMS[size], []
    for entry in part.all_of(Took):
        event = entry.event
        kind = number_of_kind(event.kind) or 0
        try:
            data.append(form.pack(*divmod(entry.time, 1000000), kind, number_of_code(kind, event.code), event.value))
        except struct.error:
            raise Wrong(f"the time of {entry.text!r} has no place in {size} bytes: leave --16 out") from None
    return b"".join(data)
