"""Reads a record's text: its devices with their descriptions, its actors, and its actions.

The forms of the lines are in docs/FORMATS.md. `Record` takes the text for one that the program has accepted:
what is wrong in it is for the program to say. `descriptions_of` reads the lines that `tools/describe` or
somebody wrote, and says what is wrong in them.

What a description has no place for stands in comments of the form `# state TYPE CODE VALUE`: what was on
when the device was described, the slot that was announced, and settings of the autorepeat.
"""

import os
import re
from functools import cached_property
from typing import Dict, Iterator, List, NamedTuple, Optional, Sequence, Set, Tuple

from inputtools import raw
from inputtools.command import Wrong, at_line
from inputtools.filters import filters_of
from inputtools.identity import identities_of
from inputtools.names import (
    ABS, KEY, LED, REP, SLOT, SW, TRACKING_ID, TYPES, code_text, is_in_a_record,
    is_slot_value, number_of_code, number_of_kind,
)
from inputtools.recording import GREATEST, LEAST, Axis, Device as Description, Event, Recording
from inputtools.source import read_bytes, read_text

DEVICE_WORDS = ("device", "udevice")
ROLES = ("source", "client", "tap", "joy", "owner")
FIRST_WORDS = ("inputrecord", *DEVICE_WORDS, "hint", "log", "clock", "slots", "type", "cap", "axis", "filter")
NUMBER = re.compile("-?(0x[0-9a-fA-F]+|[0-9]+)")
# How many words stand behind the first one of a description's line.
ANY = -1
COUNTS = {"hint": 1, "slots": 1, "type": 1, "cap": 2, "axis": 7, "log": 1, "clock": 2, "filter": ANY}
GREATEST_LOG, LATEST = 8388608, 9000000000000000
DEFAULT_HINT = 16

# The number of bytes of a record of an event, by the command that names the file.
RECORD_SIZES = {"stream": 24, "stream16": 16}


def number_of(word: str, low: int, high: int) -> int:
    """The number that a word of a record stands for."""
    digits = word.lstrip("-0x")
    if not NUMBER.fullmatch(word) or len(digits) > 20:
        raise Wrong(f"{word[:40]} is no number")
    value = int(digits or "0", 16 if "x" in word else 10) * (-1 if word[0] == "-" else 1)
    if not low <= value <= high:
        raise Wrong(f"the number {word[:40]} is not in {low} to {high}")
    return value


def kind_and_code(words: Sequence[str]) -> Tuple[int, int]:
    """The type and the code that two words name."""
    kind = number_of_kind(words[0])
    code = number_of_code(kind, words[1]) if kind is not None else None
    if kind is None or code is None or kind > 65535 or code > 65535:
        raise Wrong(f"{' '.join(words[:2])} is no type and code")
    return kind, code


def kind_and_code_of_a_device(words: Sequence[str]) -> Tuple[int, int]:
    kind, code = kind_and_code(words)
    if not is_in_a_record(kind, code):
        raise Wrong(f"{' '.join(words[:2])} is no type and code that a device of a record can have")
    return kind, code


# Lines


class Stream(NamedTuple):
    """A file of events that a line names, and the number of bytes of an event in it."""

    file: str
    size: int

    def events(self, folder: str) -> List[Event]:
        """Its events, whatever their types and codes are."""
        path = os.path.join(folder, self.file)
        data = read_bytes(path)
        if len(data) % self.size:
            raise Wrong(f"{path}: {len(data)} bytes are no records of {self.size}")
        records = raw.FORMS[self.size].iter_unpack(data)
        return [Event(seconds * 1000000 + micros, *event) for seconds, micros, *event in records]


class Line(NamedTuple):
    """A line of a record: its number, its text, and its words, none for a comment."""

    number: int
    text: str
    words: Tuple[str, ...]

    @property
    def first(self) -> str:
        return self.words[0] if self.words else ""

    @property
    def names_device(self) -> bool:
        return self.first in DEVICE_WORDS and len(self.words) == 2

    @property
    def names_actor(self) -> bool:
        return self.first in ROLES and len(self.words) == 2

    @property
    def is_action(self) -> bool:
        return len(self.words) > 2 and self.words[0] == "do"

    @property
    def actor(self) -> str:
        """The actor of an action, or the name of a device or an actor."""
        return self.words[1]

    @property
    def command(self) -> Tuple[str, ...]:
        """What an action does."""
        return self.words[2:]

    @property
    def stream(self) -> Optional[Stream]:
        """What an action injects by the name of a file, or None."""
        if len(self.words) != 4 or not self.is_action or self.words[2] not in RECORD_SIZES:
            return None
        return Stream(self.words[3], RECORD_SIZES[self.words[2]])

    @property
    def is_event(self) -> bool:
        return self.is_action and len(self.words) == 7 and self.words[2] == "event"

    @property
    def is_report(self) -> bool:
        return self.is_event and self.words[4] in ("EV_SYN", "0") and self.words[5] in ("SYN_REPORT", "0")

    def event(self) -> Event:
        """The event of a line `event`."""
        _, _, _, moment, *thing, value = self.words
        return Event(number_of(moment, 0, LATEST), *kind_and_code(thing), number_of(value, LEAST, GREATEST))


def line_of(number: int, text: str) -> Line:
    words = text.split()
    return Line(number, text, () if words and words[0].startswith("#") else tuple(words))


def lines_of(text: str) -> Iterator[Line]:
    return (line_of(number, line) for number, line in enumerate(text.split("\n"), 1))


def is_record(text: str) -> bool:
    """Is the first line that is no comment one of a record?"""
    first = next((line.first for line in lines_of(text) if line.words), "")
    return first in FIRST_WORDS


def roles_of(text: str) -> Dict[str, str]:
    """The roles of a record's actors, by their names. The record need not be one that the program takes."""
    return {line.actor: line.first for line in lines_of(text) if line.names_actor}


def stream_names(path: str) -> List[str]:
    """The files that the `stream` and `stream16` lines of a record name, each once."""
    streams = (line.stream for line in lines_of(read_text(path)))
    return list(dict.fromkeys(stream.file for stream in streams if stream))


# Descriptions


class Parser:
    """One device, from the lines that describe it."""

    def __init__(self, name: str = "") -> None:
        self.device, self.slot = Description("a record", name), 0

    def take(self, words: Sequence[str]) -> None:
        first, *rest = words
        if first not in COUNTS:
            raise Wrong("no line of a device's description")
        if COUNTS[first] not in (len(rest), ANY):
            raise Wrong(f"{first} wants {COUNTS[first]} words behind it")
        if first == "hint":
            self.device.hint = number_of(rest[0], 2, 512)
        elif first == "slots":
            self.device.slots = number_of(rest[0], 1, 256)
        elif first == "axis":
            _, code = kind_and_code_of_a_device(["EV_ABS", rest[0]])
            self.device.add(ABS, [code])
            self.device.axes[code] = Axis(*(number_of(word, LEAST, GREATEST) for word in rest[1:]))
        elif first in ("type", "cap"):
            self.take_cap(rest)
        else:
            self.take_other(words)

    def take_other(self, words: Sequence[str]) -> None:
        """The history's limit, the clocks and the filters, which stand in the record as they are."""
        if words[0] == "log":
            number_of(words[1], 1, GREATEST_LOG)
        elif words[0] == "clock":
            if words[1] not in ("realtime", "boottime"):
                raise Wrong(f"{words[1]} is no clock that has an offset")
            number_of(words[2], 0, LATEST)
        self.device.other_lines.append(" ".join(words))

    def take_cap(self, words: Sequence[str]) -> None:
        kind = number_of_kind(words[0])
        if kind is None or not is_in_a_record(kind, 1):
            raise Wrong(f"{words[0]} is no type that a device of a record can have")
        if kind:
            self.device.add(kind, [kind_and_code_of_a_device(words)[1]] if words[1:] else [])

    def take_state(self, words: Sequence[str]) -> None:
        kind, code = kind_and_code_of_a_device(words)
        value = number_of(words[2], LEAST, GREATEST)
        if kind in (KEY, SW, LED):
            (self.device.on[kind].add if value else self.device.on[kind].discard)(code)
        elif kind == REP:
            self.device.repeat[code] = value
        elif (kind, code) == (ABS, SLOT):
            self.slot = value

    def finished(self) -> Description:
        device = self.device
        device.slots = device.slots or 0
        if device.slots:
            device.add(ABS, [SLOT, TRACKING_ID])
            device.axes.setdefault(SLOT, Axis(0, 0, device.slots - 1)).value = self.slot
            device.axes.setdefault(TRACKING_ID, Axis(0, 0, 65535))
        return device


def descriptions_of(text: str) -> List[Description]:
    """The devices of a record, without what its actors do."""
    parsers: List[Parser] = []
    is_behind_actors = False
    for line in lines_of(text):
        words = line.text.split()
        try:
            if words[:2] == ["#", "state"] and len(words) == 5 and parsers:
                parsers[-1].take_state(words[2:])
            elif not line.words or line.first == "inputrecord":
                continue
            elif line.names_device:
                parsers.append(Parser(line.actor))
                is_behind_actors = False
            elif line.first in (*ROLES, "do") or is_behind_actors:
                is_behind_actors = True
            else:
                parsers = parsers or [Parser()]
                parsers[-1].take(line.words)
        except Wrong as wrong:
            raise at_line(line.number - 1, f"{wrong}: {line.text.strip()[:60]}") from None
    devices, identities = [parser.finished() for parser in parsers], identities_of(text)
    # (lines before the first line `device` are of a device without an identity)
    for device, identity in zip(devices[len(devices) - len(identities) :], identities):
        device.identity, device.properties = identity, identity.properties
    return devices


def parse(text: str) -> List[Recording]:
    """The devices of a record as recordings without events."""
    return [Recording(device) for device in descriptions_of(text)]


# A whole record


class Device:
    """A device of a record: its name, its lines of description but the log limit and the filters, and what
    all lines describe."""

    def __init__(self, name: str, is_requested: bool, lines: Sequence[Tuple[str, ...]]) -> None:
        self.name, self.is_requested = name, is_requested
        self.lines = [" ".join(words) for words in lines if words[0] not in ("filter", "log")]
        parser = Parser(name)
        for words in lines:
            parser.take(words)
        self.described = described = parser.finished()
        self.hint, self.slots, self.codes = described.hint or DEFAULT_HINT, described.slots or 0, described.codes
        self.codes[ABS] = {code for code in described.axes if not is_slot_value(code)} - {SLOT}
        self.filters = filters_of(described.other_lines)
        offsets = (words[2] for words in lines if words[:2] == ("clock", "realtime"))
        self.realtime = number_of(next(offsets, "0"), 0, LATEST)

    def written_codes(self, kind: str) -> Set[str]:
        """The codes of a type that a report writes of a client's belief."""
        return {code_text(TYPES[kind], code) for code in self.codes.get(TYPES[kind], ())}

    def queries(self) -> int:
        """How many queries ask for all that the device has."""
        kinds = sum(kind in self.codes for kind in (KEY, SW, LED))
        return kinds + len(self.codes[ABS]) + (self.slots > 0)


class Actor(NamedTuple):
    """A source, a client, a tap, a joystick or an owner, and the number of its device."""

    name: str
    role: str
    device: int


class Record:
    """The devices, and the actors by name."""

    def __init__(self, text: str) -> None:
        self.text = text
        self.actors: Dict[str, Actor] = {}
        devices: List[Tuple[Line, List[Tuple[str, ...]]]] = []
        # (most lines of a long record are actions, which few who read it want)
        rows = ((number, row) for number, row in enumerate(text.split("\n"), 1) if not row.startswith("do "))
        for line in (line_of(*each) for each in rows):
            if line.names_device:
                devices.append((line, []))
            elif line.names_actor:
                self.actors[line.actor] = Actor(line.actor, line.first, len(devices) - 1)
            elif line.words and line.first not in ("inputrecord", "do"):
                devices[-1][1].append(line.words)
        self.devices = [Device(line.actor, line.first == "udevice", lines) for line, lines in devices]

    @cached_property
    def actions(self) -> List[Line]:
        """The lines of the actions."""
        return [line for line in lines_of(self.text) if line.is_action]
