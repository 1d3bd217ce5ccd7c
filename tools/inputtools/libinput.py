"""Reads the YAML that `libinput record` writes, as far as it tells of devices and their events.

It is read line by line, as that program writes it. Values of axes and what is on stand in comments alone.
Without `--show-keycodes` most keys are written as KEY_A and each MSC_SCAN as 30, and comments say that they
were obfuscated.
"""

import re
from typing import List

from inputtools.command import Wrong, at_line, number
from inputtools.identity import Ids
from inputtools.listing import Listing, complete
from inputtools.names import KEY, MSC
from inputtools.recording import GREATEST, LEAST, Axis, Device, Event, Recording

KNOWN_BY = re.compile(r"^(# libinput record|ndevices:|devices:\s*$|\s*- node: /dev/input)", re.MULTILINE)
MSC_SCAN, HIDDEN = 4, 30
DEVICE = re.compile(r"\s*- node:")
SECTION = re.compile(r"\s*(codes|absinfo|properties|udev|quirks|events|hid|name|id|evdev):\s*(.*)$")
LIST = re.compile(r"\s*(\d+):\s*\[(.*?)\]\s*(?:#.*)?$")
KIND_OF_EVENT = re.compile(r"\s*- (\w+):\s*$")
EVENT = re.compile(r"\s*- \[(.*)\]\s*(#.*)?$")


class Parser:
    """One device and its events."""

    def __init__(self) -> None:
        self.device, self.listing = Device("libinput record"), Listing("libinput record")
        self.recording, self.section, self.kind = Recording(), "", ""

    def take(self, line: str, index: int, is_last: bool) -> None:
        stripped = line.strip()
        if stripped.startswith("#"):
            self.listing.take(stripped[1:])
        elif self.section == "events":
            self.take_in_events(line, index, is_last)
        else:
            self.take_in_description(line, index)

    def take_in_description(self, line: str, index: int) -> None:
        section = SECTION.match(line)
        if section:
            self.take_section(*section.groups())
            return
        if self.section not in ("codes", "absinfo") or not line.strip():
            return
        found = LIST.match(line)
        try:
            if not found:
                raise ValueError
            self.take_list(int(found[1]), found[2])
        except (Wrong, ValueError):
            raise at_line(index, f"no list of numbers: {line.strip()[:60]}") from None

    def take_section(self, name: str, rest: str) -> None:
        self.section = name
        if name == "name":
            rest = rest.strip()
            self.device.name = re.sub(r"\\(.)", r"\1", rest[1:-1]) if rest.startswith('"') else rest
        elif name == "id":
            numbers = [int(word) for word in re.findall(r"\d+", rest.partition("#")[0])]
            self.device.identity.ids = Ids(*numbers) if len(numbers) == 4 else None
        elif name == "properties" and rest.startswith("["):
            self.device.properties = [int(word) for word in re.findall(r"\d+", rest.partition("#")[0])]

    def take_list(self, key: int, text: str) -> None:
        words = [word.strip() for word in text.split(",") if word.strip()]
        values = [number(word, LEAST, GREATEST, "the number") for word in words]
        if self.section == "absinfo":
            if len(values) not in (4, 5):
                raise Wrong("an axis has five numbers")
            self.device.axes[key] = Axis(None, *values)
        elif key:
            self.device.add(key, values)

    def take_in_events(self, line: str, index: int, is_last: bool) -> None:
        kind = KIND_OF_EVENT.match(line)
        if kind:
            self.kind = kind[1]
            return
        if self.kind != "evdev" or not re.match(r"\s*[-\[]", line):
            return
        found = EVENT.match(line)
        if found and self.take_event(found[1], found[2] or "", index):
            return
        if not is_last:
            raise at_line(index, f"no event as libinput writes it: {line.strip()[:60]}")
        self.recording.ends_in_a_line = True

    def take_event(self, text: str, comment: str, index: int) -> bool:
        words = [word.strip() for word in text.split(",")]
        if len(words) != 5 or not all(re.fullmatch(r"-?\d+", word) for word in words):
            return False
        what = f"line {index + 1}: the number"
        bounds = [(0, 2**62), (0, 999999), (0, 65535), (0, 65535), (LEAST, GREATEST)]
        seconds, micros, kind, code, value = (number(w, *bound, what) for w, bound in zip(words, bounds))
        self.recording.events.append(Event(seconds * 1000000 + micros, kind, code, value))
        if "obfuscated" in comment:
            self.recording.hides_keys |= kind == KEY
            self.recording.hides_scan_codes |= (kind, code) == (MSC, MSC_SCAN)
        return True

    def finished(self) -> Recording:
        complete(self.device, self.listing.device)
        self.find_hidden()
        self.recording.device = self.device
        return self.recording

    def find_hidden(self) -> None:
        """A file without comments shows it too: each scan code is 30, also that of other keys than KEY_A."""
        events = self.recording.events
        scans = {event.value for event in events if (event.kind, event.code) == (MSC, MSC_SCAN)}
        keys = {after.code for event, after in zip(events, events[1:])
                if (event.kind, event.code) == (MSC, MSC_SCAN) and after.kind == KEY}
        if scans == {HIDDEN} and keys - {HIDDEN}:
            self.recording.hides_scan_codes = True
            self.recording.hides_keys |= HIDDEN in keys


def parse(text: str) -> List[Recording]:
    """The recordings of a file, one for each device."""
    parsers, lines = [], text.split("\n")
    for index, line in enumerate(lines):
        version = re.match(r"version:\s*(\S+)", line)
        if version and version[1] != "1":
            raise at_line(index, f"version {version[1]} of libinput's recordings is not known here")
        if DEVICE.match(line):
            parsers.append(Parser())
        elif parsers:
            parsers[-1].take(line, index, is_last=index == len(lines) - 1)
    return [parser.finished() for parser in parsers]
