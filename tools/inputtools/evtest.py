"""Reads what `evtest` prints: the description of a device, and its events.

The time is the realtime clock's. MSC_SCAN and MSC_RAW are printed in hexadecimal without `0x`, every other
value in decimal, and that of a SYN_REPORT not at all. Other lines, such as a list of devices before the
description, or what a terminal shows when the program is stopped, mean nothing.
"""

import re
from typing import List, Optional, Tuple

from inputtools.command import at_line, number
from inputtools.identity import ids_of
from inputtools.listing import Listing, forget_values_of_slots
from inputtools.names import MSC, SYN
from inputtools.recording import (
    GREATEST, LEAST, SYN_CONFIG, SYN_DROPPED, SYN_MT_REPORT, SYN_REPORT, UNTOLD, Event, Recording,
)

START = "Input driver version is"
NAME = re.compile(r'Input device name: "(.*)"')
IDS = re.compile(r"Input device ID: bus 0x(\w+) vendor 0x(\w+) product 0x(\w+) version 0x(\w+)")
EVENT = re.compile(r"Event: time (\d+)\.(\d{6}), (.*)")
PLAIN = re.compile(r"type (\d+) .*code (\d+) .*value (-?[0-9a-fA-F]+)\s*$")
HEXADECIMAL = {(MSC, 3), (MSC, 4)}
KNOWN_BY = re.compile(
    r"^(.*Input driver version is|Input device name: |Supported events:|.*Event: time \d)", re.MULTILINE
)
GRABBED = "This device is grabbed by another process"
WHY_GRABBED = ("evtest says that another process has grabbed the device, and it is shown no events meanwhile: "
               "stop that process, and capture again")
END_OF_LISTING = re.compile(r"\s*(Testing|Properties:)")


def parse(text: str) -> List[Recording]:
    """The recordings of a file, one for each description that it has, or one of events alone."""
    lines = text.split("\n")
    recordings: List[Tuple[Listing, Recording]] = []
    for index, line in enumerate(lines):
        if START in line or not recordings:
            recordings.append((Listing("evtest"), Recording()))
        take_line(*recordings[-1], line, index, is_last=index == len(lines) - 1)
    for listing, recording in recordings:
        if listing.device.codes or listing.device.name:
            forget_values_of_slots(listing.device)
            recording.device = listing.device
    return [recording for _, recording in recordings if recording.device or recording.events]


def take_line(listing: Listing, recording: Recording, line: str, index: int, is_last: bool) -> None:
    if "Event: time" in line:
        event = event_of(line, index)
        if event is not None:
            recording.events.append(event)
        elif is_last:
            recording.ends_in_a_line = True
        else:
            raise at_line(index, f"no event as evtest prints it: {line.strip()[:60]}")
        return
    recording.was_grabbed = recording.was_grabbed or GRABBED in line
    name, ids = NAME.search(line), IDS.search(line)
    if name:
        listing.device.name = name[1]
    elif ids:
        listing.device.identity.ids = ids_of(" ".join(ids.groups()))
    elif END_OF_LISTING.match(line):
        listing.kind = None
    else:
        listing.take(line)


def event_of(line: str, index: int) -> Optional[Event]:
    """The event of a line, or None where the line is not whole."""
    found = EVENT.search(line)
    if not found:
        return None
    time = number(found[1], 0, 2**62, "the time") * 1000000 + int(found[2])
    report = syn_event(time, found[3])
    if report:
        return report
    plain = PLAIN.match(found[3])
    if not plain:
        return None
    kind, code = (number(plain[i], 0, 65535, f"line {index + 1}: the number") for i in (1, 2))
    return Event(time, kind, code, value_of(kind, code, plain[3], index))


def value_of(kind: int, code: int, word: str, index: int) -> int:
    what = f"line {index + 1}: the value"
    if (kind, code) in HEXADECIMAL:
        value = number(word, LEAST, 2**32 - 1, what, 16)
        return value - 2**32 if value > GREATEST else value
    if not re.fullmatch(r"-?\d+", word):
        raise at_line(index, f"the value {word} is no decimal number")
    return number(word, LEAST, GREATEST, what)


def syn_event(time: int, text: str) -> Optional[Event]:
    """An event of EV_SYN, which older versions write as `Report Sync` and newer ones as `SYN_REPORT`."""
    if re.match(r">+ .* <+\s*$", text):
        return Event(time, SYN, SYN_DROPPED, 0)
    if re.match(r"\++ .* \++\s*$", text):
        return Event(time, SYN, SYN_MT_REPORT, 0)
    if re.match(r"-+ .* -+\s*$", text):
        is_config = "config" in text.lower()
        return Event(time, SYN, SYN_CONFIG, 0) if is_config else Event(time, SYN, SYN_REPORT, UNTOLD)
    return None
