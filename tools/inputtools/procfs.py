"""Reads /proc/bus/input/devices: stanzas of devices, with the types and codes of each as words of bits.

The highest word stands first, and leading zeros are left out; a word has the size that it has on the machine.
Ranges and values of axes and the number of slots are not told.
"""

import re
from typing import Iterable, List, Sequence

from inputtools.command import Wrong, at_line
from inputtools.identity import Identity, ids_of
from inputtools.names import ABS, KEY, LED, MSC, REL, REP, SND, SW
from inputtools.recording import Axis, Device, Recording

KINDS = {"KEY": KEY, "REL": REL, "ABS": ABS, "MSC": MSC, "LED": LED, "SND": SND, "SW": SW, "FF": 0x15}
KNOWN_BY = re.compile(r"^I: Bus=[0-9a-fA-F]{4} ", re.MULTILINE)
IDS = re.compile(r"I: Bus=(\w+) Vendor=(\w+) Product=(\w+) Version=(\w+)")
PLACE = re.compile(r"(P: Phys|U: Uniq)=(.*)$")
BITS = re.compile(r"B: (\w+)=\s*([0-9a-fA-F ]*)$")
MOST_KEYS = 0x300


def word_size(words: List[List[str]]) -> int:
    """The size of a word: 64 where one has more than 8 digits, 32 where keys take more words than with 64."""
    if any(len(word) > 8 for line in words for word in line):
        return 64
    return 32 if any(len(line) > MOST_KEYS // 64 for line in words) else 64


def codes_of(words: Sequence[str], size: int) -> List[int]:
    value = 0
    for word in words:
        value = value << size | int(word, 16)
    return bits_of(value.to_bytes(value.bit_length() // 8 + 1, "little"))


def bits_of(octets: Iterable[int]) -> List[int]:
    """The numbers of the bits that are set, those of the first octet being 0 to 7."""
    return [8 * index + bit for index, octet in enumerate(octets) for bit in range(8) if octet >> bit & 1]


def parse(text: str) -> List[Recording]:
    """The devices of a file, without events."""
    devices: List[Device] = []
    lines = text.split("\n")
    size = word_size([found[2].split() for found in map(BITS.match, lines) if found])
    for index, line in enumerate(lines):
        if line.startswith("I: Bus="):
            devices.append(Device("/proc/bus/input/devices", has_ranges=False))
            take_identity(devices[-1].identity, line)
        elif devices and line.strip():
            take_line(devices[-1], line, index, size)
    for device in devices:
        finish(device)
    return [Recording(device) for device in devices]


def take_line(device: Device, line: str, index: int, size: int) -> None:
    name = re.match(r'N: Name="(.*)"$', line)
    bits = BITS.match(line)
    if name:
        device.name = name[1]
    elif bits:
        words = bits[2].split()
        if any(len(word) > size // 4 for word in words) or len(words) > 64:
            raise at_line(index, f"bits of more than {size // 4} digits a word")
        take_bits(device, bits[1], codes_of(words, size))
    elif not take_identity(device.identity, line) and not re.match(r"[A-Z]: ", line):
        raise at_line(index, f"no line of /proc/bus/input/devices: {line.strip()[:60]}")


def take_identity(identity: Identity, line: str) -> bool:
    """Takes a line of ids, of where the device is plugged in, or of its serial number; False for another."""
    ids, place = IDS.match(line), PLACE.match(line)
    if ids:
        identity.ids = ids_of(" ".join(ids.groups()))
    elif place and place[1].startswith("P"):
        identity.phys = place[2]
    elif place:
        identity.uniq = place[2]
    return bool(ids or place)


def take_bits(device: Device, name: str, codes: List[int]) -> None:
    if name == "PROP":
        device.properties = codes
    elif name == "EV":
        for kind in codes:
            if kind:
                device.add(kind)
    elif name in KINDS:
        device.add(KINDS[name], codes)


def finish(device: Device) -> None:
    if not device.codes and not device.name:
        raise Wrong("a device without bits and without a name")
    if REP in device.codes:
        device.add(REP, [0, 1])
    for code in device.codes.get(ABS, ()):
        device.axes[code] = Axis()
