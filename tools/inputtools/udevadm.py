"""Reads a device as `udevadm info` tells it: `udevadm info -a /dev/input/event5`, or that of a whole machine,
`udevadm info --export-db`.

It tells types and codes as /proc/bus/input/devices does, without ranges of axes and without slots, and who
the device is. A block of its lines is an input device where it has the bits of the types.
"""

import re
from typing import Dict, List

from inputtools.command import Wrong
from inputtools.identity import Identity, ids_of
from inputtools.procfs import KINDS, codes_of, finish, take_bits, word_size
from inputtools.recording import Device, Recording

START = re.compile(r"P: /|  looking at (?:parent )?device '")
ATTRIBUTE = re.compile(r'    ATTRS?\{([^}]*)\}=="(.*)"\s*$')
VALUE = re.compile(r"E: (\w+)=(.*?)\s*$")
KNOWN_BY = re.compile(r"^(    ATTRS?\{capabilities/ev\}==|E: EV=[0-9a-f])", re.MULTILINE)
MOST_WORDS = 64
IDS = ("id/bustype", "id/vendor", "id/product", "id/version")


def blocks_of(text: str) -> List[Dict[str, str]]:
    """The values of each block by the names of attributes, whichever of the two ways tells them."""
    blocks: List[Dict[str, str]] = [{}]
    for line in text.split("\n"):
        attribute, value = ATTRIBUTE.match(line), VALUE.match(line)
        if START.match(line):
            blocks.append({})
        elif attribute:
            blocks[-1][attribute[1]] = attribute[2]
        elif value:
            blocks[-1].update(attribute_of(value[1], value[2]))
    return [block for block in blocks if "capabilities/ev" in block]


def attribute_of(name: str, value: str) -> Dict[str, str]:
    """What a value of the device's own environment says as attributes."""
    if name in ("NAME", "PHYS", "UNIQ"):
        return {name.lower(): value[1:-1] if value[:1] == '"' else value}
    if name == "PROP":
        return {"properties": value}
    if name == "PRODUCT" and value.count("/") == 3:
        return dict(zip(IDS, value.split("/")))
    return {f"capabilities/{name.lower()}": value} if name == "EV" or name in KINDS else {}


def bits_of(block: Dict[str, str], name: str, size: int) -> List[int]:
    """The bits of an attribute, none where it is not told."""
    text = block.get(name, "0")
    words = text.split()
    if not all(re.fullmatch("[0-9a-fA-F]{1,16}", word) for word in words) or len(words) > MOST_WORDS:
        raise Wrong(f"the bits of {name} are no hexadecimal words: {text[:60]}")
    return codes_of(words, size)


def device_of(block: Dict[str, str], size: int) -> Device:
    """The device of a block, whose words have so many bits."""
    device = Device("udevadm info", block.get("name", ""), has_ranges=False)
    ids = " ".join(block.get(word, "") for word in IDS)
    device.identity = Identity(device.name, block.get("phys", ""), block.get("uniq", ""), ids_of(ids))
    device.properties = bits_of(block, "properties", size)
    take_bits(device, "EV", bits_of(block, "capabilities/ev", size))
    for name in KINDS:
        codes = bits_of(block, f"capabilities/{name.lower()}", size)
        if codes:
            take_bits(device, name, codes)
    finish(device)
    return device


def parse(text: str) -> List[Recording]:
    """The devices that a file tells of, without events."""
    blocks = blocks_of(text)
    bits = [value for block in blocks for name, value in block.items() if "capabilities" in name]
    size = word_size([value.split() for value in bits])
    return [Recording(device_of(block, size)) for block in blocks]
