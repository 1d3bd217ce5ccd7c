"""Writes what `umockdev-run -d` takes: the devices of a record, as /sys and udev would tell of them.

Programs that look for devices by udev find them so: libinput, SDL and compositors. Events are no part of it.
`tools/run` serves the nodes, and starts a program under umockdev-run for the rest.
"""

from typing import Dict, Iterable, List, Set

from inputtools.identity import Identity, Ids
from inputtools.inputid import properties_of
from inputtools.names import ABS, KEY, LED, MSC, REL, REP, SND, SW, SYN
from inputtools.recording import Device
from inputtools.record import descriptions_of

# The directory of the first device in /sys, so that no device of this machine has the same.
FIRST_INPUT = 90
MAJOR, FIRST_MINOR = 13, 64
NO_IDS = Ids(0, 0, 0, 0)
FF = 0x15
CAPABILITIES = {
    "ev": SYN, "key": KEY, "rel": REL, "abs": ABS, "msc": MSC, "sw": SW, "led": LED, "snd": SND, "ff": FF,
}
WORD = 64


def words_of(codes: Iterable[int]) -> str:
    """Bits as /sys writes them: words of hexadecimal digits, the highest one first."""
    bits = sum(1 << code for code in set(codes))
    shifts = reversed(range(0, max(bits.bit_length(), 1), WORD))
    return " ".join(f"{(bits >> shift) % (1 << WORD):x}" for shift in shifts)


def codes_of(device: Device) -> Dict[int, Set[int]]:
    """The codes of each type; those of EV_SYN are the types."""
    codes = {kind: set(of_kind) for kind, of_kind in device.codes.items() if kind != REP}
    codes[ABS] = set(device.axes)
    codes[SYN] = {SYN, *(kind for kind in device.codes if kind != ABS or device.axes)}
    return codes


def attributes_of(device: Device, identity: Identity) -> Dict[str, str]:
    """The files of the device's directory in /sys."""
    ids = identity.ids or NO_IDS
    codes = codes_of(device)
    attributes = {"name": identity.name or device.name, "phys": identity.phys, "uniq": identity.uniq}
    attributes["properties"] = words_of(identity.properties)
    for name, kind in CAPABILITIES.items():
        attributes[f"capabilities/{name}"] = words_of(codes.get(kind, ()))
    for name, number in zip(("bustype", "vendor", "product", "version"), ids):
        attributes[f"id/{name}"] = f"{number:04x}"
    return attributes


def environment_of(attributes: Dict[str, str], ids: Ids) -> Dict[str, str]:
    """What the kernel tells udev of the device."""
    told = {"PRODUCT": "/".join(f"{number:x}" for number in ids), "PROP": attributes["properties"]}
    told.update((word.upper(), f'"{attributes[word]}"') for word in ("name", "phys", "uniq"))
    for name in CAPABILITIES:
        bits = attributes[f"capabilities/{name}"]
        if bits != "0":
            told[name.upper()] = bits
    return told


def device_lines(device: Device, number: int) -> List[str]:
    """The lines of a device and of its event node."""
    identity, place = device.identity, f"/devices/virtual/input/input{FIRST_INPUT + number}"
    attributes, ids = attributes_of(device, identity), identity.ids or NO_IDS
    found = properties_of(device, identity.properties, ids.bus)
    kinds = [f"E: {name}={value}" for name, value in found.items()]
    told = [f"E: {name}={value}" for name, value in environment_of(attributes, ids).items()]
    files = [f"A: {name}={escaped(value)}\\n" for name, value in attributes.items()]
    minor = FIRST_MINOR + number
    numbers = [f"E: DEVNAME=/dev/input/event{number}", f"E: MAJOR={MAJOR}", f"E: MINOR={minor}"]
    return [
        f"P: {place}", "E: SUBSYSTEM=input", *told, *kinds, *files, "",
        f"P: {place}/event{number}", f"N: input/event{number}", "E: SUBSYSTEM=input", *numbers, *kinds,
        f"A: dev={MAJOR}:{minor}\\n", f"L: device=../../input{FIRST_INPUT + number}", "",
    ]


def escaped(text: str) -> str:
    """A value of an attribute: umockdev takes a backslash for the begin of an escape."""
    return text.replace("\\", "\\\\")


def umockdev_text(text: str, first: int = 0) -> str:
    """What `umockdev-run -d` takes of the devices of a record, whose nodes are numbered from `first` on."""
    lines: List[str] = []
    for number, device in enumerate(descriptions_of(text), first):
        lines += device_lines(device, number)
    return "".join(f"{line}\n" for line in lines)
