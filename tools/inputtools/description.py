"""Writes the lines of a record that describe a device, and comments on what was left out of them."""

import re
from typing import Dict, List, Optional, Tuple

from inputtools.command import Wrong
from inputtools.identity import Identity, is_property_named
from inputtools.names import (
    ABS, GREATEST, KEY, LED, NOT_IN_A_RECORD, REL, REP, SLOT, SW, TRACKING_ID, code_text, is_in_a_record,
    is_slot_value, kernel_kind_text, kind_text,
)
from inputtools.recording import Axis, Device

LEAST_HINT, GREATEST_HINT, GREATEST_SLOTS, GREATEST_FUZZ = 2, 512, 256, 1 << 30
# How many slots a record of version 1 may have.
SLOTS_OF_VERSION_1 = 64
POSITION_X = 0x35
REPEAT_AT_FIRST = {0: 250, 1: 33}
NAME = re.compile("[a-z0-9_-]{1,32}")


def is_name(text: str) -> bool:
    return bool(NAME.fullmatch(text))


def name_of(device: Device, given: Optional[str] = None) -> str:
    """The device's name in the record: the given one, or its own, in the letters that a name may have."""
    if given is not None:
        if not is_name(given):
            raise Wrong(f'the name "{given}" is not 1 to 32 of a to z, 0 to 9, _ and -')
        return given
    if is_name(device.name):
        return device.name
    return re.sub("[^a-z0-9]+", "-", device.name.lower()).strip("-")[:32].strip("-") or "device"


def contacts_of(device: Device) -> int:
    """How many contacts the kernel reckons with: the slots, or without any as the range of ids tells."""
    slots = device.slot_count()
    if slots:
        return slots
    if TRACKING_ID in device.axes:
        axis = device.axes[TRACKING_ID]
        return min(max(axis.maximum - axis.minimum + 1, 2), 32)
    return 2 if POSITION_X in device.axes else 0


def estimate(device: Device) -> int:
    """How many events the kernel reckons with in a frame.

    8, one more for each relative axis and each absolute one that has one value, and for each contact one
    more and as many as there are axes that have a value for each contact.
    """
    contacts = contacts_of(device)
    events = 8 + contacts + len(device.codes.get(REL, ()))
    return events + sum(contacts if code == SLOT or is_slot_value(code) else 1 for code in device.axes)


def hint_of(device: Device) -> int:
    """The hint that the record has: the kernel's estimate, or that of a description that has one already."""
    if device.hint is not None:
        return device.hint
    return max(LEAST_HINT, min(estimate(device), GREATEST_HINT))


def slots_of(device: Device) -> int:
    return min(device.slot_count(), GREATEST_SLOTS)


def version_of(device: Device) -> int:
    """The first version of a record that has all that the device has."""
    has_filters = any(line.startswith("filter ") for line in device.other_lines)
    return 2 if has_filters or slots_of(device) > SLOTS_OF_VERSION_1 else 1


def fuzz_of(code: int, axis: Axis, is_raw: bool) -> int:
    """The fuzz that is written: none where a kernel has applied it to the events already."""
    is_kept = is_raw and code not in (SLOT, TRACKING_ID) and 0 <= axis.fuzz <= GREATEST_FUZZ
    return axis.fuzz if is_kept else 0


def axis_line(code: int, axis: Axis, is_raw: bool) -> str:
    value = 0 if code == SLOT or is_slot_value(code) else axis.value or 0
    numbers = (value, axis.minimum, axis.maximum, fuzz_of(code, axis, is_raw), axis.flat, axis.resolution)
    return " ".join(["axis", code_text(ABS, code)] + [str(number) for number in numbers])


def is_brought_by_slots(device: Device, code: int, axis: Axis) -> bool:
    """The two axes that `slots` adds need no line where they are as it adds them."""
    if not slots_of(device):
        return False
    return code == SLOT or (code == TRACKING_ID and axis in (Axis(axis.value, 0, 65535), Axis(None)))


def identity_of(device: Device) -> Identity:
    """Who the device is, as its description tells. (The name in a record is one that the record made.)"""
    told = device.identity
    name = told.name if device.form == "a record" else device.name
    return Identity(name, told.phys, told.uniq, told.ids, device.properties, told.began)


def description_lines(device: Device, name: str, is_raw: bool = False) -> List[str]:
    """`device`, who it is, `hint`, `slots`, and what the device has."""
    lines = [f"device {name}", *identity_of(device).lines(), f"hint {hint_of(device)}"] + device.other_lines
    if slots_of(device):
        lines.append(f"slots {slots_of(device)}")
    for kind in sorted(device.codes):
        codes = [code for code in sorted(device.codes[kind]) if is_in_a_record(kind, code)]
        codes = [] if kind in (REP, ABS) else codes
        lines += [f"cap {kind_text(kind)} {code_text(kind, code)}" for code in codes]
        if kind in GREATEST and not codes and not (kind == ABS and device.axes):
            lines.append(f"type {kind_text(kind)}")
    axes = sorted(code for code in device.axes if code <= GREATEST[ABS])
    return lines + [
        axis_line(code, device.axes[code], is_raw) for code in axes
        if not is_brought_by_slots(device, code, device.axes[code])
    ]


def state_lines(device: Device) -> List[str]:
    """What is on, the announced slot and the autorepeat, which a description has no place for."""
    states: List[Tuple[int, int, int]] = [(kind, code, 1) for kind in (KEY, LED, SW) for code in sorted(device.on[kind])]
    settings = sorted(device.repeat.items())
    states += [(REP, code, value) for code, value in settings if value != REPEAT_AT_FIRST.get(code)]
    slot = device.axes[SLOT].value if slots_of(device) else None
    if slot:
        states.append((ABS, SLOT, slot))
    return [f"# state {kind_text(kind)} {code_text(kind, code)} {value}" for kind, code, value in states]


# Comments on what was left out


def comments(device: Device, is_raw: bool = False) -> List[str]:
    """What the description does not tell."""
    said = [f"described by {device.form}"] if device.name else []
    if not device.has_ranges:
        said += what_procfs_lacks(device)
    said += left_out(device) + limits(device)
    return [f"# {line}" for line in said] + fuzz_comments(device, is_raw)


def what_procfs_lacks(device: Device) -> List[str]:
    if not device.axes:
        return []
    lacks = ["ranges of axes are not told here, and are written as 0"]
    if device.slot_count():
        lacks.append("the number of slots is not told here; put the right one into the line `slots`")
    return lacks


def left_out(device: Device) -> List[str]:
    said = []
    unnamed = sorted(number for number in set(device.properties) if not is_property_named(number))
    if unnamed:
        said.append(" ".join(["left out: properties"] + [str(number) for number in unnamed]))
    for kind in sorted(device.codes):
        codes = sorted(code for code in device.codes[kind] if not is_in_a_record(kind, code))
        if codes or kind in NOT_IN_A_RECORD:
            name = kernel_kind_text(kind) + (" (force feedback)" if kind in (0x15, 0x17) else "")
            said.append(" ".join(["left out:", name] + [str(code) for code in codes]))
    return said


def limits(device: Device) -> List[str]:
    said = []
    if device.hint is None and estimate(device) > GREATEST_HINT:
        said.append(f"the kernel reckons with {estimate(device)} events in a frame; a record's hint is at "
                    f"most {GREATEST_HINT}")
    if device.slot_count() > GREATEST_SLOTS:
        said.append(f"the device has {device.slot_count()} slots; a record has at most {GREATEST_SLOTS}")
    elif slots_of(device) > SLOTS_OF_VERSION_1:
        said.append(f"{slots_of(device)} slots: the record must begin with `inputrecord 2`")
    if SLOT in device.axes and not device.slot_count():
        said.append("the axis ABS_MT_SLOT is one of many here, and the device has no slots")
    return said


def fuzz_comments(device: Device, is_raw: bool) -> List[str]:
    """The fuzz that was not written, for each size of it."""
    sizes: Dict[int, List[str]] = {}
    for code, axis in sorted(device.axes.items()):
        if axis.fuzz != fuzz_of(code, axis, is_raw):
            sizes.setdefault(axis.fuzz, []).append(code_text(ABS, code))
    why = "no fuzz that a record has" if is_raw else "a kernel has applied it to a capture already"
    return [f"# fuzz {fuzz} is written as 0 ({why}): {' '.join(codes)}" for fuzz, codes in sorted(sizes.items())]
