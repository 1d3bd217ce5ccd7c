"""Reads a raw capture: the records of events as a program reads them from an event node, one after another.

A record has 24 bytes on a 64-bit machine and 16 on a 32-bit one: seconds, microseconds, type, code, value.
"""

import struct
from typing import List, Optional, Tuple

from inputtools.command import Wrong, counted
from inputtools.names import GREATEST as GREATEST_CODES, NOT_IN_A_RECORD, SYN, kind_text
from inputtools.recording import Event, Recording

FORMS = {24: struct.Struct("<QQHHi"), 16: struct.Struct("<IIHHi")}
LATEST = 2**40  # seconds
LATEST_MOMENT = 9000000000000000


def is_raw(data: bytes) -> bool:
    return b"\0" in data[:4096]


def is_plausible(data: bytes, size: int) -> bool:
    """Are these records of this size? Times, types and codes are then such as there are."""
    return len(data) % size == 0 and first_bad(data, size) is None


def first_bad(data: bytes, size: int) -> Optional[Tuple[int, str]]:
    """The number of the first record that is no event, from 1, and why; or None."""
    whole = data[: len(data) - len(data) % size]
    for number, (seconds, micros, kind, code, _) in enumerate(FORMS[size].iter_unpack(whole), 1):
        if not (seconds < LATEST and micros < 1000000 and is_kind_and_code(kind, code)):
            return number, what_is_bad(seconds, micros, kind, code)
    return None


def what_is_bad(seconds: int, micros: int, kind: int, code: int) -> str:
    if seconds >= LATEST:
        return f"its time is {seconds} s"
    if micros >= 1000000:
        return f"its microseconds are {micros}"
    if kind != SYN and kind not in GREATEST_CODES:
        return f"there is no type {kind}"
    return f"{kind_text(kind)} has no code {code}"


def is_kind_and_code(kind: int, code: int) -> bool:
    if kind == SYN:
        return code <= 15
    return kind in NOT_IN_A_RECORD or (kind in GREATEST_CODES and code <= GREATEST_CODES[kind])


def parse(data: bytes, size: Optional[int] = None) -> List[Recording]:
    """The events of a capture. Where no size is given, it is the one at which the records have a meaning."""
    sizes = [size] if size else [24, 16]
    for each in sizes:
        if is_plausible(data, each):
            records = FORMS[each].iter_unpack(data)
            return [Recording(events=[Event(s * 1000000 + micros, *event) for s, micros, *event in records])]
    raise Wrong(what_is_wrong(data, sizes))


def stream_fault(data: bytes, size: int) -> Optional[str]:
    """Why these bytes are no stream of a record, or None: any type and code may stand in one."""
    rest = len(data) % size
    for number, (seconds, micros, *_) in enumerate(FORMS[size].iter_unpack(data[: len(data) - rest]), 1):
        if micros >= 1000000 or seconds * 1000000 + micros > LATEST_MOMENT:
            why = f"its microseconds are {micros}" if micros >= 1000000 else f"its time is {seconds} s"
            return f"its record {number}, of {size} bytes from byte {(number - 1) * size} on, is no event: {why}"
    if rest:
        return f"it has {counted(len(data) // size, 'record')} of {size} bytes and {counted(rest, 'byte')} more"
    return None


def what_is_wrong(data: bytes, sizes: List[int]) -> str:
    """Why these bytes are no capture, by the size for which the most of them are."""
    found = {size: first_bad(data, size) for size in sizes}
    for size in sizes:
        rest = len(data) % size
        if rest and found[size] is None:
            records = counted(len(data) // size, "record")
            return (f"a raw capture of {len(data)} bytes, which are {records} of {size} bytes and "
                    f"{counted(rest, 'byte')} more: it was cut off")
    size, (number, why) = max(
        ((size, bad) for size, bad in found.items() if bad), key=lambda each: (each[1][0] - 1) * each[0]
    )
    if number == 1:
        return f"no raw capture: its bytes are no records of {' or '.join(str(each) for each in sizes)} bytes"
    at = (number - 1) * size
    return f"record {number} of this raw capture, of {size} bytes from byte {at} on, is no event: {why}"
