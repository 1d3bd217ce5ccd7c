"""The names of event types and codes, as in the kernel's header (linux/input-event-codes.h).

The table is a file, which the second program reads too.
"""

import re
from pathlib import Path
from typing import Dict, Iterable, Optional

TABLE = Path(__file__).parent / "event_codes.txt"

TYPES: Dict[str, int] = {}
# The greatest code of each type that a device can have.
GREATEST: Dict[int, int] = {}
CODES: Dict[int, Dict[str, int]] = {}


def _take_row(first: str, *words: str) -> None:
    """Takes a row of the table: a type, or a run of codes."""
    if first == "type":
        name, number, *greatest = words
        TYPES[name] = int(number)
        GREATEST.update({int(number): int(each, 0) for each in greatest})
        return
    kind, begin, prefix, *names = words
    codes = CODES.setdefault(TYPES[kind], {})
    codes.update({prefix + name: code for code, name in enumerate(names, int(begin, 0))})


for _row in TABLE.read_text(encoding="ascii").splitlines():
    if _row and not _row.startswith("#"):
        _take_row(*_row.split())

SYN, KEY, REL, ABS, MSC, SW, LED, SND, REP = TYPES.values()

# Types that a device can have in the kernel and not in a record.
NOT_IN_A_RECORD = {0x15: "EV_FF", 0x16: "EV_PWR", 0x17: "EV_FF_STATUS"}

PROPERTIES = "POINTER DIRECT BUTTONPAD SEMI_MT TOPBUTTONPAD POINTING_STICK ACCELEROMETER".split()

# The axes that rules name: the slot, a contact's id, the first and the last whose values belong to slots.
SLOT, TRACKING_ID, FIRST_OF_SLOT, LAST_OF_SLOT = 0x2F, 0x39, 0x30, 0x3D

_TYPE_NAMES = {number: name for name, number in TYPES.items()}
_CODE_NAMES = {kind: {number: name for name, number in names.items()} for kind, names in CODES.items()}


def kind_text(kind: int) -> str:
    return _TYPE_NAMES.get(kind, str(kind))


def code_text(kind: int, code: int) -> str:
    return _CODE_NAMES.get(kind, {}).get(code, str(code))


def event_text(kind: int, code: int, value: int) -> str:
    return f"{kind_text(kind)} {code_text(kind, code)} {value}"


def is_slot_value(code: int) -> bool:
    return FIRST_OF_SLOT <= code <= LAST_OF_SLOT


def is_in_a_record(kind: int, code: int) -> bool:
    """Whether a device of a record can have this code."""
    if kind == SYN:
        return code <= 3
    return kind in GREATEST and code <= GREATEST[kind] and (kind, code) != (KEY, 0)


def kernel_kind_text(kind: int) -> str:
    """The name of a type, also of one that a record does not have."""
    return NOT_IN_A_RECORD.get(kind, kind_text(kind))


def number_of_kind(word: str) -> Optional[int]:
    """The type that a word of a record names, or None."""
    return TYPES[word] if word in TYPES else _number(word)


def number_of_code(kind: int, word: str) -> Optional[int]:
    names = CODES.get(kind, {})
    return names[word] if word in names else _number(word)


def nearest(word: str, names: Iterable[str], least: float = 0.6) -> str:
    """What is said of the name that is most like a word, empty where none is like it."""
    import difflib  # (it is for what is wrong alone, and takes a while)

    written = {name.upper(): name for name in names}
    found = difflib.get_close_matches(word.upper(), written, 1, least)
    return f"; the nearest name is {written[found[0]]}" if found else ""


def _number(word: str) -> Optional[int]:
    if re.fullmatch(r"0x[0-9a-fA-F]{1,8}", word):
        return int(word, 16)
    return int(word) if re.fullmatch(r"[0-9]{1,10}", word) else None
