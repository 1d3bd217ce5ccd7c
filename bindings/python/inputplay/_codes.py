"""The numbers of <linux/input-event-codes.h> by their names, from the file beside this module."""

from ctypes import c_uint16
from enum import IntEnum
from pathlib import Path
from typing import Dict, Optional, Tuple, Union

from ._numbers import fits


class Type(IntEnum):
    """The types of events."""

    EV_SYN = 0
    EV_KEY = 1
    EV_REL = 2
    EV_ABS = 3
    EV_MSC = 4
    EV_SW = 5
    EV_LED = 0x11
    EV_SND = 0x12
    EV_REP = 0x14
    EV_FF = 0x15
    EV_PWR = 0x16
    EV_FF_STATUS = 0x17


NUMBERS: Dict[str, int] = {}
CODES: Dict[str, Tuple[Type, int]] = {}
NAMES: Dict[Tuple[int, int], str] = {}


def _read() -> None:
    """Fills the tables."""
    for line in Path(__file__).with_name("event_codes.txt").read_text(encoding="ascii").splitlines():
        kind, name, number = line.split(" ", 2)
        if kind != "#":
            NUMBERS[name] = int(number)
        if kind.isdigit():
            CODES[name] = Type(int(kind)), int(number)
            NAMES.setdefault(CODES[name], name)


_read()


def number_of(name: str) -> int:
    """The number of any name of the header, as 272 for BTN_MOUSE, 1 for EV_KEY or 768 for KEY_CNT."""
    if name not in NUMBERS:
        raise ValueError(f"no number has the name {name}")
    return NUMBERS[name]


def code_of(name: str) -> Tuple[Type, int]:
    """The type and the code of a name, as (EV_KEY, 30) for KEY_A. Two names may have one: BTN_A, BTN_SOUTH."""
    if name not in CODES:
        raise ValueError(f"no code has the name {name}")
    return CODES[name]


def name_of(kind: int, code: int) -> Optional[str]:
    """The first name of a code, as KEY_A for EV_KEY and 30, if it has one."""
    return NAMES.get((fits("type", c_uint16, kind), fits("code", c_uint16, code)))


def type_number(kind: Union[int, str]) -> int:
    """The type that a number or a name is."""
    if isinstance(kind, str) and kind not in Type.__members__:
        raise ValueError(f"no type has the name {kind}")
    return fits("type", c_uint16, Type[kind] if isinstance(kind, str) else kind)


def code_pair(kind: Union[int, str], code: Union[int, str, None]) -> Tuple[int, int]:
    """The type and the code that two numbers or names are; a code's name alone tells both."""
    if code is None:
        return code_of(str(kind))
    number = type_number(kind)
    if isinstance(code, str):
        found, code = code_of(code)
        if found != number:
            raise ValueError(f"{name_of(found, code)} is a code of {found.name}")
    return number, fits("code", c_uint16, code)
