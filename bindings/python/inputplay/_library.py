"""The shared object, and the declarations of its functions."""

import ctypes
import os
from ctypes import POINTER, c_int16, c_int32, c_size_t, c_uint8, c_uint16, c_uint32, c_uint64, c_void_p
from pathlib import Path
from types import SimpleNamespace
from typing import Any, Dict, List, Sequence, Tuple

from ._numbers import Fields, fits

ABI = 2


class Handle(ctypes.Structure):
    """What the library keeps for a program: zeros at first."""

    _fields_ = [("kind", c_uint32), ("at", c_void_p)]


class Info(Fields):
    """An axis."""

    _fields_ = [(name, c_int32) for name in ("value", "minimum", "maximum", "fuzz", "flat", "resolution")]


class Step(Fields):
    """A step: its number, and what it takes."""

    _fields_ = [
        ("step", c_uint32),
        ("client", c_uint32),
        ("type", c_uint16),
        ("code", c_uint16),
        ("value", c_int32),
        ("now", c_uint64),
        ("count", c_uint32),
        ("clock", c_uint32),
        ("bits", c_uint64),
        ("info", Info),
    ]


class RawReply(ctypes.Structure):
    """A reply: its number, and what it tells."""

    _fields_ = [
        ("reply", c_uint32),
        ("at", c_uint32),
        ("client", c_uint32),
        ("count", c_uint32),
        ("slot", c_int32),
        ("why", c_uint32),
        ("words", c_uint64 * 12),
        ("info", Info),
    ]


class RawEvent(ctypes.Structure):
    """An event as a client reads it."""

    _fields_ = [
        ("type", c_uint16),
        ("code", c_uint16),
        ("value", c_int32),
        ("time", c_uint64),
        ("place", c_uint32),
    ]


class Stamped(Fields):
    """An event with its moment."""

    _fields_ = [("type", c_uint16), ("code", c_uint16), ("value", c_int32), ("now", c_uint64)]


class RawPicture(ctypes.Structure):
    """How the buttons and axes of a joystick client stand."""

    _fields_ = [("buttons", c_uint64), ("axes", c_int16 * 64)]


class RawClient(ctypes.Structure):
    """A client, as it stands."""

    _fields_ = [(name, c_uint32) for name in ("clock", "revoked", "grabs")]


class RawLimits(ctypes.Structure):
    """The numbers of a description."""

    _fields_ = [
        *((name, c_uint32) for name in ("slots", "hint", "log", "ring")),
        ("realtime", c_uint64),
        ("boottime", c_uint64),
    ]


class RawRepeat(ctypes.Structure):
    """The settings of the autorepeat, and its timer."""

    _fields_ = [
        ("delay", c_int32),
        ("period", c_int32),
        ("armed", c_uint32),
        ("key", c_uint32),
        ("due", c_uint64),
    ]


class RawFilter(Fields):
    """A filter: its number, and what it takes."""

    _fields_ = [
        ("filter", c_uint32),
        ("micros", c_uint32),
        *((name, c_uint16) for name in ("type", "code", "second", "padding")),
    ]


class RawDescription(Fields):
    """What a device is."""

    _fields_ = [
        ("types", c_uint64),
        ("keys", c_uint64 * 12),
        *((name, c_uint64) for name in ("relatives", "axes", "miscs", "switches", "leds", "sounds")),
        ("infos", Info * 64),
        *((name, c_uint32) for name in ("slots", "hint", "log", "filter_count")),
        ("realtime", c_uint64),
        ("boottime", c_uint64),
        ("filters", RawFilter * 8),
    ]


class RawCounts(ctypes.Structure):
    """How much a record has."""

    _fields_ = [(name, c_uint32) for name in ("devices", "actors", "lines")]


class RawLine(ctypes.Structure):
    """An action line of a record."""

    _fields_ = [*((name, c_uint32) for name in ("actor", "command", "count")), ("step", Step)]


HANDLE, EVENTS = POINTER(Handle), POINTER(RawEvent)
U32, I32, SIZE, BYTES = POINTER(c_uint32), POINTER(c_int32), POINTER(c_size_t), POINTER(c_uint8)
COUNT, CLIENT, SLOT = ("count", c_size_t), ("client", c_uint32), ("slot", c_uint32)
LINE, FIRST = ("line", c_uint32), ("first", c_size_t)
CODE = (("type", c_uint16), ("code", c_uint16))
TYPE, AXIS = CODE
EVENT, WORDS = (*CODE, ("value", c_int32)), POINTER(c_uint64 * 12)

# What each function takes: a pointer, or a number with the name that an error has.
PARAMETERS: Dict[str, Sequence[Any]] = {
    "inputplay_abi": [],
    "inputplay_device_new": [BYTES, COUNT, ("number", c_uint32), HANDLE, U32, U32],
    "inputplay_device_of": [POINTER(RawDescription), HANDLE, U32],
    "inputplay_step": [HANDLE, POINTER(Step), POINTER(RawReply), EVENTS, COUNT, I32, COUNT],
    "inputplay_inject": [HANDLE, *EVENT, ("now", c_uint64), U32, U32],
    "inputplay_inject_all": [HANDLE, POINTER(Stamped), COUNT, U32, U32],
    "inputplay_read": [HANDLE, CLIENT, EVENTS, COUNT, U32, U32, U32],
    "inputplay_history": [HANDLE, FIRST, POINTER(Step), COUNT, SIZE],
    "inputplay_feedback": [HANDLE, EVENTS, COUNT, U32, U32, U32],
    "inputplay_visible": [HANDLE, CLIENT, U32],
    "inputplay_readable": [HANDLE, U32, COUNT, U32],
    "inputplay_client": [HANDLE, CLIENT, POINTER(RawClient)],
    "inputplay_client_mask": [HANDLE, CLIENT, TYPE, ("word", c_uint16), POINTER(c_uint64)],
    "inputplay_device_bits": [HANDLE, TYPE, WORDS],
    "inputplay_device_state": [HANDLE, TYPE, WORDS],
    "inputplay_device_axis": [HANDLE, AXIS, POINTER(Info)],
    "inputplay_device_slot": [HANDLE, SLOT, AXIS, I32],
    "inputplay_device_limits": [HANDLE, POINTER(RawLimits)],
    "inputplay_device_repeat": [HANDLE, POINTER(RawRepeat)],
    "inputplay_joy_start": [HANDLE, U32, U32],
    "inputplay_joy_read": [HANDLE, BYTES, U32, U32],
    "inputplay_joy_picture": [HANDLE, POINTER(RawPicture)],
    "inputplay_reader_start": [HANDLE, U32, U32],
    "inputplay_reader_next": [HANDLE, ("sync", c_uint32), EVENTS, U32],
    "inputplay_reader_force_sync": [HANDLE],
    "inputplay_reader_value": [HANDLE, *CODE, I32],
    "inputplay_reader_slot_value": [HANDLE, SLOT, AXIS, I32],
    "inputplay_reader_state": [HANDLE, U32, U32, I32],
    "inputplay_reader_call": [HANDLE, ("index", c_size_t), POINTER(Step), POINTER(RawReply)],
    "inputplay_record_new": [BYTES, COUNT, HANDLE, U32, U32],
    "inputplay_record_load": [HANDLE, LINE, BYTES, COUNT],
    "inputplay_record_file": [HANDLE, LINE, BYTES, COUNT, SIZE],
    "inputplay_record_play": [HANDLE, ("history", c_uint32), SIZE],
    "inputplay_record_migrate": [HANDLE, SIZE],
    "inputplay_record_text": [HANDLE, FIRST, BYTES, COUNT, SIZE],
    "inputplay_record_counts": [HANDLE, POINTER(RawCounts)],
    "inputplay_record_device": [HANDLE, ("device", c_uint32), BYTES, COUNT, SIZE],
    "inputplay_record_actor": [HANDLE, ("actor", c_uint32), U32, U32, BYTES, COUNT, SIZE],
    "inputplay_record_line": [HANDLE, LINE, POINTER(RawLine)],
    "inputplay_record_events": [HANDLE, LINE, FIRST, POINTER(Stamped), COUNT, SIZE],
    "inputplay_code_of": [BYTES, COUNT, POINTER(c_uint16), POINTER(c_uint16)],
    "inputplay_name_of": [*CODE, BYTES, COUNT, SIZE],
    "inputplay_free": [HANDLE],
}


class Function:
    """A function of the shared object, whose numbers are looked at before it is called."""

    def __init__(self, function: Any, parameters: Sequence[Any]) -> None:
        self.function = function
        self.numbers = [(place, *each) for place, each in enumerate(parameters) if isinstance(each, tuple)]
        function.argtypes = [each[1] if isinstance(each, tuple) else each for each in parameters]
        function.restype = c_uint32

    def __call__(self, *given: Any) -> Any:
        for place, name, c_type in self.numbers:
            fits(name, c_type, given[place])
        return self.function(*given)


def _candidates() -> List[str]:
    """Where the shared object may be: as the variable says, beside this file, or where the loader looks."""
    named = os.environ.get("INPUTPLAY_LIBRARY")
    if named:
        return [named]
    beside = Path(__file__).resolve().parent / "libinputplay.so"
    return [str(beside), f"libinputplay.so.{ABI}"]


def _opened() -> ctypes.CDLL:
    faults = []
    for name in _candidates():
        try:
            return ctypes.CDLL(name)
        except OSError as fault:
            faults.append(str(fault))
    raise ImportError(
        "libinputplay.so was not found; make it by 'tools/build --library', and name it in INPUTPLAY_LIBRARY: "
        + "; ".join(faults)
    )


def _declared() -> Any:
    """The functions, each by its name."""
    opened = _opened()
    library = SimpleNamespace(**{name: Function(opened[name], takes) for name, takes in PARAMETERS.items()})
    # (it answers nothing)
    library.inputplay_free.function.restype = None
    if library.inputplay_abi() != ABI:
        raise ImportError(f"libinputplay.so has interface {library.inputplay_abi()}, and {ABI} is wanted")
    return library


library = _declared()


def bytes_at(content: bytes) -> Tuple[Any, int]:
    """A pointer to bytes, with how many they are; a pointer is wanted for none, too."""
    count = len(content)
    return (c_uint8 * max(count, 1)).from_buffer_copy(bytes(content) or b"\0"), count
