"""What a device tells without a step: nothing is entered in its history, and no queue loses an event."""

from ctypes import byref, c_int32, c_uint32, c_uint64
from enum import IntEnum
from typing import Any, Iterable, List, NamedTuple, Optional, Set, Union

from ._codes import Type, code_pair, type_number
from ._errors import Status, check
from ._kept import Kept
from ._library import Info, RawClient, RawLimits, RawRepeat, library

CLIENTS_MAX = 64
Words = c_uint64 * 12


class Clock(IntEnum):
    """The clocks of a client's times."""

    REALTIME = 0
    MONOTONIC = 1
    BOOTTIME = 7


class Axis(NamedTuple):
    """An axis."""

    value: int = 0
    minimum: int = 0
    maximum: int = 0
    fuzz: int = 0
    flat: int = 0
    resolution: int = 0


class ClientState(NamedTuple):
    """A client, as it stands."""

    clock: Clock
    revoked: bool
    grabs: bool


class Limits(NamedTuple):
    """The numbers of a device's description; how far the clocks are ahead of the moments is in microseconds."""

    slots: int
    hint: int
    log: int
    ring: int
    realtime: int
    boottime: int


class Repeat(NamedTuple):
    """The autorepeat: its settings in milliseconds, the key that the timer was last armed for, 0 before any, and the moment
    from which on a tick fires it, where it is armed."""

    delay: int
    period: int
    key: int
    due: Optional[int]


def numbers_on(words: Iterable[int]) -> Set[int]:
    """The numbers whose bits are set in words of 64 bits."""
    return {64 * i + bit for i, word in enumerate(words) for bit in range(64) if word >> bit & 1}


def axis_of(raw: Info) -> Axis:
    """The axis that the library wrote."""
    return Axis(*(getattr(raw, name) for name in Axis._fields))


def check_asked(status: int, *asked: object) -> None:
    """Raises where a call was refused: a KeyError where there is nothing of what was asked for."""
    if status == Status.BAD_ARGUMENT:
        raise KeyError(asked[0] if len(asked) == 1 else asked)
    check(status)


class Queries(Kept):
    """The queries of a device. What there is nothing of, as a client that is not open, is a KeyError."""

    def _ask(self, function: Any, raw: Any, *asked: Any) -> Any:
        """What a call writes."""
        check_asked(function(byref(self._handle), *asked, byref(raw)), *asked)
        return raw

    def visible(self, client: int) -> int:
        """How many events the client of this number could read now."""
        count: int = self._ask(library.inputplay_visible, c_uint32(), client).value
        return count

    def readable(self) -> List[int]:
        """The numbers of the open clients that could read something now, ascending (poll)."""
        numbers, count = (c_uint32 * CLIENTS_MAX)(), c_uint32()
        check(library.inputplay_readable(byref(self._handle), numbers, CLIENTS_MAX, byref(count)))
        return list(numbers[: count.value])

    def client_state(self, client: int) -> ClientState:
        """How the client of this number stands."""
        raw = self._ask(library.inputplay_client, RawClient(), client)
        return ClientState(Clock(raw.clock), bool(raw.revoked), bool(raw.grabs))

    def mask(self, client: int, kind: Union[int, str], word: int = 0) -> int:
        """A word of 64 bits of a client's mask of a type (EVIOCGMASK): bit k for the code 64 * word + k."""
        bits: int = self._ask(
            library.inputplay_client_mask, c_uint64(), client, type_number(kind), word
        ).value
        return bits

    def types(self) -> Set[int]:
        """The types that it supports (EVIOCGBIT)."""
        return self.codes(Type.EV_SYN)

    def codes(self, kind: Union[int, str]) -> Set[int]:
        """The codes of a type that it supports; of EV_SYN its types."""
        return numbers_on(self._ask(library.inputplay_device_bits, Words(), type_number(kind)))

    def state(self, kind: Union[int, str]) -> Set[int]:
        """The keys that are down, or the switches, LEDs or sounds that are on."""
        return numbers_on(self._ask(library.inputplay_device_state, Words(), type_number(kind)))

    def axis(self, code: Union[int, str]) -> Axis:
        """An axis; zeros where the device does not have it."""
        _kind, number = code_pair(Type.EV_ABS, code)
        return axis_of(self._ask(library.inputplay_device_axis, Info(), number))

    def slot_value(self, slot: int, code: Union[int, str]) -> int:
        """The value of a slot on an axis of slots."""
        _kind, number = code_pair(Type.EV_ABS, code)
        value: int = self._ask(library.inputplay_device_slot, c_int32(), slot, number).value
        return value

    def limits(self) -> Limits:
        """The numbers of its description."""
        raw = self._ask(library.inputplay_device_limits, RawLimits())
        return Limits(*(getattr(raw, name) for name in Limits._fields))

    def repeat(self) -> Repeat:
        """The settings of the autorepeat as they are now, and its timer."""
        raw = self._ask(library.inputplay_device_repeat, RawRepeat())
        return Repeat(raw.delay, raw.period, raw.key, raw.due if raw.armed else None)
