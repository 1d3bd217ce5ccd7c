"""The description of a device without a text: what evdev tells of one."""

from enum import IntEnum
from typing import Any, Iterable, Mapping, NamedTuple, Sequence, Tuple, Union

from ._codes import Type, code_pair, type_number
from ._library import Info, RawDescription, RawFilter
from ._numbers import within
from ._queries import Axis

Code = Union[str, Tuple[Union[int, str], Union[int, str]]]
FILTERS_MAX = 8

# The field of the codes of each type. Axes are told apart.
FIELDS = {
    Type.EV_KEY: "keys", Type.EV_REL: "relatives", Type.EV_MSC: "miscs", Type.EV_SW: "switches", Type.EV_LED: "leds",
    Type.EV_SND: "sounds",
}


class Filters(IntEnum):
    """The filters of a device."""

    EAT = 0
    NOREPEAT = 1
    CHORD = 2
    BOUNCE = 3


class Filter(NamedTuple):
    """A filter, made by the functions below."""

    filter: Filters
    micros: int = 0
    type: int = 0
    code: int = 0
    second: int = 0

    @classmethod
    def eat(cls, kind: Union[int, str], code: Union[int, str, None] = None) -> "Filter":
        """It eats each event of a code, as `eat("KEY_A")` or `eat("EV_KEY", 30)`."""
        number, code = code_pair(kind, code)
        return cls(Filters.EAT, type=number, code=code)

    @classmethod
    def norepeat(cls) -> "Filter":
        """It eats each autorepeat."""
        return cls(Filters.NOREPEAT)

    @classmethod
    def chord(cls, first: Union[int, str], second: Union[int, str]) -> "Filter":
        """It eats the holds of the second key that start while the first one is down."""
        (_, code), (_, other) = code_pair(Type.EV_KEY, first), code_pair(Type.EV_KEY, second)
        return cls(Filters.CHORD, code=code, second=other)

    @classmethod
    def bounce(cls, key: Union[int, str], micros: int) -> "Filter":
        """It eats the holds of a key that start less than so many microseconds after a release that it did not eat."""
        return cls(Filters.BOUNCE, micros=micros, code=code_pair(Type.EV_KEY, key)[1])


class Description(NamedTuple):
    """What a device is. Codes are names, or pairs of a type and a code; axes are told with their numbers.

        Description(codes=["KEY_A", "LED_CAPSL"], axes={"ABS_X": Axis(maximum=255)}, types=["EV_REP"])

    Where `slots`, `hint` or `log` is 0 the device has no slots, frames of at most 16 events and a history of at most 1,048,576
    steps. How far the clocks are ahead of the moments is in microseconds.
    """

    codes: Iterable[Code] = ()
    axes: Mapping[Union[int, str], Axis] = {}
    types: Iterable[Union[int, str]] = ()
    slots: int = 0
    hint: int = 0
    log: int = 0
    realtime: int = 0
    boottime: int = 0
    filters: Sequence[Filter] = ()

    def raw(self) -> RawDescription:
        """As the library takes it."""
        raw = RawDescription(
            slots=self.slots, hint=self.hint, log=self.log, realtime=self.realtime, boottime=self.boottime,
            filter_count=len(self.filters),
        )
        for kind in self.types:
            set_bit(raw, "types", type_number(kind))
        for code in self.codes:
            set_code(raw, *(code_pair(code, None) if isinstance(code, str) else code_pair(*code)))
        for name, axis in self.axes.items():
            _kind, number = code_pair(Type.EV_ABS, name)
            set_bit(raw, "axes", number)
            raw.infos[number] = Info(*axis)
        # (more of them than there is room for are refused by their count)
        for place, filter_ in enumerate(self.filters[:FILTERS_MAX]):
            raw.filters[place] = RawFilter(**filter_._asdict())
        return raw


def set_code(raw: RawDescription, kind: int, code: int) -> None:
    """Adds a code of a type."""
    if kind not in FIELDS:
        raise ValueError(f"a description has no codes of type {kind}" + " but by its axes" * (kind == Type.EV_ABS))
    set_bit(raw, FIELDS[Type(kind)], code)


def set_bit(raw: RawDescription, field: str, number: int) -> None:
    """Sets a bit of a field: a word of 64 bits, or an array of words."""
    words: Any = getattr(raw, field)
    size = 64 * (1 if isinstance(words, int) else len(words))
    within(field, (0, size - 1), number)
    if isinstance(words, int):
        setattr(raw, field, words | 1 << number)
    else:
        words[number // 64] |= 1 << number % 64
