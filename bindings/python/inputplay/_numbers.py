"""Numbers that C takes: ctypes cuts each to the width of its C type, so here it is looked at before."""

from ctypes import Structure, c_int32, c_size_t, c_uint16, c_uint32, c_uint64, sizeof
from operator import index
from typing import Any, Dict, Optional, Tuple


def _bounds(c_type: Any) -> Tuple[int, int]:
    """The least and the greatest number that a C type has."""
    least = min(0, c_type(-1).value << 8 * sizeof(c_type) - 1)
    return least, least + (1 << 8 * sizeof(c_type)) - 1


C_TYPES = (c_uint16, c_uint32, c_uint64, c_int32, c_size_t)
BOUNDS: Dict[Any, Tuple[int, int]] = {c_type: _bounds(c_type) for c_type in C_TYPES}


def within(name: str, bounds: Tuple[int, int], value: int) -> int:
    """The value, if it is within its bounds; else an OverflowError with the name of what it was given for."""
    least, greatest = bounds
    if not least <= value <= greatest:
        raise OverflowError(f"{name} is {value}, and goes from {least} to {greatest}")
    return value


def fits(name: str, c_type: Any, value: int) -> int:
    """The whole number that a value is, if its C type has it."""
    return within(name, BOUNDS[c_type], index(value))


class Fields(Structure):
    """A struct of C whose numbers are looked at when they are set, and which has no other fields."""

    bounds: Dict[str, Optional[Tuple[int, int]]]

    def __init_subclass__(cls) -> None:
        cls.bounds = {field[0]: BOUNDS.get(field[1]) for field in cls._fields_}

    def __setattr__(self, name: str, value: Any) -> None:
        if name not in self.bounds:
            raise TypeError(f"{type(self).__name__} has no field {name}")
        bounds = self.bounds[name]
        # (what is no whole number is refused by ctypes)
        super().__setattr__(name, within(name, bounds, value) if bounds else value)
