"""Events, as a program reads them."""

from typing import NamedTuple

from ._codes import Type, name_of
from ._library import RawEvent


class Event(NamedTuple):
    """An event as a program reads it."""

    type: int
    code: int
    value: int
    time: int = 0
    place: int = 0

    @property
    def name(self) -> str:
        """The name of its code, or its numbers."""
        return name_of(self.type, self.code) or f"{self.type}:{self.code}"

    @property
    def is_report(self) -> bool:
        """Whether it is the SYN_REPORT that ends a frame."""
        return self.type == Type.EV_SYN and self.code == 0

    @property
    def is_dropped(self) -> bool:
        """Whether it is SYN_DROPPED: events were lost."""
        return self.type == Type.EV_SYN and self.code == 3

    def __repr__(self) -> str:
        return f"<{self.name} {self.value} at {self.time}>"


def event_of(raw: RawEvent) -> Event:
    """The event that the library wrote."""
    return Event(raw.type, raw.code, raw.value, raw.time, raw.place)
