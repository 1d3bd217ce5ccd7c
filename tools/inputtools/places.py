"""Places of a history with their times, as they are told to people.

The time of a place is the moment of its step, or that of the last step before it that has one. It is told in
seconds, with as many digits as it has.
"""

import bisect
from functools import lru_cache
from typing import Optional, Sequence

from inputtools.report import MOMENT_AT, Step
from inputtools.wall import wall


def seconds_text(micros: int) -> str:
    """Microseconds as seconds: 12.3 s."""
    whole, rest = divmod(micros, 1000000)
    return f"{whole}.{f'{rest:06d}'.rstrip('0') or '0'} s"


def time_text(moment: int) -> str:
    """A moment in seconds, or with --wall as the clock showed it."""
    return wall.text(moment) if wall.is_asked else seconds_text(moment)


class Places:
    """The places of a history."""

    def __init__(self, history: Sequence[Step]) -> None:
        self.history = history
        self.places = [place for place, step in enumerate(history) if step.name in MOMENT_AT]

    def moment(self, place: int) -> Optional[int]:
        """The time of a place in microseconds, or None where no step up to it has one."""
        index = bisect.bisect_right(self.places, place) - 1
        return self.history[self.places[index]].moment if index >= 0 else None

    @lru_cache(maxsize=None)
    def bare(self, place: int) -> str:
        """A place and its time: `12 (12.3 s)`."""
        moment = self.moment(place)
        return str(place) if moment is None else f"{place} ({time_text(moment)})"

    def text(self, place: int) -> str:
        return f"place {self.bare(place)}"

    def since(self, place: Optional[int]) -> str:
        return "from the start" if place is None else f"since {self.text(place)}"

    def span(self, begin: Optional[int], end: Optional[int]) -> str:
        """From one place, or the start, to another one, or on where it did not end."""
        if begin is None:
            return "from the start " + ("on" if end is None else f"to {self.text(end)}")
        return f"from {self.text(begin)} " + ("on" if end is None else f"to {self.bare(end)}")

    def several(self, one: str, more: str, places: Sequence[int]) -> str:
        """Places of one kind, the first three and the last of many."""
        if len(places) == 1:
            return f"{one} {self.bare(places[0])}"
        shown = [self.bare(place) for place in (places if len(places) <= 4 else places[:3])]
        if len(places) > 4:
            shown.append(f".. {self.bare(places[-1])}, {len(places)} in all")
        return f"{more} {', '.join(shown)}"
