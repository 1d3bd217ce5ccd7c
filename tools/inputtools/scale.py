"""When the steps of a history were made, where its places stand on the paper, and the ticks of the axis.

Each tick has two texts: over the places a place and the time there, over time a moment and the place there.
"""

import bisect
from itertools import accumulate
from typing import Iterator, List, Sequence, Tuple

from inputtools.places import seconds_text, time_text
from inputtools.report import Step
from inputtools.rows import Mark
from inputtools.wall import wall

GUTTER, PLOT, RIGHT = 176, 1000, 44
WIDTH = GUTTER + PLOT + RIGHT

# Where the labels end and the plot begins: a mark at the first place is wider than its place.
EDGE = GUTTER - 8

# How wide a letter of a tick is reckoned, and how far from one another two ticks' texts are at least.
LETTER, APART = 6.5, 10


def round_steps() -> Iterator[int]:
    return (digit * int(10**zeros) for zeros in range(17) for digit in (1, 2, 5))


class Moments:
    """A moment for each place of a history: the greatest that a step had until then. Where no step has one,
    texts tell the places alone."""

    def __init__(self, history: Sequence[Step]) -> None:
        told = [step.moment for step in history]
        first = next((moment for moment in told if moment is not None), None)
        self.are_told = first is not None
        least = first or 0
        moments = [least if moment is None else moment for moment in told]
        self.all: List[int] = list(accumulate(moments, max))

    def range_text(self, begin: int, end: int) -> str:
        """The places from `begin` up to, and without, `end`."""
        places = f"places {begin} to {end - 1}" if end - begin > 1 else f"place {begin}"
        if not self.are_told:
            return places
        first, last = time_text(self.all[begin]), time_text(self.all[end - 1])
        return f"{places} ({first})" if first == last else f"{places} ({first} to {last})"


class Tick:
    """A tick: where it stands, its texts, and to which side of it they stand so that none is cut off."""

    def __init__(self, x: float, text: str, below: str) -> None:
        self.x, self.text, self.below = x, text, below
        self.width = LETTER * max(len(text), len(below))
        half = self.width / 2
        self.anchor = "start" if x - half < EDGE else "end" if x + half > WIDTH - 2 else "middle"


class Scale:
    """The places from `begin` up to `end` of a history, over the places or over their moments."""

    def __init__(self, begin: int, end: int, moments: Moments, is_over_time: bool = False) -> None:
        self.begin, self.end, self.moments, self.is_over_time = begin, end, moments, is_over_time
        self.first, self.last = moments.all[begin], moments.all[min(end, len(moments.all)) - 1]
        self.length = max(self.last - self.first, 1)
        # (times that need many digits are told from a whole second on)
        is_long = self.first >= 10**9 and self.length < self.first // 100
        self.base = self.first - self.first % 1000000 if is_long and not wall.is_asked else 0
        # (and times by the clock are round by the clock)
        self.round_from = -wall.of_day() if wall.is_asked else self.base

    def x(self, place: float) -> float:
        place = max(self.begin, min(place, self.end))
        if not self.is_over_time:
            middle = 0.5 if place < self.end else 0
            return GUTTER + PLOT * (place - self.begin + middle) / max(self.end - self.begin, 1)
        if place >= self.end:
            return GUTTER + PLOT
        return self.x_of_moment(self.moments.all[int(place)])

    def on_paper(self, found: Sequence[Mark]) -> Iterator[Tuple[Mark, float]]:
        """Marks before the end, each with where it stands."""
        if self.is_over_time:
            return ((mark, self.x_of_moment(self.moments.all[int(mark.place)])) for mark in found)
        room = PLOT / max(self.end - self.begin, 1)
        first = GUTTER + room * (0.5 - self.begin)
        return ((mark, first + room * mark.place) for mark in found)

    def x_of_moment(self, moment: int) -> float:
        return GUTTER + PLOT * 0.99 * (moment - self.first) / self.length

    def names(self) -> Tuple[str, str]:
        """What the two texts of a tick are."""
        time = f"time from {seconds_text(self.base)}" if self.base else "clock" if wall.is_asked else "time"
        if not self.moments.are_told:
            return ("place", "")
        return (time, "place") if self.is_over_time else ("place", time)

    def time(self, moment: int) -> str:
        if wall.is_asked:
            return wall.text(moment).rstrip("0").rstrip(".")
        return ("+" if self.base else "") + seconds_text(moment - self.base)

    def rounded(self, moment: int) -> int:
        """A moment to a thousandth of the scale's length, or finer."""
        return moment - moment % int(10 ** max(len(str(self.length)) - 4, 0))

    def ticks(self) -> List[Tick]:
        """Ticks at round places or moments: as many as have room for their texts."""
        made = self.moment_ticks if self.is_over_time else self.place_ticks
        span = self.length / 0.99 if self.is_over_time else max(self.end - self.begin, 1)
        for step in round_steps():
            room = PLOT * step / span
            if room < 3 * LETTER:
                continue
            ticks = list(made(step))
            # (a text that begins or ends at its tick reaches half its width nearer to the next one)
            if all(1.5 * tick.width + APART <= room for tick in ticks) or len(ticks) <= 1:
                return ticks
        return []

    def place_ticks(self, step: int) -> Iterator[Tick]:
        for place in range(-(-self.begin // step) * step, self.end, step):
            time = self.time(self.rounded(self.moments.all[place])) if self.moments.are_told else ""
            yield Tick(self.x(place), str(place), time)

    def moment_ticks(self, step: int) -> Iterator[Tick]:
        first = self.round_from + -(-(self.first - self.round_from) // step) * step
        for moment in range(first, self.last + 1, step):
            place = bisect.bisect_left(self.moments.all, moment, self.begin, self.end)
            yield Tick(self.x_of_moment(moment), self.time(moment), str(min(place, self.end - 1)))
