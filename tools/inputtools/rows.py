"""The rows of a picture: marks, bars and lines over the places of a history.

A row says what is to be seen and not where it stands on the paper: `inputtools.picture` lays the rows out.
Each mark and bar has a text, which is shown where the pointer rests on it.
"""

import bisect
from itertools import accumulate
from typing import Callable, Generic, Iterable, List, NamedTuple, Optional, Sequence, Tuple, TypeVar

MOST_ROWS = 60


class Mark(NamedTuple):
    """A mark of a row: where it stands, maybe between two places, its kind, and what makes its text. (Of very
    many marks few texts are shown.)"""

    place: float
    kind: str
    tell: Callable[[], str]

    @property
    def text(self) -> str:
        return self.tell()


class Bar(NamedTuple):
    """A bar of a row, from a place to another one, or to the end and on."""

    begin: int
    end: int
    kind: str
    text: str
    is_held: bool = False


class Value(NamedTuple):
    """The value that a line has from a place on."""

    place: int
    value: int


Placed = TypeVar("Placed", Mark, Value)


class Ordered(Generic[Placed]):
    """Things in the order of their places, so that those between two places are found at once."""

    def __init__(self, things: Iterable[Placed]) -> None:
        self.things: List[Placed] = sorted(things, key=lambda thing: thing.place)
        self.places: List[float] = [thing.place for thing in self.things]

    def between(self, begin: float, end: float) -> List[Placed]:
        """Those from a place on, up to another one."""
        return self.things[bisect.bisect_left(self.places, begin) : bisect.bisect_left(self.places, end)]

    def before(self, begin: float) -> List[Placed]:
        """The last one before a place, or none, as a list."""
        index = bisect.bisect_left(self.places, begin)
        return self.things[max(index - 1, 0) : index]


class Stretch(NamedTuple):
    """A stretch of places in which a line has values."""

    begin: int
    end: int
    values: "Ordered[Value]"


Spanned = TypeVar("Spanned", Bar, Stretch)


class Spans(Generic[Spanned]):
    """Bars or stretches in the order in which they begin, so that those between two places are found at
    once."""

    def __init__(self, spans: Iterable[Spanned]) -> None:
        self.all: List[Spanned] = sorted(spans, key=lambda span: span.begin)
        self.begins = [span.begin for span in self.all]
        self.reach = list(accumulate((span.end for span in self.all), max))

    def between(self, begin: int, end: int) -> List[Spanned]:
        """Those that have anything between two places."""
        first, behind = bisect.bisect_left(self.reach, begin), bisect.bisect_left(self.begins, end)
        return [span for span in self.all[first:behind] if span.end >= begin]


class Line:
    """A line: its name, its kind, and its stretches, which are apart from one another.

    An axis has one stretch; the position of a slot has one for each contact, and is nothing between them.
    """

    def __init__(self, name: str, kind: str, stretches: Iterable[Stretch]) -> None:
        self.name, self.kind, self.stretches = name, kind, Spans(stretches)
        values = [point.value for stretch in self.stretches.all for point in stretch.values.things]
        self.least, self.greatest = min(values), max(values)

    def moves_between(self, begin: int, end: int) -> bool:
        return any(stretch.values.between(begin, end) for stretch in self.stretches.between(begin, end))


class Row:
    """A row: its label, its marks, bars and lines. `told` names the row where its label alone would not, and
    `below` are the rows that go with it: those of the clients, below the device's."""

    def __init__(self, label: str, kind: str = "row", marks: Iterable[Mark] = (), bars: Iterable[Bar] = (),
                 lines: Iterable[Line] = (), told: Optional[str] = None, below: "Sequence[Row]" = ()) -> None:
        self.label, self.kind, self.told, self.below = label, kind, told or label, below
        self.marks, self.bars, self.lines = Ordered(marks), Spans(bars), list(lines)

    def is_told(self) -> bool:
        """Has it a bar, or a line that moves?"""
        return bool(self.bars.all) or any(line.least < line.greatest for line in self.lines)

    def is_seen(self, begin: int, end: int) -> bool:
        """Does it have anything between two places?"""
        if self.kind == "client" or self.marks.between(begin, end) or self.bars.between(begin, end):
            return True
        return any(line.moves_between(begin, end) for line in self.lines)

    def seen(self, begin: int, end: int) -> "List[Row]":
        """It and those below it that have anything between two places. It stands beside each of them."""
        below = [row for row in self.below if row.is_seen(begin, end)]
        return [self, *below] if below or self.is_seen(begin, end) else []


class Section(NamedTuple):
    """Rows below a heading."""

    heading: str
    rows: List[Row]


def sections_between(found: Sequence[Section], begin: int, end: int) -> List[Section]:
    """Of sections the rows that have anything between two places."""
    kept = [(heading, [one for row in rows for one in row.seen(begin, end)]) for heading, rows in found]
    return [Section(heading, rows) for heading, rows in kept if rows]


def parted_at(found: Sequence[Section], most: int) -> Tuple[List[Section], List[Section]]:
    """Sections with so many rows at most, and the rest. The lane of a client is never in the rest."""
    shown, rest = [], []
    for heading, rows in found:
        first = max(most, sum(row.kind == "client" for row in rows))
        most = max(most - len(rows), 0)
        shown += [Section(heading, rows[:first])] if first else []
        rest += [Section(heading, rows[first:])] if rows[first:] else []
    return shown, rest
