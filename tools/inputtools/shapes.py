"""The shapes of a row: its marks, bars and lines on the paper, each with a text.

Marks that fall on one point of the paper are drawn once, so a picture stays small however many events it
stands for. Where there are very many, they are drawn as one, and strips of the paper have the texts.
"""

from html import escape
from heapq import nsmallest
from typing import Dict, Iterable, List, Tuple, Union

from inputtools.rows import Bar, Mark, Row, Stretch
from inputtools.scale import GUTTER, PLOT, Scale

# Marks or bars on one point of the paper, and where each stands.
Points = List[Tuple[float, Union[Mark, Bar]]]

# In which order marks are drawn, and how many of one kind in a row are drawn each with its text.
MARK_KINDS = ("event", "timer", "report", "frame", "again", "read", "ask", "eaten", "loss")
DENSE = 250

# Marks that are no upright lines: where the path of each begins, from its middle, and how it goes on.
PATHS = {
    "loss": (4, 4, "l8 8m0 -8l-8 8"), "eaten": (4, 4, "l4 7l4 -7"),
    "ask": (0, 6, "l5 6l-5 6l-5 -6z"), "read": (0, 5, "l5 9h-10z"),
}

# How wide a strip of dense marks is that has a text, and how many of its marks the text tells.
STRIP, TOLD = 8, 3

# In which order bars are drawn. Bars narrower than so many points of the paper, with less than one between
# them, are drawn as many: a line for each so many points. How long the mark is in which the bar of what is
# held ends.
BAR_KINDS = ("open", "revoked", "mask", "grab", "on", "contact", "parted", "stuck", "missed")
NARROW, HATCH, HELD = 2, 3, 9

# Where the numbers of lines stand, and by which end and kind of text.
LEFT, RIGHT = (GUTTER - 10, "end", "number"), (GUTTER + PLOT + 5, "start", "second")

# How far from a row's top a bar begins, and how much lower than the row it is.
BAR_HEIGHTS = {"open": (2, 5), "contact": (2, 5), "mask": (2, 5), "revoked": (2, 5), "grab": (2, 19),
               "parted": (6, 12)}


def titled(shape: str, text: str) -> str:
    """A shape, an element without its end, that shows a text where the pointer rests on it."""
    name = shape[1 : shape.index(" ")]
    return f"{shape}><title>{escape(text)}</title></{name}>"


def mark_shape(kind: str, x: float, y: float, height: float) -> str:
    """The shape of a mark in a row of this height at y."""
    middle = y + height / 2
    if kind in PATHS:
        left, above, path = PATHS[kind]
        return f'<path class="{kind}" d="M{x - left:.1f} {middle - above:.1f}{path}"'
    if kind == "again":
        return f'<circle class="again" cx="{x:.1f}" cy="{middle:.1f}" r="3.5"'
    top = {"event": 0.35, "timer": 0.2}.get(kind, 0.1) * height
    return f'<rect class="{kind}" x="{x - 1:.1f}" y="{y + top:.1f}" width="2" height="{height - top - 2:.1f}"'


def marks(row: Row, scale: Scale, y: int, height: int) -> List[str]:
    """The marks of a row, each point of the paper once for each kind."""
    kinds: Dict[str, Dict[int, Points]] = {kind: {} for kind in MARK_KINDS}
    for mark, x in scale.on_paper(row.marks.between(scale.begin, scale.end)):
        kinds[mark.kind].setdefault(round(x), []).append((x, mark))
    dense = {kind: kinds.pop(kind) for kind in MARK_KINDS if len(kinds[kind]) > DENSE}
    shapes = [dense_marks(kind, sorted(points), y, height) for kind, points in dense.items()]
    shapes += strips([point for points in dense.values() for point in points.items()], y, height)
    return shapes + [titled(mark_shape(kind, found[0][0], y, height), several_text(found, 1))
                     for kind, points in kinds.items() for found in points.values()]


def several_text(found: Points, told: int) -> str:
    """The texts of marks on one point of the paper: the first ones, and how many more there are."""
    first = found if len(found) <= told else nsmallest(told, found, key=lambda each: each[0])
    more = len(found) - len(first)
    return "; ".join(told.text for _, told in first) + (f" (and {more} more here)" if more else "")


def dense_marks(kind: str, points: List[int], y: int, height: int) -> str:
    """Many marks of one kind: one path, whose texts the strips have."""
    top = y + height * {"event": 0.35, "timer": 0.2, "again": 0.55, "read": 0.3}.get(kind, 0.1)
    path = "".join(f"M{x} {top:.0f}V{y + height - 2}" for x in points)
    return f'<path class="dense {kind}" d="{path}"/>'


def strips(points: Iterable[Tuple[int, Points]], y: int, height: int) -> List[str]:
    """Strips of the paper, each with the texts of the first dense marks in it. `points` are those on each
    point of the paper."""
    found: Dict[int, Points] = {}
    for x, there in points:
        found.setdefault(min(x - GUTTER, PLOT - 1) // STRIP, []).extend(there)
    box = f'y="{y}" width="{STRIP}" height="{height}"'
    return [titled(f'<rect class="hit" x="{GUTTER + number * STRIP}" {box}', several_text(there, TOLD))
            for number, there in sorted(found.items())]


class Stroke:
    """Bars of one kind on the paper: one, or several that are narrower and nearer to one another than can be
    seen."""

    def __init__(self, left: float, right: float, bar: Bar) -> None:
        self.left, self.right, self.bar = left, right, bar
        self.points: Points = [(left, bar)]

    def joins(self, other: "Stroke") -> bool:
        """Is the other one, which is behind it, told with it as one of many? What is held never is."""
        is_narrow = len(self.points) > 1 or self.right - self.left < NARROW
        are_near = other.right - other.left < NARROW and other.left - self.right < 1
        return is_narrow and are_near and not other.bar.is_held

    def take(self, other: "Stroke") -> None:
        self.right = max(self.right, other.right)
        self.points += other.points


def strokes(found: Iterable[Bar], scale: Scale) -> List[Stroke]:
    """The strokes of bars of one kind, in order. Between two of them paper is to be seen."""
    shown: List[Stroke] = []
    for bar in found:
        stroke = Stroke(scale.x(bar.begin), scale.x(bar.end), bar)
        before = shown[-1] if shown else None
        if before and before.joins(stroke):
            before.take(stroke)
            continue
        if before and before.right - before.left > NARROW and abs(stroke.left - before.right) < 1:
            before.right = stroke.left - 1
        shown.append(stroke)
    return shown


def bar_shapes(stroke: Stroke, scale: Scale, y: int, height: int) -> List[str]:
    """The shapes of a stroke: those of many bars, or its one bar and maybe the mark in which that ends."""
    bar, (top, less) = stroke.bar, BAR_HEIGHTS.get(stroke.bar.kind, (5, 10))
    if len(stroke.points) > 1:
        columns = sorted({round(x) // HATCH * HATCH for x, _ in stroke.points})
        points = [(round(x), [(x, bar)]) for x, bar in stroke.points]
        return [dense_marks(bar.kind, columns, y, height), *strips(points, y, height)]
    is_held = bar.is_held and bar.end <= scale.end
    right = stroke.right - HELD if is_held and bar.kind != "contact" else stroke.right
    box = f'y="{y + top}" width="{max(right - stroke.left, 2):.1f}" height="{height - less}"'
    shapes = [titled(f'<rect class="{bar.kind}" x="{stroke.left:.1f}" {box}', bar.text)]
    if is_held:
        path = f"M{stroke.right - HELD:.1f} {y + height / 2 - 6:.1f}l{HELD} 6l-{HELD} 6z"
        shapes.append(titled(f'<path class="held" d="{path}"', f"held at the end: {bar.text}"))
    return shapes


def bars(row: Row, scale: Scale, y: int, height: int) -> List[str]:
    """The bars of a row."""
    kinds: Dict[str, List[Bar]] = {kind: [] for kind in BAR_KINDS}
    for bar in row.bars.between(scale.begin, scale.end):
        kinds[bar.kind].append(bar)
    found = (stroke for each in kinds.values() for stroke in strokes(each, scale))
    return [shape for stroke in found for shape in bar_shapes(stroke, scale, y, height)]


def columns(stretch: Stretch, scale: Scale) -> List[Tuple[int, int]]:
    """The points of a line's stretch between the scale's ends; of those on one point of the paper the first,
    least, greatest, last."""
    begin, points = stretch.begin, stretch.values
    inside = [(scale.x(point.place), point.value) for point in points.between(scale.begin, scale.end)]
    start = scale.x(max(begin, scale.begin)) if begin >= scale.begin else GUTTER
    found: Dict[int, List[int]] = {}
    for x, value in [(start, point.value) for point in points.before(scale.begin)] + inside:
        found.setdefault(round(x), []).append(value)
    several = ((at, [values[0], min(values), max(values), values[-1]] if len(values) > 1 else values)
               for at, values in found.items())
    return [(at, value) for at, values in several for value in values]


def stepped(points: List[Tuple[int, int]], end: float) -> str:
    """The path of a line that goes to the right, and up or down where the value changes."""
    parts, level = [f"M{points[0][0]} {points[0][1]}"], points[0][1]
    for x, y in points[1:]:
        if y != level:
            parts.append(f"H{x}V{y}")
            level = y
    return "".join(parts) + f"H{max(round(end), points[-1][0] + 1)}"


def lines(row: Row, scale: Scale, y: int, height: int) -> List[str]:
    """The lines of a row, each between the least and the greatest value that it has at all."""
    shapes = []
    for line in row.lines:
        room = (height - 10) / max(line.greatest - line.least, 1)
        path = []
        for stretch in line.stretches.between(scale.begin, scale.end):
            kept = columns(stretch, scale)
            kept = [(x, round(y + height - 5 - room * (value - line.least))) for x, value in kept]
            path += [stepped(kept, scale.x(min(stretch.end, scale.end)))] if kept else []
        if path:
            text = f"{line.name} from {line.least} to {line.greatest}"
            shapes.append(titled(f'<path class="{line.kind}" d="{"".join(path)}"', text))
    return shapes


def numbers(row: Row, y: int, height: int) -> List[Tuple[bool, str]]:
    """The least and the greatest value of a row's lines: of the first to their left, of the second to their
    right."""
    shapes = []
    for line in row.lines:
        is_first = line.kind == "first"
        x, anchor, kind = LEFT if is_first else RIGHT
        for value, lower in ((line.greatest, 9), (line.least, height - 2)):
            place = f'x="{x}" y="{y + lower}" text-anchor="{anchor}"'
            shapes.append((is_first, f'<text {place} class="{kind}">{value}</text>'))
    return shapes
