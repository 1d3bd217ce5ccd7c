"""The page of a played record: what is wrong at the end, and for each device a picture of all places, and
pictures of ranges of them."""

from functools import cached_property
from html import escape
from typing import List, Optional, Sequence, Tuple

from inputtools.colours import read_rules, style
from inputtools.command import counted, with_names
from inputtools.lanes import Lanes
from inputtools.picture import AXIS, Legend, no_picture, panes, picture
from inputtools.played import PlayedDevice
from inputtools.progress import progress
from inputtools.rows import MOST_ROWS, Row, Section, parted_at, sections_between
from inputtools.scale import WIDTH, Moments, Scale
from inputtools.shapes import mark_shape
from inputtools.stuck_text import device_lines
from inputtools.endings import NAMED, Ending, cuts_of, endings_of, passed_of
from inputtools.timeline import between, gravest, lines_of, ranges_of, text_of, timeline
from inputtools.wall import wall

Range = Tuple[int, int]

# What marks, bars and lines stand for, by their kinds.
MARKS = {
    "event": "event", "report": "report", "timer": "tick or inhibition", "frame": "frame", "read": "read",
    "again": "nothing left to read", "ask": "opened, or asked anew", "eaten": "eaten by a filter",
    "loss": "loss (SYN_DROPPED)",
}
BARS = {
    "on": "down, or on", "contact": "contact", "open": "open", "grab": "grab", "mask": "mask",
    "revoked": "revoked", "stuck": "down for it, up on the device", "missed": "up for it, down on the device",
    "parted": "another value for it than on the device",
    "pick parts": "a range in which a belief and the device part or meet",
    "pick held": "one from which on something is held to the end",
    "pick loses": "one with a loss, or a revocation", "pick grabs": "one with a grab",
}
LINES = {
    "first": ("M1 12H6V5H15", "axis, or X"), "second": ("M1 12H6V5H15", "Y"),
    "held": ("M4 2l9 6l-9 6z", "held at the end"),
    "dense on": ("M2 4V12M5 4V12M8 4V12M11 4V12M14 4V12", "many, closer than can be drawn"),
}

HOW = """What a mark or bar stands for is shown where the pointer rests on it, where it is touched, and by the
arrow keys in a picture."""

# What a range is shown for.
HAPPENS = "parts, meets, is held, is grabbed or is lost"


def plain(name: str) -> str:
    """A file's name as text of a page, whatever characters it has."""
    shown = "".join(one if one.isprintable() else one.encode("unicode_escape").decode() for one in name)
    return escape(shown).encode("ascii", "xmlcharrefreplace").decode()


def legend_parts(shown: str) -> List[Tuple[str, str]]:
    """What the marks, bars and lines stand for that are shown: of each a shape without its end, 16 by 16, and
    its text."""
    parts = [(kind, mark_shape(kind, 8, 1, 14), text) for kind, text in MARKS.items()]
    for kind, text in BARS.items():
        box = 'y="6" height="4"' if kind == "parted" else 'y="4" height="8"'
        parts.append((kind, f'<rect class="{kind}" x="1" {box} width="14"', text))
    parts += [(kind, f'<path class="{kind}" d="{path}"', text) for kind, (path, text) in LINES.items()]
    return [(shape, text) for kind, shape, text in parts
            if any(f'class="{before}{kind}"' in shown for before in ("", "dense "))]


def legend(shown: str) -> str:
    icon = '<svg width="16" height="16" viewBox="0 0 16 16" aria-hidden="true">{}/></svg>'
    parts = (f"<span>{icon.format(shape)}{text}</span>" for shape, text in legend_parts(shown))
    return '<p class="legend">' + " ".join(parts) + "</p>"


class DevicePart:
    """The part of a device between two places."""

    def __init__(self, played: PlayedDevice, number: int, first: Optional[int], last: Optional[int]) -> None:
        self.played, self.ident, self.found = played, f"d{number}", timeline(played)
        self.sections, self.moments = Lanes(played).sections(), Moments(played.report.history)
        self.at, self.steps = played.state.at, len(played.report.history)
        self.begin, self.end = first or 0, min(self.steps if last is None else last + 1, self.steps)
        self.ranges = ranges_of(self.found, self.begin, self.end)
        self.why_nothing = why_nothing(played, first)

    def said(self, begin: int, end: int) -> Tuple[str, str]:
        """The title and the description of a picture."""
        title = f"device {self.played.name}, {self.moments.range_text(begin, end)}"
        names = [f"source {part.name}" for part in self.played.report.parts if part.role == "source"]
        names += [f"{reader.role} {reader.name}" for reader in self.played.readers()]
        happens = text_of(between(self.found, begin, end), self.at) or f"Nothing {HAPPENS}"
        cuts = "".join(f"{line}. " for line in cuts_of([self.played]))
        return title, f"{cuts}Lanes for {', '.join(names) or 'the device'}. {happens}."

    def shown_rows(self, begin: int, end: int) -> Tuple[List[Section], List[Section], str]:
        """The rows of a picture that has room for them, the rest, and how many these are."""
        shown, rest = parted_at(sections_between(self.sections, begin, end), MOST_ROWS)
        return shown, rest, f"and {counted(sum(len(rows) for _, rows in rest), 'row')} more"

    def both_ways(self, begin: int, end: int, ranges: Sequence[Range] = ()) -> str:
        """A picture over places and one over moments; the page shows one of them. Rows beyond the first ones
        are behind a button."""
        said = self.said(begin, end)
        progress.tell(f"{said[0]} is drawn")
        shown, rest, more = self.shown_rows(begin, end)
        parts = []
        for kind, is_over_time in (("place", False), ("time", True)):
            scale, ident = Scale(begin, end, self.moments, is_over_time), f"{self.ident}-{begin}-{end}-{kind}"
            charts = panes(shown, scale, said, ident, self.picks(ranges, scale))
            if rest:
                button = f'<summary class="button">{more}</summary>'
                charts += f'\n<details>{button}{panes(rest, scale, said, f"{ident}-rest")}</details>'
            parts.append(f'<div class="{kind}">{charts}</div>')
        return "\n".join(parts)

    def picks(self, ranges: Sequence[Range], scale: Scale) -> str:
        """Boxes below the axis of the whole picture that lead to the ranges."""
        shapes = []
        for begin, end in ranges:
            found = between(self.found, begin, end)
            left, right = scale.x(begin), scale.x(end)
            box = f'x="{left:.1f}" y="{AXIS - 13}" width="{max(right - left - 1, 3):.1f}" height="10"'
            title = f"{self.moments.range_text(begin, end)}: {text_of(found, self.at)}"
            shape = f'<rect class="pick {gravest(found)}" {box}><title>{escape(title)}</title></rect>'
            shapes.append(f'<a href="#{self.ident}-{begin}" tabindex="-1">{shape}</a>')
        return "".join(shapes)

    def ident_of(self, ending: Ending) -> Optional[str]:
        """What shows something that is wrong: the range in which it begins, or else the device's picture.
        None where it is not drawn."""
        place = max(ending.since, self.begin) if ending.is_at_end else ending.since
        if not self.begin <= place < self.end:
            return None
        found = (begin for begin, end in self.ranges if begin <= place < end)
        return next((f"{self.ident}-{begin}" for begin in found), self.ident)

    def range_part(self, begin: int, end: int) -> str:
        """A range in which something happens, which is opened to be seen."""
        lines = lines_of(between(self.found, begin, end), self.at)
        told = "".join(f"<li>{escape(line)}</li>" for line in lines)
        summary = f"{self.moments.range_text(begin, end)}<ul>{told}</ul>"
        head = f'<details id="{self.ident}-{begin}"><summary>{summary}</summary>'
        return head + self.both_ways(begin, end) + "</details>"

    def ranges_part(self) -> List[str]:
        if self.end - self.begin <= 1 or self.steps < 2:
            return []
        any_other = with_names("<code>tools/draw --from PLACE --to PLACE FILE</code> draws any other range")
        if self.ranges:
            told = f"The boxes below the axis lead to the ranges in which something {HAPPENS}; {any_other}."
            return [f"<p>{told}</p>"] + [self.range_part(*each) for each in self.ranges]
        is_calm = not between(self.found, self.begin, self.end)
        return [f"<p>Nothing {HAPPENS} here. {any_other}.</p>"] if is_calm else []

    @cached_property
    def whole(self) -> str:
        """The picture of all places that are drawn, or nothing where there are none."""
        return "" if self.why_nothing else self.both_ways(self.begin, self.end, self.ranges)

    def text(self, legend: str) -> str:
        name, steps = escape(self.played.name), counted(self.steps, "step")
        head = f'<section id="{self.ident}"><h2>device {name}: {steps}'
        if self.why_nothing:
            return f"{head}</h2><p>{escape(self.why_nothing)}</p></section>"
        parts = [f"{head}, {self.moments.range_text(self.begin, self.end)}</h2>", self.whole, legend]
        told = escape("\n".join(device_lines(self.played)))
        summary = f'<details open id="{self.ident}-told"><summary>where beliefs and device part</summary>'
        return "\n".join([*parts, *self.ranges_part()]) + f"{summary}<pre>{told}</pre></details></section>"


def why_nothing(played: PlayedDevice, first: Optional[int]) -> Optional[str]:
    """Why nothing of a device can be drawn from a place on, or None."""
    steps = len(played.report.history)
    if not steps:
        return f"device {played.name} has no step: nothing was injected, and nobody opened it"
    if first is not None and first >= steps:
        ends = f"the history of device {played.name} ends with place {steps - 1}"
        return f"{ends}, which is before place {first}"
    return None


def sentence(devices: Sequence[PlayedDevice], parts: Sequence[DevicePart]) -> str:
    """What is wrong at the end, the gravest first, as a link to the range in which it begins; or what was
    wrong before."""
    endings = endings_of(devices, NAMED)
    first = (endings or passed_of(devices))[:1]
    if not first:
        return '<p id="sentence">Nobody ends apart from the device, and nothing is held on it.</p>'
    ending, part = first[0], next(part for part in parts if part.played is first[0].device)
    ident, shown = part.ident_of(ending), escape(ending.text)
    told = f'<a href="#{ident}" data-shows="{escape(ending.row)}">{shown}</a>' if ident else shown
    more = f"and {len(endings) - 1} more"
    more = f'<a href="#{part.ident}-told">{more}</a>' if part.whole else more
    return f'<p id="sentence">{told}{f"; {more}" if len(endings) > 1 else ""}.</p>'


def page(name: str, devices: Sequence[PlayedDevice], first: Optional[int] = None,
         last: Optional[int] = None) -> str:
    """The text of the page."""
    drawn = [DevicePart(played, number, first, last) for number, played in enumerate(devices)]
    explained = legend("".join(part.whole for part in drawn))
    first_drawn = next((part for part in drawn if part.whole), None)
    title = plain(name)
    return "\n".join([
        '<!doctype html>\n<html lang="en"><head><meta charset="utf-8">',
        '<meta name="viewport" content="width=device-width, initial-scale=1">',
        f"<title>{title}</title>\n<style>{style()}\n{read_rules('page.css')}</style></head>",
        f'<body class="by-place"><h1>{title}</h1>',
        *(f'<p class="cut">{escape(line)}</p>' for line in cuts_of(devices)),
        sentence(devices, drawn),
        *(f"<p>{escape(line)}</p>" for line in wall.heading()),
        '<p class="how">Over <label><input type="radio" name="by" value="by-place" checked> places</label> ',
        f'<label><input type="radio" name="by" value="by-time"> time</label> {HOW}</p>',
        *(part.text(explained if part is first_drawn else "") for part in drawn),
        '<p id="said" role="status" hidden></p>',
        f"<script>\n{read_rules('page.js')}</script></body></html>\n",
    ])


def svg_legend(shown: str, y: int) -> Legend:
    """What a picture's shapes stand for, as rows of the picture from y on."""
    shapes, x, top, y = [], 10, y, y + 8
    for shape, text in legend_parts(shown):
        width = 30 + 6 * len(text)
        if x + width > WIDTH:
            x, y = 10, y + 20
        told = f'<text x="20" y="12" class="faint">{text}</text>'
        shapes.append(f'<g transform="translate({x} {y})">{shape}/>{told}</g>')
        x += width
    return Legend("\n".join(shapes), y + 24 - top)


def svg(played: PlayedDevice, first: Optional[int] = None, last: Optional[int] = None) -> str:
    """The picture of one device alone, with its own style and a legend."""
    if not played.report.history:
        return no_picture(why_nothing(played, first) or "")
    part = DevicePart(played, 0, first, last)
    scale = Scale(part.begin, part.end, part.moments)
    shown, rest, more = part.shown_rows(part.begin, part.end)
    if rest:
        shown[-1].rows.append(Row(more, "note"))
    return picture(shown, scale, part.said(part.begin, part.end), svg_legend) + "\n"
