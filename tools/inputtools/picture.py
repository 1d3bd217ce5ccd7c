"""Draws rows as SVG: over the places of a history, or over its moments.

A picture is one SVG, or for a page two beside one another: the labels, which stay where they are, and the
plot, which is moved where the paper is narrow.
"""

from html import escape
from typing import Callable, List, NamedTuple, Optional, Sequence, Tuple

from inputtools.colours import style
from inputtools.rows import Row, Section
from inputtools.scale import EDGE, GUTTER, WIDTH, Scale
from inputtools.shapes import bars, lines, marks, numbers

# A title, and a description.
Said = Tuple[str, str]


class Legend(NamedTuple):
    """What a picture's shapes stand for, as shapes below it, and how high they are."""

    shapes: str
    height: int


AXIS, HEADING, FOOT = 52, 22, 10
HEIGHTS = {"row": 16, "client": 24, "line": 38, "parted": 16, "note": 14}
LONGEST_LABEL, LONGEST_OF_A_LINE = 25, 17


class Sheet(NamedTuple):
    """A picture: its height, and the shapes of the labels and of the plot."""

    height: int
    labels: List[str]
    plot: List[str]


def label(row: Row, y: int, height: int) -> str:
    """A row's label, cut to the room that it has."""
    longest = LONGEST_OF_A_LINE if row.lines else LONGEST_LABEL
    shown = row.label if len(row.label) <= longest else row.label[: longest - 2] + ".."
    kind = {"note": "faint", "parted": "differs"}.get(row.kind, "ink")
    right = GUTTER - (58 if row.lines else 12)
    place = f'x="{right}" y="{y + height / 2 + 4:.1f}" text-anchor="end"'
    return f'<text {place} class="{kind}">{escape(shown)}</text>'


def add_axis(sheet: Sheet, scale: Scale) -> None:
    for text, y in zip(scale.names(), (16, 31)):
        sheet.labels.append(f'<text x="10" y="{y}" class="faint">{escape(text)}</text>')
    for tick in scale.ticks():
        line = f'x1="{tick.x:.1f}" y1="36" x2="{tick.x:.1f}" y2="{sheet.height - FOOT}"'
        sheet.plot.append(f'<line class="grid" {line}/>')
        for text, y in ((tick.text, 16), (tick.below, 31)):
            place = f'x="{tick.x:.1f}" y="{y}" text-anchor="{tick.anchor}"'
            if text:
                sheet.plot.append(f'<text {place} class="faint">{text}</text>')


def add_section(sheet: Sheet, heading: str, rows: Sequence[Row], scale: Scale, y: int) -> int:
    """Adds the shapes of a section that begins at y. Where it ends."""
    sheet.labels.append(f'<line class="rule" x1="8" y1="{y + 2}" x2="{EDGE}" y2="{y + 2}"/>')
    sheet.plot.append(f'<line class="rule" x1="{EDGE}" y1="{y + 2}" x2="{WIDTH - 4}" y2="{y + 2}"/>')
    sheet.labels.append(f'<text x="10" y="{y + 16}" class="heading">{escape(heading)}</text>')
    y += HEADING
    for row in rows:
        height = HEIGHTS[row.kind]
        sheet.labels.append(label(row, y, height))
        for is_left, shape in numbers(row, y, height):
            (sheet.labels if is_left else sheet.plot).append(shape)
        shapes = bars(row, scale, y, height) + lines(row, scale, y, height) + marks(row, scale, y, height)
        if shapes:
            sheet.plot.append(f'<g data-row="{escape(row.told)}">' + "\n".join(shapes) + "</g>")
        y += height
    return y


def drawn(sections: Sequence[Section], scale: Scale) -> Sheet:
    """The picture of sections, each a heading and its rows."""
    rooms = (HEADING + sum(HEIGHTS[row.kind] for row in rows) for _, rows in sections)
    sheet, y = Sheet(AXIS + FOOT + sum(rooms), [], []), AXIS
    add_axis(sheet, scale)
    for heading, rows in sections:
        y = add_section(sheet, heading, rows, scale, y)
    return sheet


def svg_element(left: int, width: int, height: int, said: Optional[Said], ident: str, rules: str = "") -> str:
    """The begin of an SVG. `said` is its title and its description, or None where another one tells it, and
    `rules` its own style."""
    size = f'viewBox="{left} 0 {width} {height}" width="{width}" height="{height}"'
    paper = f'{rules}<rect class="paper" x="{left}" width="{width}" height="{height}"/>'
    head = f'<svg xmlns="http://www.w3.org/2000/svg" {size}'
    if said is None:
        return f'{head} class="labels" aria-hidden="true">{paper}'
    title = f'<title id="{ident}-title">{escape(said[0])}</title>'
    about = f'<desc id="{ident}-about">{escape(said[1])}</desc>'
    return f'{head} role="img" aria-labelledby="{ident}-title {ident}-about">{title}{about}{paper}'


def picture(sections: Sequence[Section], scale: Scale, said: Said,
            legend_of: Callable[[str, int], Legend]) -> str:
    """One SVG of sections, with its own style and below them a legend, which is made of what is shown and for
    where it begins."""
    sheet = drawn(sections, scale)
    shown = "\n".join(sheet.labels + sheet.plot)
    legend = legend_of(shown, sheet.height)
    return "\n".join([alone(sheet.height + legend.height, said), shown, legend.shapes + "</svg>"])


def alone(height: int, said: Said) -> str:
    """The begin of an SVG that stands alone, with its own style."""
    return svg_element(0, WIDTH, height, said, "picture", f"<style>{style()}</style>")


def panes(sections: Sequence[Section], scale: Scale, said: Said, ident: str, picks: str = "") -> str:
    """Two SVGs of sections beside one another, the labels and the plot, in a box that the arrow keys reach.
    On paper it is no higher than its page."""
    sheet = drawn(sections, scale)
    labels = [svg_element(0, EDGE, sheet.height, None, ident), *sheet.labels, "</svg>"]
    plot = [svg_element(EDGE, WIDTH - EDGE, sheet.height, said, ident), *sheet.plot, picks + "</svg>"]
    label = f"{escape(said[0])}: the arrow keys go from mark to mark"
    box = f'tabindex="0" role="group" aria-label="{label}" style="--ratio: {WIDTH / sheet.height:.3f}"'
    return "\n".join([f'<div class="chart" {box}>', *labels, *plot]) + "</div>"


def no_picture(text: str) -> str:
    """An SVG that says why there is nothing to draw."""
    head = alone(60, (text, "There is nothing to draw."))
    return f'{head}\n<text x="10" y="34">{escape(text)}</text></svg>\n'
