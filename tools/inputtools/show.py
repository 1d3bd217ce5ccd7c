"""A played record as rows in the order of its history: what sources sent, what each reader did and was
handed, and where its belief and the device part and meet. `tools/show` prints them."""

import re
import textwrap
from dataclasses import dataclass
from itertools import groupby, zip_longest
from typing import Dict, Iterator, List, Optional, Sequence, Tuple

from inputtools.command import counted
from inputtools.endings import names_text
from inputtools.jsonlines import Fields, end_line, event_fields, line_of, moment_fields
from inputtools.played import PlayedDevice, Reader
from inputtools.report import Again, Call, Entry, Event, Fed, Feedback, JoyRecord, Made, Step, Took
from inputtools.stuck_text import end_text, name_of

# What comes first at one place: what a reader found before the step, the step, and what was so since it.
BEFORE, STEP, SINCE = range(3)
# A blank line stands before what comes so many microseconds later.
LONG_GAP = 1000000
FINISHED = "finished"
# The least width of a side, which the longest event takes.
LEAST_SIDE = 26


@dataclass(frozen=True)
class Row:
    """What happened at a place, and to whom: with the events, and the place of the frame that they are of."""

    place: int
    order: int
    role: str
    name: str
    what: str
    text: str
    events: Tuple[Event, ...] = ()
    frame: Optional[int] = None


# What sources did


def event_text(event: Event) -> str:
    return f"{event.kind if event.code.isdigit() else ''} {event.code} {event.value}".strip()


def frame_text(events: Sequence[Event]) -> str:
    """The events of a frame without its report."""
    return ", ".join(event_text(event) for event in events if not event.is_report) or "SYN_REPORT"


def source_rows(device: PlayedDevice) -> Iterator[Row]:
    """A row for each frame that a source sent without a step between, and for each other step of one."""
    gathered: List[Event] = []
    history, steps = device.report.history, device.source_steps
    for made, behind in zip_longest(steps, steps[1:]):
        step = history[made.place]
        if step.event is None:
            yield Row(made.place, STEP, "source", made.source, step.name, step_text(step))
            continue
        gathered.append(step.event)
        is_last = behind != (made.place + 1, made.source) or history[behind.place].event is None
        if step.event.is_report or is_last:
            text = frame_text(gathered) + ("" if step.event.is_report else " ..")
            yield Row(made.place, STEP, "source", made.source, "sent", text, tuple(gathered))
            gathered = []


# What readers did


def step_text(step: Step) -> str:
    """A step in words: its name, and what stands behind but a client's number and a moment."""
    words = list(step.without_moment())
    return " ".join(words[:1] + words[2:] if words[1:] and words[1].isdigit() else words)


def kind_of(entry: Entry) -> Tuple[str, int]:
    """Entries that follow each other and are of one kind are a row. Events of two frames are of two kinds."""
    if isinstance(entry, Call):
        refused = entry.reply.is_refused
        name = "asks" if entry.step.is_question and not refused else entry.step.name
        return name, -1 if name in ("asks", "read") and not refused else entry.number
    if isinstance(entry, (Took, Again)):
        return "took" if isinstance(entry, Took) else "again", entry.place
    return {Made: "made", JoyRecord: "js", Feedback: "feedback"}.get(type(entry), "fed"), -1


def reader_rows(reader: Reader) -> Iterator[Row]:
    place, found = 0, False
    for (what, frame), group in groupby(reader.part.sight, kind_of):
        entries = list(group)
        told = [entry.place_told() for entry in entries if isinstance(entry, (Call, Again, Feedback))]
        place = next((each for each in reversed(told) if each is not None), place)
        events = tuple(entry.event for entry in entries if isinstance(entry, (Took, Made, Fed)))
        text = text_of(what, entries, events)
        # (who has just read all finds nothing left, which says nothing)
        if text and not (what == "again" and found):
            order = BEFORE if what in ("again", "fed") else STEP
            of = frame if what == "took" else None
            yield Row(place, order, reader.role, reader.name, what, text, events, of)
        found = what in ("took", "made", "js")


def text_of(what: str, entries: Sequence[Entry], events: Sequence[Event]) -> str:
    """What a group of entries is in words; nothing for a read, whose events say all."""
    first = entries[0]
    if isinstance(first, Took):
        return f"{frame_text(events)} (of {first.place})"
    if events:
        return f"{'is told' if what == 'fed' else 'makes'} {frame_text(events)}"
    if what in ("asks", "again"):
        return f"asks for {counted(len(entries), 'answer')}" if what == "asks" else "nothing to read"
    if isinstance(first, Call) and first.reply.is_refused:
        return f"{step_text(first.step)} is refused"
    if isinstance(first, Call):
        return "" if what == "read" else step_text(first.step)
    records = [entry for entry in entries if isinstance(entry, JoyRecord)]
    return ", ".join(f"{'axis' if each.kind & 2 else 'button'} {each.index}: {each.value}"
                     f"{' at first' if each.kind & 128 else ''}" for each in records)


# Where belief and device part


def divergence_rows(reader: Reader, last: int) -> Iterator[Row]:
    """A row for what parts, and for what meets, at one place. (The end is told at the last place.)"""
    parted: Dict[Tuple[int, str], List[str]] = {}
    met: Dict[int, List[str]] = {}
    for each in reader.divergences:
        name = name_of(reader, each.thing)
        values = f"{name} {each.believed_text} for it, {each.present_text} on the device"
        parted.setdefault((min(each.since or 0, last), each.cause.text), []).append(values)
        if each.met_by is not None:
            met.setdefault(min(each.met_at or 0, last), []).append(name)
    told = [("parts", place, f"{names_text(texts)}: {cause}") for (place, cause), texts in parted.items()]
    told += [("meets", place, names_text(names)) for place, names in met.items()]
    for what, place, text in told:
        yield Row(place, SINCE, reader.role, reader.name, what, f"{what}: {text}")


def rows_of(device: PlayedDevice) -> List[Row]:
    """All rows of a device, in the order of its history."""
    last = max(len(device.report.history) - 1, 0)
    rows = list(source_rows(device))
    for reader in device.readers():
        rows += [*reader_rows(reader), *divergence_rows(reader, last)]
    return sorted(rows, key=lambda row: (row.place, row.order))


# As text and as JSON


class Table:
    """The rows of a device as lines: seconds, gaps and places; sources left, readers right."""

    def __init__(self, device: PlayedDevice, rows: Sequence[Row], width: int) -> None:
        self.rows, self.moments = rows, [device.state.at.moment(row.place) for row in rows]
        told = [moment for moment in self.moments if moment is not None]
        gaps = [after - before for before, after in zip(told, told[1:])]
        self.digits = 6 if any(moment % 1000 for moment in told) else 3
        self.wide = max(len(self.seconds(max(told, default=0))), len("seconds"))
        # (times may go back)
        self.gap = max(len(self.seconds(max([abs(gap) for gap in gaps], default=0))), len("gap")) + 1
        widest = max((len(sides(row)[0]) for row in rows), default=0)
        self.left = max(min(widest, max(width // 2 - 20, LEAST_SIDE)), len("sources"))
        self.right = max(width - self.left - self.wide - self.gap - 15, LEAST_SIDE)

    def seconds(self, micros: int, sign: str = "") -> str:
        return f"{micros / 1000000:{sign}.{self.digits}f}"

    def line(self, seconds: str, gap: str, place: str, left: str, right: str) -> str:
        head = f"{seconds:>{self.wide}} {gap:>{self.gap}} {place:>7}"
        return f"{head} | {left:<{self.left}} | {right}".rstrip()

    def lines(self) -> Iterator[str]:
        """The head, and each row with its time and its place where they are others than before."""
        yield self.line("seconds", "gap", "place", "sources", "readers")
        before: Optional[int] = None
        places = [None, *(row.place for row in self.rows)]
        for row, moment, place in zip(self.rows, self.moments, places):
            gap = 0 if moment is None or before is None else moment - before
            seconds = "" if moment in (None, before) else self.seconds(moment or 0)
            yield from [""] if gap >= LONG_GAP else []
            shown = "" if row.place == place else str(row.place)
            yield from self.row_lines(row, seconds, self.seconds(gap, "+") if gap else "", shown)
            before = before if moment is None else moment

    def row_lines(self, row: Row, seconds: str, gap: str, place: str) -> Iterator[str]:
        """A row, on as many lines as its sides take."""
        texts = (wrapped(text, width) for text, width in zip(sides(row), (self.left, self.right)))
        for left, right in zip_longest(*texts, fillvalue=""):
            yield self.line(seconds, gap, place, left, right)
            seconds = gap = place = ""


def wrapped(text: str, width: int) -> List[str]:
    """A text on lines of this width, none of which ends between a code and its value."""
    if len(text) <= width:
        return [text]
    joined = re.sub(r" (-?\d)", "\u00a0\\1", text)
    lines = textwrap.wrap(joined, width, break_on_hyphens=False, break_long_words=False)
    return [line.replace("\u00a0", " ") for line in lines]


def sides(row: Row) -> Tuple[str, str]:
    text = f"{row.name}: {row.text}"
    return (text, "") if row.role == "source" else ("", text)


def device_lines(device: PlayedDevice, width: int) -> List[str]:
    table = Table(device, rows_of(device), width)
    ends = [f"at the end: {reader.name}: {end_text(reader)}" for reader in device.readers()]
    ends += [f"at the end: {part.name}: stopped {part.end.reason}" for part in device.report.all_parts()
             if part.end.reason != FINISHED]
    return [f"device {device.name} steps {device.report.steps}", *table.lines(), *ends]


def row_line(device: PlayedDevice, row: Row) -> str:
    """The object of a row."""
    who: Fields = {"device": device.name, "role": row.role, "name": row.name}
    frame: Fields = {} if row.frame is None else {"frame": row.frame}
    events = [event_fields(each) for each in row.events]
    moment = moment_fields(device.state.at, row.place)
    return line_of("row", **who, **moment, what=row.what, text=row.text, events=events, **frame)


def json_lines(device: PlayedDevice) -> List[str]:
    rows = [row_line(device, row) for row in rows_of(device)]
    ends = [end_line(device, reader) for reader in device.readers()]
    return [line_of("device", device=device.name, steps=device.report.steps), *rows, *ends]
