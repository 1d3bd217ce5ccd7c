"""What is drawn of a played device: the rows of its sources, of the device and of its readers. Places have
their times beside them in each text.
"""

from functools import partial
from typing import Dict, List, NamedTuple, Optional, Sequence, Tuple

from inputtools.belief import BIT_KINDS, CURRENT, TRACKING_ID, Thing
from inputtools.command import counted
from inputtools.devicestate import Changes, Frame
from inputtools.divergences import Divergence
from inputtools.endings import apart_of, first_of, kind_of, lasting_of, names_text
from inputtools.joysticks import STARTUP, JoyWalk
from inputtools.owners import Owner
from inputtools.played import Client, PlayedDevice, Reader
from inputtools.report import Again, Call, JoyRecord, Took
from inputtools.rows import Bar, Line, Mark, Ordered, Row, Section, Stretch, Value
from inputtools.still_down import still_down_of
from inputtools.stuck_text import name_of
from inputtools.summary import CAUSES

# What stands before a joystick's records in a text, and how long that is at most, about.
HANDED, LONGEST = ": it was handed ", 240

# What is said of a call by which a reader asks for all that the device has.
ASKS = {"open": "opened", "discard": "discarded, to ask anew"}


class Rank(NamedTuple):
    """How grave a thing is, and since which place: 0 where a client ends apart in it, 1 where it is held on
    the device at the end, and 2 where a client was apart in it before."""

    grave: int
    since: int


def shown_text(thing: Thing, value: int) -> Optional[str]:
    """What is shown of a key, a switch, an LED or a slot with a value, or None where it is off."""
    if thing.slot is not None:
        return f"contact {value}" if value >= 0 else None
    return f"{thing.code} {thing.value_text(value)}" if value else None


def is_held_down(thing: Thing) -> bool:
    """Is it a key or a contact, which somebody holds?"""
    return thing.kind == "EV_KEY" or thing.code == TRACKING_ID


def lane_of(thing: Thing) -> Thing:
    """The thing whose row shows it: for all values of a slot that of its contacts."""
    return thing if thing.slot is None else Thing("EV_ABS", TRACKING_ID, thing.slot)


class Lanes:
    """The rows of one played device."""

    def __init__(self, played: PlayedDevice) -> None:
        self.played, self.state, self.at = played, played.state, played.state.at
        self.end, self.walked = len(played.report.history), played.clients + played.joysticks

    def told(self, before: str, place: int, behind: str) -> str:
        return f"{before}{self.at.text(place)}{behind}"

    def mark(self, place: int, kind: str, before: str = "", behind: str = "", back: float = 0) -> Mark:
        """A mark that tells its place, with texts before and behind that, and stands so far before it."""
        return Mark(max(place - back, 0), kind, partial(self.told, before, place, behind))

    def sections(self) -> List[Section]:
        """The headings and their rows: the sources, the device, each client, joystick and owner. Where
        anything parts or is held at the end, all else of the device stands last."""
        grave, rest = self.thing_rows()
        readers = []
        for reader in self.played.readers():
            if isinstance(reader, Owner):
                rows = self.owner_rows(reader)
            else:
                row = Row(reader.name, "client", self.call_marks(reader), self.handle_bars(reader))
                rows = [row, *self.lasting_rows(reader)]
            readers.append(Section(f"{reader.role} {reader.name}", rows))
        is_calm = not grave and all(row.kind != "parted" for _, rows in readers for row in rows)
        device, first = f"device {self.played.name}", self.frame_rows() + (rest if is_calm else grave)
        found = [Section("sources", self.source_rows()), Section(device, first), *readers]
        return found if is_calm or not rest else [*found, Section(f"{device}: all else", rest)]

    # Sources

    def source_rows(self) -> List[Row]:
        """For each source a row of the steps that it made."""
        sources = [part.name for part in self.played.report.parts if part.role == "source"]
        marks: Dict[str, List[Mark]] = {name: [] for name in sources}
        for place, name in self.played.source_steps:
            event = self.played.report.history[place].event
            kind = "timer" if event is None else "report" if event.is_report else "event"
            marks[name].append(Mark(place, kind, partial(self.step_text, place)))
        return [Row(name, marks=found) for name, found in marks.items()]

    def step_text(self, place: int) -> str:
        # (the moment of a step stands beside its place already)
        return f"{self.at.text(place)}: {' '.join(self.played.report.history[place].without_moment())}"

    # The device

    def thing_rows(self) -> Tuple[List[Row], List[Row]]:
        """The rows of the things that part for a client or are held at the end, the gravest first, each with
        the clients' rows of it below; and those of all other things that were on, moved or were touched."""
        beside, ranks = self.rows_beside(), self.ranks()
        lanes = {lane_of(thing) for thing in self.state.changes} - {CURRENT} | set(beside)
        rows = {lane: self.thing_row(lane, beside.get(lane, [])) for lane in sorted(lanes, key=order_of)}
        grave = sorted(lanes & set(ranks), key=lambda lane: (ranks[lane], order_of(lane)))
        rest = [row for lane, row in rows.items() if lane not in ranks and row.is_told()]
        return [rows[lane] for lane in grave], rest

    def rows_beside(self) -> Dict[Thing, List[Row]]:
        """The rows of what parts for clients and joysticks, by the thing whose row they stand beside."""
        found: Dict[Thing, List[Row]] = {}
        for client in self.walked:
            for thing, row in self.divergence_rows(client, f"{client.name}: ").items():
                found.setdefault(lane_of(thing), []).append(row)
        return found

    def ranks(self) -> Dict[Thing, Rank]:
        """How grave the things are that part or are held at the end, by the thing whose row shows them."""
        found = [(held.thing, Rank(1, held.since or 0)) for held in still_down_of(self.state)]
        for client in self.walked:
            for each in apart_of(client):
                found.append((each.thing, Rank(0 if each.met_by is None else 2, each.since or 0)))
        ranks: Dict[Thing, Rank] = {}
        for thing, rank in found:
            ranks[lane_of(thing)] = min(rank, ranks.get(lane_of(thing), rank))
        return ranks

    def frame_rows(self) -> List[Row]:
        """A row of the frames, and one of what the device's filters ate of them."""
        frames = self.state.frames
        marks = [Mark(frame.place, "frame", partial(self.frame_text, frame)) for frame in frames]
        return [Row("frames", marks=marks)] + ([self.filter_row()] if self.state.description.filters else [])

    def frame_text(self, frame: Frame) -> str:
        events = ", ".join(event.text() for event in frame.events[:6])
        more = f" and {len(frame.events) - 6} more" if len(frame.events) > 6 else ""
        return f"frame of {self.at.text(frame.place)}: {events}{more}"

    def filter_row(self) -> Row:
        filters, marks = self.state.description.filters, []
        for frame in self.state.frames:
            for event, by in zip(frame.events, frame.eaten):
                if by is not None:
                    text = f": {event.text()} is eaten by filter {by} ({filters[by - 1].text})"
                    marks.append(self.mark(frame.place, "eaten", behind=text))
        return Row("eaten by filters", marks=marks)

    def span_bar(self, begin: Optional[int], end: Optional[int], kind: str, text: str) -> Bar:
        """A bar from a place, or the start, to a place, or the end."""
        last = self.end if end is None else end
        return Bar(begin or 0, last, kind, f"{text} {self.at.span(begin, end)}")

    def span_bars(self, thing: Thing, changes: Changes, kind: str) -> List[Bar]:
        """Bars for the spans of places in which a thing is on. What was on from the start has no first place,
        and what is on at the end no last one."""
        places = [self.state.place_of(frame) for frame in changes.frames]
        texts = [shown_text(thing, value) for value in changes.values]
        spans = zip(places, [*places[1:], None], texts)
        bars = [self.span_bar(begin, end, kind, text) for begin, end, text in spans if text is not None]
        if texts[-1] is not None:
            bars[-1] = bars[-1]._replace(is_held=is_held_down(thing))
        return bars

    def points_of(self, changes: Changes) -> "Ordered[Value]":
        places = (self.state.place_of(frame) or 0 for frame in changes.frames)
        return Ordered(Value(*each) for each in zip(places, changes.values))

    def thing_row(self, thing: Thing, below: Sequence[Row]) -> Row:
        """The device's row of a key, switch or LED, of an axis, or of a slot: its contacts as bars, and where
        they were as lines."""
        changes = self.state.changes.get(thing) or Changes(thing.first_value)
        if thing.kind in BIT_KINDS:
            return Row(thing.code, bars=self.span_bars(thing, changes, "on"), below=below)
        if thing.slot is None:
            stretch = Stretch(0, self.end, self.points_of(changes))
            return Row(thing.text(), "line", lines=[Line(thing.code, "first", [stretch])], below=below)
        bars = self.span_bars(thing, changes, "contact")
        lines = self.contact_lines(thing.slot, bars)
        return Row(f"slot {thing.slot}", "line", bars=bars, lines=lines, below=below)

    def contact_lines(self, slot: int, bars: Sequence[Bar]) -> List[Line]:
        """The lines of a slot's positions, during its contacts alone."""
        lines = []
        for code, kind in (("ABS_MT_POSITION_X", "first"), ("ABS_MT_POSITION_Y", "second")):
            moves = self.state.changes.get(Thing("EV_ABS", code, slot))
            if moves is None:
                continue
            points = self.points_of(moves)
            stretches = [Stretch(bar.begin, bar.end, during(points, bar.begin, bar.end)) for bar in bars]
            stretches = [stretch for stretch in stretches if stretch.values.things]
            lines += [Line(code, kind, stretches)] if stretches else []
        return lines

    # Clients

    def call_marks(self, client: Client) -> List[Mark]:
        """The marks of a client's reads, losses, synchronisations and answers Again. After a joystick's call
        stand the records that it was handed."""
        marks: List[Mark] = []
        for entry in client.part.sight:
            if isinstance(entry, Took):
                if entry.event.is_loss:
                    marks.append(self.mark(entry.place, "loss", "loss at ", ": SYN_DROPPED"))
            elif isinstance(entry, Again):
                marks.append(self.mark(entry.place, "again", "nothing left to read at ", back=0.5))
            elif isinstance(entry, Call) and not entry.reply.is_refused:
                kind, text = call_mark(client.role, entry)
                marks += [self.mark(entry.reply.place, kind, behind=f": {text}")] if text else []
            elif isinstance(entry, JoyRecord) and marks and isinstance(client.walk, JoyWalk):
                handed = with_record(marks[-1].text, client.walk, entry)
                marks[-1] = marks[-1]._replace(tell=partial(str, handed))
        return marks

    def handle_bars(self, client: Client) -> List[Bar]:
        """Bars for the spans in which a client is open, revoked, masked or holds the grab."""
        handles = self.played.handles
        spans: List[Tuple[int, Optional[int], str, str]] = []
        for opened, number in client.walk.clients:
            closed, revoked = handles.closes.get(number), handles.revokes.get(number)
            spans.append((opened, closed if revoked is None else revoked, "open", "open"))
            spans += [(revoked, closed, "revoked", "revoked")] if revoked is not None else []
            spans += [(mask.begin, mask.end, "mask", f"mask of {mask.kind}")
                      for mask in handles.spans_of_masks(number)]
            spans += [(grab.begin, grab.end, "grab", f"grab of {client.name}")
                      for grab in handles.grabs if grab.client == number]
        return [self.span_bar(*span) for span in spans]

    def divergence_rows(self, reader: Reader, before: str = "") -> Dict[Thing, Row]:
        """For each thing in which a reader's belief was not the device's state a row, but for those that are
        told as one. `before` stands before its name."""
        bars: Dict[Thing, List[Bar]] = {}
        for divergence in apart_of(reader):
            bar = self.divergence_bar(divergence, name_of(reader, divergence.thing))
            bars.setdefault(divergence.thing, []).append(bar)
        rows = {}
        for thing, found in bars.items():
            name = name_of(reader, thing)
            shown = name.split(" ABS_MT_")[-1] if before else name.replace("ABS_MT_", "MT_")
            shown = before + shown.replace(" (", ", ").rstrip(")")
            rows[thing] = Row(shown, "parted", bars=found, told=f"{reader.name}, {name}")
        return rows

    def divergence_bar(self, divergence: Divergence, name: str) -> Bar:
        since, met = divergence.since or 0, self.end if divergence.met_at is None else divergence.met_at
        span, kind = self.at.span(divergence.since, divergence.met_at), kind_of(divergence)
        values = f"{divergence.believed_text} for it, {divergence.present_text} on the device"
        text = f"{name} differs {span}: {values}: {divergence.cause.text}"
        is_held = divergence.met_by is None and kind == "stuck" and is_held_down(divergence.thing)
        return Bar(min(since, met), max(since, met), kind, text, is_held)

    def lasting_rows(self, reader: Reader) -> List[Row]:
        """A row for each cause that lasts and keeps several things from a reader, with one bar."""
        rows = []
        for kind, group in lasting_of(reader).items():
            names = sorted({name_of(reader, divergence.thing) for divergence in group})
            ends = [self.end if divergence.met_at is None else divergence.met_at for divergence in group]
            last, things = None if self.end in ends else max(ends), counted(len(names), "thing")
            text = f"{things} differ at times: {CAUSES[kind]}: {names_text(names)}:"
            ways = {kind_of(divergence) for divergence in group}
            bar = self.span_bar(first_of(group).since, last, ways.pop() if len(ways) == 1 else "parted", text)
            rows.append(Row(f"{things}: {kind}", "parted", bars=[bar], told=f"{reader.name}, {kind}"))
        return rows

    # Owners

    def owner_rows(self, owner: Owner) -> List[Row]:
        """A row for an owner's calls, one for what was sent to its device, and those of what it was not told
        of."""
        marks = []
        for place, events in owner.calls:
            told = ", ".join(each.event.text() for each in events)
            kind, text = ("read", f": told {told}") if events else ("again", ": nothing was there")
            marks.append(self.mark(place, kind, "asked at ", text, back=0.5))
        sent = Row("sent to the device", marks=self.sent_marks(owner), told=f"sent to {self.played.name}")
        return [Row(owner.name, "client", marks), sent, *self.divergence_rows(owner).values()]

    def sent_marks(self, owner: Owner) -> List[Mark]:
        """The events that were sent, each with what became of it."""
        became = {sent.place: ("event", f"told at {self.at.text(place)}")
                  for place, events in owner.calls for sent in events}
        lost = "lost, since it was not asked for in time"
        became.update({sent.place: ("loss", lost) for sent in owner.lost})
        became.update({sent.place: ("timer", "not asked for until the end") for sent in owner.waiting})
        told = [(sent.place, sent.event.text(), *became[sent.place]) for sent in self.state.sent]
        return [self.mark(place, kind, behind=f": {text}: {word}") for place, text, kind, word in told]


def order_of(thing: Thing) -> Tuple[bool, Tuple[bool, bool, int, str, str]]:
    """Keys, switches and LEDs come before axes, and axes before slots."""
    return thing.kind == "EV_ABS", thing.order


def during(points: "Ordered[Value]", begin: int, end: int) -> "Ordered[Value]":
    """The points of a stretch of places, the first of them at its begin."""
    before = [point._replace(place=begin) for point in points.before(begin + 1)]
    return Ordered(before + points.between(begin + 1, end))


def call_mark(role: str, call: Call) -> Tuple[str, str]:
    """The kind of a call's mark, and what it says: nothing where the call has none."""
    if call.reply.name == "took":
        return "read", f"read {counted(call.reply.number, 'event')}"
    is_told = call.step.is_question and role == "tap"
    return "ask", ASKS.get(call.step.name, call.step.text() if is_told else "")


def with_record(text: str, walk: JoyWalk, record: JoyRecord) -> str:
    """The text of a joystick's call and of one more record that it was handed."""
    word = "startup " if record.kind >= STARTUP else ""
    behind = ", " if HANDED in text else HANDED
    if len(text) >= LONGEST:
        return text if text.endswith("..") else f"{text}, .."
    return f"{text}{behind}{word}{walk.thing_of(record).code} {record.value}"
