"""Reads a report: its devices with their histories, and the part of each actor.

The forms of its lines are in docs/FORMATS.md, "The report". `entry_of` reads one line, and `Report` a whole
one. Each line is an entry with its number, from 1, and its text, so that it can be named and compared.
"""

import re
from dataclasses import dataclass
from functools import lru_cache
from typing import Callable, Dict, List, NamedTuple, Optional, Tuple, Type, TypeVar, Union

from inputtools.command import Wrong, at_line
from inputtools.progress import progress

# How many lines are read between two words of how far it is.
TOLD_EVERY = 65536

FIRST_LINE = re.compile(r"device \S+ steps \d+$")
VIEW_WORDS = ("keys", "switches", "leds", "buttons", "axes", "current", "slot")
# The actors whose parts stand after all devices.
BEHIND = ("joy", "owner")
PARTS = ("client", "tap", *BEHIND)

# Where the moment stands in the words of a step.
MOMENT_AT = {"inject": 1, "tick": 1, "inhibit": 1, "write": 2, "clock": 3}

# Makes a named tuple of its fields. (The way by its name takes twice as long, which is felt where there is one a line.)
make = tuple.__new__


class Event(NamedTuple):
    """An event: its type and code as they are written, and its value."""

    kind: str
    code: str
    value: int

    def text(self) -> str:
        return f"{self.kind} {self.code} {self.value}"

    @property
    def is_report(self) -> bool:
        return self.code == "SYN_REPORT"

    @property
    def is_loss(self) -> bool:
        return self.code == "SYN_DROPPED"


@lru_cache(maxsize=None)
def event_of(text: str) -> Event:
    kind, code, value = text.split(" ")
    return Event(kind, code, int(value))


class Step(NamedTuple):
    """A step of a history, or that of a call: its name, and the words behind it as one text."""

    name: str
    rest: str

    @property
    def words(self) -> Tuple[str, ...]:
        return (self.name, *self.rest.split(" ")) if self.rest else (self.name,)

    @property
    def client(self) -> int:
        """The number of the client that it is of."""
        return int(self.rest.split(" ", 1)[0])

    @property
    def code(self) -> str:
        """The axis of getaxis, getslots and setaxis; the type of a mask; the clock of clock."""
        return self.rest.split(" ", 2)[1]

    @property
    def event(self) -> Optional[Event]:
        """What is injected or written, or None."""
        at = {"inject": 1, "write": 2}.get(self.name)
        return None if at is None else event_of(self.rest.split(" ", at)[at])

    @property
    def moment(self) -> Optional[int]:
        at = MOMENT_AT.get(self.name)
        return None if at is None else int(self.rest.split(" ", at)[at - 1])

    @property
    def is_question(self) -> bool:
        """Does it ask for a part of the state?"""
        return self.name.startswith(("get", "sync"))

    def without_moment(self) -> Tuple[str, ...]:
        words, at = self.words, MOMENT_AT.get(self.name)
        return words if at is None else words[:at] + words[at + 1 :]

    def text(self) -> str:
        return f"{self.name} {self.rest}" if self.rest else self.name


def step_of(text: str) -> Step:
    """The step of a text."""
    name, _, rest = text.partition(" ")
    return make(Step, (name, rest))


class Reply(NamedTuple):
    """The reply of a call: its name, its place, and the words behind that: codes in an answer of bits."""

    name: str
    place: int
    rest: Tuple[str, ...]

    @property
    def words(self) -> Tuple[str, ...]:
        return (self.name, str(self.place), *self.rest)

    @property
    def is_refused(self) -> bool:
        return self.name == "refused"

    @property
    def number(self) -> int:
        """The client that was opened; how many events were taken; the value of an axis."""
        return int(self.rest[0])

    @property
    def slot(self) -> int:
        """The current slot, by an answer that tells cells."""
        return int(self.rest[1])


# Lines


@dataclass(frozen=True)
class Line:
    """A line: its number and its text."""

    number: int
    text: str

    def place_told(self) -> Optional[int]:
        """The place that it tells, or None."""
        return None

    def time_told(self) -> Optional[int]:
        """The time that it tells of an event, a joystick's record or a step, or None."""
        return None


@dataclass(frozen=True)
class DeviceLine(Line):
    name: str
    steps: int


@dataclass(frozen=True)
class StepLine(Line):
    place: int
    step: Step


@dataclass(frozen=True)
class ActorLine(Line):
    role: str
    name: str


@dataclass(frozen=True)
class ViewLine(Line):
    """A line of what an actor knows at its end."""

    words: Tuple[str, ...]

    @property
    def name(self) -> str:
        return self.words[0]


@dataclass(frozen=True)
class Stop(Line):
    """How an actor ended: the reason, with the place where it has one."""

    reason: str

    def place_told(self) -> Optional[int]:
        last = self.reason.rsplit(" ", 1)[-1]
        return int(last) if last.isdigit() else None

    @property
    def is_full(self) -> bool:
        return self.reason.startswith("full")


@dataclass(frozen=True)
class SourceLine(Stop):
    """The one line of a source: how many calls it made, and how it ended."""

    name: str
    calls: int


@dataclass(frozen=True)
class Call(Line):
    step: Step
    reply: Reply

    def place_told(self) -> Optional[int]:
        return self.reply.place

    def time_told(self) -> Optional[int]:
        return self.step.moment


class Took(NamedTuple):
    """An event that was taken. (No entry is as frequent, and none is made faster.)"""

    number: int
    text: str
    place: int
    time: int
    event: Event

    def place_told(self) -> Optional[int]:
        return self.place

    def time_told(self) -> Optional[int]:
        return self.time


@dataclass(frozen=True)
class Made(Line):
    """An event that a reader made itself when it synchronised."""

    event: Event


@dataclass(frozen=True)
class Again(Line):
    place: int

    def place_told(self) -> Optional[int]:
        return self.place


@dataclass(frozen=True)
class JoyRecord(Line):
    """A record that a joystick handed out: its kind is that of a button or an axis, and of a startup."""

    time: int
    value: int
    kind: int
    index: int

    def time_told(self) -> Optional[int]:
        return self.time


@dataclass(frozen=True)
class Feedback(Line):
    """A call of an owner, and how many events it took."""

    place: int
    count: int

    def place_told(self) -> Optional[int]:
        return self.place


@dataclass(frozen=True)
class Fed(Line):
    """An event that an owner was told."""

    event: Event


Entry = Union[Line, Took]


def _call(number: int, text: str, rest: str) -> Entry:
    step, reply = rest.split(" reply ")
    name, place, *more = reply.split(" ")
    return Call(number, text, step_of(step), Reply(name, int(place), tuple(more)))


def _source(number: int, text: str, rest: str) -> Entry:
    name, _, calls, _, reason = rest.split(" ", 4)
    return SourceLine(number, text, reason, name, int(calls))


def _device(number: int, text: str, rest: str) -> Entry:
    if not FIRST_LINE.match(text):
        raise ValueError
    name, _, steps = rest.split(" ")
    return DeviceLine(number, text, name, int(steps))


def _step(number: int, text: str, rest: str) -> Entry:
    place, step = rest.split(" ", 1)
    return StepLine(number, text, int(place), step_of(step))


def _took(number: int, text: str, rest: str) -> Took:
    place, time, event = rest.split(" ", 2)
    return make(Took, (number, text, int(place), int(time), event_of(event)))


# How a line is read, by its first word: from its number, its text, and what stands behind that word.
FORMS: Dict[str, Callable[[int, str, str], Entry]] = {
    "device": _device,
    "step": _step,
    "source": _source,
    "call": _call,
    "took": _took,
    "made": lambda number, text, rest: Made(number, text, event_of(rest)),
    "again": lambda number, text, rest: Again(number, text, int(rest)),
    "js": lambda number, text, rest: JoyRecord(number, text, *map(int, rest.split(" "))),
    "feedback": lambda number, text, rest: Feedback(number, text, *map(int, rest.split(" "))),
    "fed": lambda number, text, rest: Fed(number, text, event_of(rest)),
    "stop": lambda number, text, rest: Stop(number, text, rest),
    **dict.fromkeys(PARTS, lambda number, text, rest: ActorLine(number, text, *text.split(" "))),
    **dict.fromkeys(VIEW_WORDS, lambda number, text, rest: ViewLine(number, text, tuple(text.split(" ")))),
}


def entry_of(number: int, text: str) -> Entry:
    """A line of a report. Another line is a ValueError."""
    word, _, rest = text.partition(" ")
    try:
        return FORMS[word](number, text, rest)
    except (KeyError, TypeError):
        raise ValueError(text) from None


# A whole report

# What an actor saw.
SIGHT = (Took, Call, Again, Made, JoyRecord, Feedback, Fed)

Kind = TypeVar("Kind")


class Part:
    """What a report has of an actor: `sight` has what it saw, `view` what it knows at its end, and `end` how
    it ended. Joysticks and owners have no device, since their parts stand after all devices."""

    def __init__(self, role: str, name: str, device: "Optional[Device]", first: Entry) -> None:
        self.role, self.name, self.device, self.first = role, name, device, first
        self.sight: List[Entry] = []
        self.view: List[ViewLine] = []
        self.end: Stop = first if isinstance(first, Stop) else Stop(0, "", "")

    def all_of(self, kind: Type[Kind]) -> List[Kind]:
        """The entries of one kind that it saw."""
        return [entry for entry in self.sight if isinstance(entry, kind)]


class Device:
    """A device of a report: its first line, the steps of its history where it has one, and its actors.

    A report does not say whose the joysticks and owners are that stand after all devices: who knows the
    record puts them to the devices.
    """

    def __init__(self, line: DeviceLine) -> None:
        self.line, self.name, self.steps = line, line.name, line.steps
        self.history: List[Step] = []
        self.parts: List[Part] = []
        self.joysticks: List[Part] = []
        self.owners: List[Part] = []

    def step_line(self, place: int) -> Optional[Entry]:
        """The line of a step of its history, or None behind the last one."""
        if place >= len(self.history):
            return None
        return Line(self.line.number + 1 + place, f"step {place} {self.history[place].text()}")

    def all_parts(self) -> List[Part]:
        return [*self.parts, *self.joysticks, *self.owners]

    def readers(self) -> List[Part]:
        """Its clients and taps."""
        return [part for part in self.parts if part.role != "source"]


class Report:
    """A report: its devices, and the parts of all actors by name."""

    def __init__(self, text: str) -> None:
        self.devices: List[Device] = []
        self.parts: Dict[str, Part] = {}
        self.part: Optional[Part] = None
        lines = text.split("\n")
        if lines[-1]:
            raise at_line(len(lines) - 1, "the report was cut off: its last line does not end")
        for number, line in enumerate(lines[:-1], 1):
            if number % TOLD_EVERY == 1:
                progress.tell("the report is read, line", number - 1, len(lines) - 1)
            word, _, rest = line.partition(" ")
            try:
                # (most lines of a long report are of the first two kinds)
                if word == "step":
                    self.devices[-1].history.append(step_of(rest.split(" ", 1)[1]))
                elif word == "took" and self.part:
                    self.part.sight.append(_took(number, line, rest))
                else:
                    self.take(FORMS[word](number, line, rest))
            except (ValueError, LookupError, TypeError):
                raise at_line(number - 1, f"no line of a report: {line[:60]!r}") from None
        cut_off = next((part for part in self.parts.values() if not part.end.text), None)
        if cut_off:
            raise Wrong(f"the report was cut off: the part of {cut_off.name} has no end")

    @property
    def cut(self) -> Optional[Part]:
        """The first actor that stopped since a history was full, or None."""
        return next((part for part in self.parts.values() if part.end.is_full), None)

    def take(self, entry: Entry) -> None:
        if isinstance(entry, SIGHT) and self.part:
            self.part.sight.append(entry)
        elif isinstance(entry, DeviceLine):
            self.devices.append(Device(entry))
            self.part = None
        elif isinstance(entry, SourceLine):
            self.begin("source", entry.name, entry)
            self.part = None
        elif isinstance(entry, ActorLine):
            self.part = self.begin(entry.role, entry.name, entry)
        elif self.part is None:
            raise ValueError
        elif isinstance(entry, Stop):
            self.part.end = entry
            self.part = None
        elif isinstance(entry, ViewLine):
            self.part.view.append(entry)
        else:
            raise ValueError

    def begin(self, role: str, name: str, first: Entry) -> Part:
        if name in self.parts:
            raise ValueError
        part = Part(role, name, None if role in BEHIND else self.devices[-1], first)
        self.parts[name] = part
        if part.device:
            part.device.parts.append(part)
        return part


CUT_HELP = "a greater `log` of its device lets it go on"


def cut_text(part: Part) -> str:
    """What is said of an actor that stopped since a history was full."""
    return f"{part.name} stopped, since the history was full at place {part.end.place_told()}"


def is_report(text: str) -> bool:
    """Does a text begin as a report does?"""
    return bool(FIRST_LINE.match(text.split("\n", 1)[0]))


def without_history(text: str) -> str:
    """A report without the steps of the histories."""
    return "".join(line for line in text.splitlines(keepends=True) if not line.startswith("step "))
