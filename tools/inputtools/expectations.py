"""Reads what a record expects of its play: comments whose first characters are `#=`.

    #= desktop at-end keys KEY_A     the line `keys` of its view at the end has these keys and no others
    #= desktop at-end axes ABS_X=5   of axes and slots the values that are named
    #= desktop never SYN_DROPPED     it was never handed such an event; likewise KEY_A, KEY_A 1, EV_REL
    #= desktop takes KEY_A 0         it was handed such an event
    #= slow drops 3                  it lost events so many times: that is how often it took SYN_DROPPED
    #= desktop agrees                its view at the end is the device's state
    #= report FILE                   the report is that of the file, without a history where the file has none
    #= status 6                      the program ends so; it must end with 0 where a record does not say

They are comments, so a record with them is played as one without.
"""

import re
from typing import Dict, Iterable, List, Optional, Set, Tuple

from inputtools.command import Wrong, counted
from inputtools.names import (
    ABS, CODES, KEY, LED, REP, SW, SYN, TYPES, code_text, kind_text, nearest, number_of_code, number_of_kind,
)
from inputtools.devicestate import OUTPUT_KINDS, OUTPUT_SYN
from inputtools.joysticks import things_of
from inputtools.record import Device, roles_of
from inputtools.report import Event

MARK = "#="
OF_RECORD = ("report", "status")
FLAG_KINDS = {"keys": KEY, "switches": SW, "leds": LED}

# What can be expected of an actor, by its role.
OF_READER = ("at-end", "never", "takes", "drops", "agrees")
KINDS = {"client": OF_READER, "tap": OF_READER, "joy": ("at-end", "agrees"), "owner": ("never", "takes"),
         "source": ()}
LINES = {"client": ("keys", "switches", "leds", "axes", "current", "slot"), "joy": ("buttons", "axes")}
LINES["tap"] = LINES["client"]

AT_END = "at-end"
SIGNED = re.compile(r"-?[0-9]{1,10}$")
NUMBER = re.compile(r"[0-9]{1,7}$")
ROLE_TEXT = {"client": "a client", "tap": "a tap", "joy": "a joystick", "owner": "an owner",
             "source": "a source"}


class Expectation:
    """A line of a record that expects something: its number, its words, the actor that it is of (or None),
    what it expects (`kind`), and the words after that.

    Of a line of the view `line` has the words that it begins with, and `wanted` those that are to stand
    behind. Of an event `event` has its type and its code, or None for each, and `value` its value, or None
    for each.
    """

    event: Tuple[str, Optional[str]]
    value: Optional[int]
    line: List[str]
    wanted: List[str]

    def __init__(self, number: Optional[int], words: List[str], actors: Dict[str, str]) -> None:
        self.number, self.text = number, " ".join(words)
        self.actor: Optional[str] = None
        if words[0] in OF_RECORD:
            self.kind, self.words = words[0], words[1:]
            self.check_of_record()
            return
        if words[0] not in actors:
            raise Wrong(f"no actor is named {words[0]}{named(actors)}")
        if len(words) < 2:
            raise Wrong(f"nothing stands behind {words[0]}: one of {', '.join(KINDS[actors[words[0]]])}")
        self.actor, self.kind, self.words = words[0], words[1], words[2:]
        self.role = actors[words[0]]
        self.check_of_actor()

    @property
    def name(self) -> str:
        """The actor's name, of what is expected of one."""
        return self.actor or ""

    def speaks_of(self, event: Event) -> bool:
        """Is this one of the events that are expected, or never to come?"""
        kind, code = self.event
        return event.kind == kind and code in (None, event.code) and self.value in (None, event.value)

    def check_of_record(self) -> None:
        if len(self.words) != 1:
            raise Wrong(f"{self.kind} wants one word behind it")
        if self.kind == "status" and self.words[0] not in "01234567":
            raise Wrong(f"{self.words[0]} is no status of the program: those are 0 to 7")

    def check_of_actor(self) -> None:
        kinds = KINDS[self.role]
        if self.kind not in kinds:
            of_it = f"of {ROLE_TEXT[self.role]} one expects {' or '.join(kinds)}" if kinds else (
                "nothing is expected of a source: expect it of a client")
            raise Wrong(f"{self.kind} is not known here: {of_it}")
        {AT_END: self.check_line, "never": self.check_event, "takes": self.check_event,
         "drops": self.check_drops, "agrees": self.check_agrees}[self.kind]()

    def check_agrees(self) -> None:
        if self.words:
            raise Wrong("nothing stands behind agrees")

    def check_drops(self) -> None:
        if len(self.words) != 1 or not NUMBER.match(self.words[0]):
            raise Wrong("drops wants a number behind it")

    def check_event(self) -> None:
        if len(self.words) not in (1, 2) or not all(map(SIGNED.match, self.words[1:])):
            raise Wrong(f"{self.kind} wants a code (KEY_A, EV_KEY/656) or a type (EV_KEY), and maybe a value")
        self.event = kind_and_code(self.words[0])
        self.value = int(self.words[1]) if self.words[1:] else None

    def check_line(self) -> None:
        """The line of the view that is named, and what stands after it."""
        lines = LINES[self.role]
        if not self.words or self.words[0] not in lines:
            raise Wrong(f"{AT_END} wants a line of the view at the end: {', '.join(lines)}")
        self.line, self.wanted = self.words[:1], self.words[1:]
        if self.line[0] == "slot":
            if not self.wanted or not NUMBER.match(self.wanted[0]):
                raise Wrong("slot wants its number behind it")
            self.line, self.wanted = ["slot", str(int(self.wanted[0]))], self.wanted[1:]
        if self.line[0] in FLAG_KINDS:
            kind = FLAG_KINDS[self.line[0]]
            self.wanted = [written_code(kind, word) for word in self.wanted]
        elif self.role == "joy" or self.line[0] == "current":
            self.check_numbers()
        else:
            self.wanted = [written_pair(word) for word in self.wanted]
            if not self.wanted:
                raise Wrong(f"{self.line[0]} wants a value behind it, as ABS_X=5")

    def check_numbers(self) -> None:
        wrong = next((word for word in self.wanted if not SIGNED.match(word)), None)
        if wrong is not None:
            raise Wrong(f"{wrong} is no number")
        if self.line[0] == "current" and len(self.wanted) != 1:
            raise Wrong("current wants one number behind it")
        self.wanted = [str(int(word)) for word in self.wanted]


# What cannot be met or missed


def codes_of(device: Device, number: int) -> List[str]:
    """The codes of a type that a device has, in their order."""
    described = device.described
    codes = set(described.axes) if number == ABS else described.codes.get(number, set())
    return [code_text(number, code) for code in sorted(codes)]


def sent_codes(device: Device, kind: str, role: str) -> Set[str]:
    """The codes of a type that a device may send to an actor of a role."""
    if role == "owner" and kind not in OUTPUT_KINDS:
        return {OUTPUT_SYN} if kind == "EV_SYN" else set()
    number = TYPES.get(kind, -1)
    is_whole = number == SYN or (number == REP and REP in device.described.codes)
    return set(CODES[number] if is_whole else codes_of(device, number))


def why_not_sent(device: Device, expectation: Expectation) -> Optional[str]:
    """Why no actor of the role is ever handed the event of an expectation by this device, or None."""
    kind, code = expectation.event
    codes = sent_codes(device, kind, expectation.role)
    if code in codes or (code is None and codes):
        return None
    others = codes or {each for name in TYPES if name != "EV_SYN"
                       for each in sent_codes(device, name, expectation.role)}
    who = "no owner is told" if expectation.role == "owner" else f"the device {device.name} cannot send"
    return f"{who} {code or kind}{nearest(code or kind, sorted(others), 0.0)}"


def why_not_seen(device: Device, expectation: Expectation) -> Optional[str]:
    """Why the view of an actor at its end never has what is wanted, or always has it, or None."""
    if expectation.kind != AT_END:
        return None
    if expectation.role == "joy":
        return why_no_joystick(device, expectation)
    if expectation.line[0] == "current":
        is_one = int(expectation.wanted[0]) in range(device.slots)
        return None if is_one else f"it has {counted(device.slots, 'slot')}, from 0 on"
    kind = FLAG_KINDS.get(expectation.line[0], ABS)
    has = codes_of(device, kind)
    wanted = (word.split("=")[0] for word in expectation.wanted)
    other = next((code for code in wanted if code not in has), None)
    if other is None or not has:
        return None
    return f"the device {device.name} has no {other}{nearest(other, has, 0.0)}"


def why_no_joystick(device: Device, expectation: Expectation) -> Optional[str]:
    """The same of a joystick, whose buttons and axes have numbers."""
    buttons, axes = map(len, things_of(device))
    if expectation.line[0] == "axes":
        what = "1 axis" if axes == 1 else f"{axes} axes"
        return None if len(expectation.wanted) == axes else f"the joystick has {what}"
    is_one = buttons > 0 and all(int(number) in range(buttons) for number in expectation.wanted)
    return None if is_one else f"the joystick has {counted(buttons, 'button')}, from 0 on"


def ends_well() -> Expectation:
    """What is expected of a record that tells no status."""
    return Expectation(None, ["status", "0"], {})


def named(actors: Iterable[str]) -> str:
    names = ", ".join(sorted(actors))
    return f"; there are {names}" if names else "; the record has none"


def written_code(kind: int, word: str) -> str:
    """A code as a report writes it."""
    number = number_of_code(kind, word)
    if number is None:
        raise Wrong(f"{word} is no code of {kind_text(kind)}{nearest(word, CODES[kind])}")
    return code_text(kind, number)


def written_pair(word: str) -> str:
    name, _, value = word.partition("=")
    if not SIGNED.match(value):
        raise Wrong(f"{word} is no axis with a value, as ABS_X=5")
    return f"{written_code(TYPES['EV_ABS'], name)}={int(value)}"


def kind_and_code(word: str) -> Tuple[str, Optional[str]]:
    """The type and the code that a word names, as a report writes them; the code is None for all of a
    type."""
    first, slash, second = word.partition("/")
    kind = number_of_kind(first)
    if kind is None and not slash:
        kind = next((kind for kind, names in CODES.items() if first in names), None)
        second = first if kind is not None else ""
    code = number_of_code(kind, second) if kind is not None and second else None
    if kind is not None and kind not in TYPES.values() and not slash:
        raise Wrong(f"{word} is no type: a code is written with its own, as EV_KEY/{word}{named_key(kind)}")
    if kind is None or (code is None and (slash or second)):
        names = [*TYPES, *(name for names in CODES.values() for name in names)]
        other = nearest(word, names)
        raise Wrong(f"{word} is no code (KEY_A), no type (EV_KEY) and no TYPE/CODE (EV_KEY/656){other}")
    return kind_text(kind), None if code is None else code_text(kind, code)


def named_key(code: int) -> str:
    """The name of a key, where it has one."""
    name = code_text(KEY, code)
    return "" if name == str(code) else f", which is {name}"


def words_of(line: str) -> Optional[List[str]]:
    """The words of an expectation, or None for another line. A rule of `=` is none."""
    line = line.strip()
    if not line.startswith(MARK) or (len(line) > 2 and not line.strip("#=")):
        return None
    return line[len(MARK) :].split()


def expectations_of(text: str) -> List[Expectation]:
    """The expectations of a record's text, in order."""
    actors = roles_of(text)
    found: List[Expectation] = []
    for number, line in enumerate(text.split("\n"), 1):
        words = words_of(line)
        if words is None:
            continue
        try:
            if not words:
                raise Wrong("nothing stands behind #=")
            found.append(Expectation(number, words, actors))
        except Wrong as wrong:
            raise Wrong(f"line {number}: {wrong}") from None
    statuses = [each.number for each in found if each.kind == "status"]
    if len(statuses) > 1:
        raise Wrong(f"line {statuses[1]}: line {statuses[0]} tells the status already")
    if not found:
        raise Wrong("it expects nothing: it has no line that begins with #=")
    return found
