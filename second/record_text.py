"""Which line of a record's text is refused, and for which cause.

It was written from docs/FORMATS.md ("The record") and, for the calls that describe a device, from docs/RULES.md. It
shares nothing with the program's parser, and with the rest of this second program the table of names alone.
"""

import re
from typing import Any, Callable, Collection, Dict, List, NoReturn, Optional, Sequence, Set, Tuple

from second.names import ABS, CODES, GREATEST, KEY, SYN, TYPES

MOMENT_MAX = 9000000000000000
U16, U32, U64 = 2**16 - 1, 2**32 - 1, 2**64 - 1
CLOCKS = ("realtime", "monotonic", "boottime")

MOST_DEVICES, MOST_STREAMS = 8, 16
# The most actors of a device: the clients, taps and joysticks together are its readers.
MOST = {"source": 8, "owner": 1, "reader": 128}

# The number of bytes of a record, by the command that names the file.
RECORD_SIZES = {"stream": 24, "stream16": 16}

SLOT, TRACKING_ID, LAST_OF_SLOT = 0x2F, 0x39, 0x3D


class Cause(Exception):
    """Why a line is refused."""


class Refused(Exception):
    """The first line that is refused, and why."""

    def __init__(self, line: int, cause: str) -> None:
        super().__init__(f"line {line}: {cause}")
        self.line, self.cause = line, cause


# Lines and words


def lines_of(data: bytes) -> List[bytes]:
    return [line[:-1] if line.endswith(b"\r") else line for line in data.split(b"\n")]


def words_of(line: bytes) -> List[str]:
    """The words of a line. A comment and a line of blanks have none."""
    line = line.strip(b" \t")
    if line.startswith(b"#"):
        return []
    if any(byte != 9 and not 0x20 <= byte <= 0x7E for byte in line):
        raise Cause("not-text")
    return line.decode("ascii").split()


def number(word: str, greatest: int) -> int:
    found = re.fullmatch("0x([0-9a-fA-F]+)|([0-9]+)", word)
    if not found:
        raise Cause("bad-word")
    digits, base = (found[1], 16) if found[1] else (found[2], 10)
    digits = digits.lstrip("0") or "0"
    # (no range goes beyond 20 digits, and Python reads no number of many thousand)
    if len(digits) > 20 or int(digits, base) > greatest:
        raise Cause("bad-word")
    return int(digits, base)


def signed(word: str) -> int:
    return -number(word[1:], 2**31) if word.startswith("-") else number(word, 2**31 - 1)


def one_of(word: str, words: Collection[str]) -> str:
    if word not in words:
        raise Cause("bad-word")
    return word


def no_word() -> NoReturn:
    raise Cause("bad-word")


def name(word: str) -> str:
    if not re.fullmatch("[a-z0-9_-]{1,32}", word):
        raise Cause("bad-word")
    return word


def kind(word: str) -> int:
    return TYPES[word] if word in TYPES else number(word, U16)


def code(word: str, of_kind: int) -> int:
    names = CODES.get(of_kind, {})
    return names[word] if word in names else number(word, U16)


# What each form of a word means. A CODE belongs to the TYPE before it, and is one of an axis where there is none.
FORMS: Dict[str, Callable[[str], Any]] = {
    "NAME": name,
    "FILE": str,
    "SIGNED": signed,
    "TYPE": kind,
    "U16": lambda word: number(word, U16),
    "U32": lambda word: number(word, U32),
    "U64": lambda word: number(word, U64),
    "COUNT": lambda word: number(word, 4096),
    "ROOM": lambda word: number(word, 4096) or no_word(),
    "MOMENT": lambda word: number(word, MOMENT_MAX),
    "CLOCK": lambda word: one_of(word, CLOCKS),
    "AHEAD": lambda word: one_of(word, ("realtime", "boottime")),
    "FILTER": lambda word: one_of(word, FILTERS),
    "KEY": lambda word: code(word, KEY),
    "MICROS": lambda word: number(word, 1000000) or no_word(),
}


def values_of(forms: str, words: Sequence[str]) -> List[Any]:
    """What words mean that have these forms."""
    values, of_kind = [], ABS
    for form, word in zip(forms.split(), words):
        value = code(word, of_kind) if form == "CODE" else FORMS[form](word)
        of_kind = value if form == "TYPE" else of_kind
        values.append(value)
    return values


# An axis: its code, value, minimum, maximum, fuzz, flat and resolution.
AXIS = "CODE SIGNED SIGNED SIGNED SIGNED SIGNED SIGNED"

# The words behind the first one of each line, but of `do`, which has the forms of its command.
DESCRIPTION = {**dict.fromkeys(("hint", "log", "slots"), "U32"), "clock": "AHEAD U64", "type": "TYPE",
               "cap": "TYPE CODE", "axis": AXIS}

# The words behind `filter`, by the first of them.
FILTERS: Dict[str, str] = {"eat": "FILTER TYPE CODE", "norepeat": "FILTER", "chord": "FILTER KEY KEY",
                           "bounce": "FILTER KEY MICROS"}
MOST_FILTERS = 8

DEVICES = {"device": "NAME", "udevice": "NAME"}
ACTORS = dict.fromkeys(("source", "client", "tap", "joy", "owner"), "NAME")
LINES = {"inputrecord": "FILE", **DEVICES, **DESCRIPTION, **ACTORS}

# The first words of lines that version 1 does not have.
LATER = ("filter", "joy", "udevice", "owner")

EVENT = "MOMENT TYPE CODE SIGNED"
READERS = {**dict.fromkeys(("open", "close", "grab", "ungrab", "revoke"), ""), "mask": "TYPE U16 U64",
           "clock": "CLOCK MOMENT", "write": EVENT, "setaxis": AXIS}
COMMANDS = {
    "source": {"event": EVENT, "tick": "MOMENT", "inhibit": "MOMENT", "uninhibit": "",
               **dict.fromkeys(RECORD_SIZES, "FILE")},
    "client": {**READERS, "next": "U32", "skip": "U32", "follow": "", "force": ""},
    "tap": {**READERS, **dict.fromkeys(("discard", "keys", "switches", "leds", "sounds", "syncslots"), ""),
            "read": "COUNT", "axis": "CODE", "slots": "CODE"},
    "joy": {"open": "", "close": "", "read": "U32"},
    "owner": {"feedback": "ROOM"},
}


def has_length(forms: str, words: Sequence[str]) -> bool:
    return len(words) == len(forms.split())


def is_line(version: str, first: str, rest: List[str]) -> bool:
    """Whether a line begins with this word and has so many words behind it. A line that names no filter may have any
    number of words from two on."""
    if version == "1" and first in LATER:
        return False
    if first == "do":
        return len(rest) >= 2
    if first == "filter":
        return bool(rest) and (rest[0] not in FILTERS or has_length(FILTERS[rest[0]], rest))
    return first in LINES and has_length(LINES[first], rest)


# The calls that describe a device

# The greatest number of slots that each version of a text has.
MOST_SLOTS = {"1": 64, "2": 256}


def cause_of_filter(count: int, form: str, *values: Any) -> Optional[str]:
    """Why the call for one more filter behind so many is refused, or None."""
    keys = {"eat": [], "norepeat": [], "chord": values, "bounce": values[:1]}[form]
    codes = [values] if form == "eat" else [(KEY, key) for key in keys]
    is_bad = form == "chord" and values[0] == values[1]
    for of_kind, of_code in codes:
        is_bad |= of_kind == SYN or of_code > GREATEST.get(of_kind, -1) or (of_kind, of_code) == (KEY, 0)
    if is_bad:
        return "bad-code"
    return "bad-filter" if count == MOST_FILTERS else None


def cause_of_call(version: str, first: str, values: List[Any]) -> Optional[str]:
    """Why the call for a line of a description is refused, or None."""
    bounds = {"hint": (2, 512), "log": (1, 8388608), "slots": (1, MOST_SLOTS[version])}
    if first in bounds:
        least, most = bounds[first]
        return None if least <= values[0] <= most else f"bad-{first}"
    if first == "clock":
        return None if values[1] <= MOMENT_MAX else "bad-offset"
    if first == "type":
        return None if values[0] in TYPES.values() else "bad-code"
    if first == "cap":
        of_kind, number_of_code = values
        is_code = of_kind not in (SYN, ABS) and number_of_code <= GREATEST.get(of_kind, -1)
        return None if is_code and values != [KEY, 0] else "bad-code"
    return cause_of_axis(*values)


def cause_of_axis(axis: int, value: int, _minimum: int, _maximum: int, fuzz: int, _flat: int,
                  _resolution: int) -> Optional[str]:
    if axis > GREATEST[ABS]:
        return "bad-code"
    is_bad = not 0 <= fuzz <= 2**30
    is_bad |= SLOT <= axis <= LAST_OF_SLOT and value != 0
    is_bad |= axis in (SLOT, TRACKING_ID) and fuzz != 0
    return "bad-axis" if is_bad else None


# The whole text


class Text:
    """The lines of a text so far, each of them accepted."""

    def __init__(self) -> None:
        self.version, self.has_action = "", False
        self.devices: Set[str] = set()
        self.actors: Dict[str, str] = {}
        # Of the latest device: what was given that may be given once, its actors' roles, and whether it is made by
        # requests.
        self.given: Set[Any] = set()
        self.roles: List[str] = []
        self.filters, self.is_requested = 0, False
        self.streams: List[Tuple[int, str, int]] = []

    def take(self, line: int, words: List[str]) -> None:
        """Takes a line's words, or raises the cause."""
        first, *rest = words
        if not self.version:
            if len(words) != 2 or first != "inputrecord" or rest[0] not in MOST_SLOTS:
                raise Cause("bad-header")
            self.version = rest[0]
            return
        if not is_line(self.version, first, rest):
            raise Cause("bad-line")
        if self.is_out_of_place(first):
            raise Cause("out-of-place")
        if first == "do":
            self.take_action(line, *rest)
        elif first in DEVICES:
            self.take_device(first, *values_of("NAME", rest))
        elif first in ACTORS:
            self.take_actor(first, *values_of("NAME", rest))
        elif first == "filter":
            self.take_filter(values_of(FILTERS.get(rest[0], "FILTER"), rest))
        else:
            self.take_description(first, values_of(DESCRIPTION[first], rest))

    def is_out_of_place(self, first: str) -> bool:
        if first == "do":
            return False
        if first == "inputrecord" or self.has_action:
            return True
        if first in DEVICES:
            return False
        if first == "owner" and not self.is_requested:
            return True
        return not self.devices or (first not in ACTORS and bool(self.roles))

    def take_device(self, first: str, device: str) -> None:
        if device in self.devices:
            raise Cause("twice")
        if len(self.devices) == MOST_DEVICES:
            raise Cause("too-many")
        self.devices.add(device)
        self.given, self.roles, self.filters, self.is_requested = set(), [], 0, first == "udevice"

    def take_description(self, first: str, values: List[Any]) -> None:
        what = (first, values[0]) if first in ("clock", "axis") else first
        if what in self.given:
            raise Cause("twice")
        cause = cause_of_call(self.version, first, values)
        if cause:
            raise Cause(cause)
        if first not in ("type", "cap"):
            self.given.add(what)

    def take_filter(self, values: List[Any]) -> None:
        cause = cause_of_filter(self.filters, *values)
        if cause:
            raise Cause(cause)
        self.filters += 1

    def take_actor(self, role: str, actor: str) -> None:
        if actor in self.actors:
            raise Cause("twice")
        kind = role if role in MOST else "reader"
        kinds = [other if other in MOST else "reader" for other in self.roles]
        if kinds.count(kind) == MOST[kind]:
            raise Cause("too-many")
        self.actors[actor] = role
        self.roles.append(role)

    def take_action(self, line: int, actor: str, command: str, *words: str) -> None:
        if actor not in self.actors:
            raise Cause("no-actor")
        forms = COMMANDS[self.actors[actor]].get(command)
        is_later = command == "stream16" and self.version == "1"
        if forms is None or not has_length(forms, words) or is_later:
            raise Cause("bad-command")
        values_of(forms, words)
        if command in RECORD_SIZES:
            if len(self.streams) == MOST_STREAMS:
                raise Cause("too-many")
            self.streams.append((line, words[0], RECORD_SIZES[command]))
        self.has_action = True


def streams_of_text(data: bytes) -> List[Tuple[int, str, int]]:
    """The `stream` and `stream16` lines of a text, each as its number, its file and the number of bytes of a record in it,
    or `Refused` is raised."""
    text, lines = Text(), lines_of(data)
    for line, bytes_of_line in enumerate(lines, start=1):
        try:
            words = words_of(bytes_of_line)
            if words:
                text.take(line, words)
        except Cause as cause:
            raise Refused(line, str(cause)) from None
    if not text.version:
        raise Refused(len(lines), "bad-header")
    return text.streams


def is_stream(data: bytes, size: int) -> bool:
    """Whether bytes are whole records of so many bytes, each at a time that is one."""
    if len(data) % size:
        return False
    # Behind the seconds and the microseconds stand 8 bytes.
    width = (size - 8) // 2
    for at in range(0, len(data), size):
        seconds, micros = (int.from_bytes(data[i : i + width], "little") for i in (at, at + width))
        if micros >= 1000000 or seconds * 1000000 + micros > MOMENT_MAX:
            return False
    return True
