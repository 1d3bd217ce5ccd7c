"""The readers of a record, as the words after `--reader` tell them, and the lines that each of them has."""

import re
from typing import Dict, Iterable, List, NamedTuple, Optional, Set, Tuple

from inputtools.command import Wrong, number
from inputtools.description import is_name
from inputtools.names import CODES, GREATEST, REP, kind_text, number_of_code, number_of_kind

DRIVER = "driver"
GREATEST_READERS = 64
GREATEST_READ = 100000
FORM = "NAME[:joy][:every=N][:slow][:open=S][:grab[=S[-S]]][:revoke=S][:mask=TYPE,CODE,..]"
LATEST_SECOND = 9000000000

# In which order of one moment readers do what they do at times.
RANKS = ("ungrab", "revoke", "open", "grab")


Wants = Dict[int, Optional[Set[int]]]


class Act(NamedTuple):
    """What a reader does at a time, or at the start (None), and by which commands."""

    time: Optional[int]
    words: List[str]
    reader: "Reader"

    @property
    def order(self) -> Tuple[int, int]:
        """By its time, and in the order of one moment."""
        return self.time or 0, RANKS.index(self.words[0])


class Reader:
    """A client that opens at the start, or at a time, and follows after each frame, each N-th, or at the end
    alone. Times are in microseconds from the capture's first event on.

    `grab` is the span of its grab, from the start (None) and with no end (None); `joy` says that it reads as
    a joystick.
    """

    def __init__(self, text: str) -> None:
        self.name, *options = text.split(":")
        self.every: Optional[int] = 1
        self.grab: Optional[Tuple[Optional[int], Optional[int]]] = None
        self.wants: Optional[Wants] = None
        self.opens: Optional[int] = None
        self.revoked: Optional[int] = None
        self.is_joy = False
        self.unread, self.is_open = 0, False
        if not is_name(self.name):
            raise Wrong(f'the reader "{self.name}" is not named by 1 to 32 of a to z, 0 to 9, _ and -')
        if re.fullmatch(f"{DRIVER}(-[0-9]+)?", self.name):
            raise Wrong(f"the name {self.name} is that of a device's source")
        for option in options:
            self.take(option)
        self.check(options)

    def take(self, option: str) -> None:
        word, _, value = option.partition("=")
        if option == "slow":
            self.every = None
        elif option == "joy":
            self.is_joy = True
        elif option == "grab":
            self.grab = (None, None)
        elif word == "grab" and value:
            self.grab = span_of(value)
        elif word == "open" and value:
            self.opens = micros_of(value)
        elif word == "revoke" and value:
            self.revoked = micros_of(value)
        elif word == "every" and re.fullmatch("[0-9]+", value):
            self.every = number(value, 1, 10**9, f"the number of frames of {self.name}")
        elif word == "mask" and value:
            self.wants = wanted_codes(value)
        else:
            raise Wrong(f'the reader\'s option "{option}" is none of {FORM}')

    def check(self, options: List[str]) -> None:
        """A joystick has no mask, no grab and no revocation; and what is done is done in order."""
        others = [option for option in options if option.partition("=")[0] in ("grab", "mask", "revoke")]
        if self.is_joy and others:
            raise Wrong(f"{self.name} is a joystick, which has no {others[0].partition('=')[0]}")
        begun = self.opens or 0
        grabbed = self.grab[0] if self.grab else None
        if grabbed is not None and grabbed < begun:
            raise Wrong(f"{self.name} grabs before it opens")
        if self.revoked is not None and self.revoked < max(begun, grabbed or 0):
            raise Wrong(f"{self.name} is revoked before it opens, or grabs")

    def role(self) -> str:
        return "joy" if self.is_joy else "client"

    def acts(self) -> List[Act]:
        """What the reader does at times, or at the start, in order."""
        mask = mask_words(self.wants) if self.wants is not None else []
        found: List[Tuple[Optional[int], List[str]]] = [(self.opens, ["open"] + mask)]
        if self.grab:
            begin, end = self.grab
            found += [(self.opens if begin is None else begin, ["grab"])]
            found += [(end, ["ungrab"])] if end is not None else []
        found += [(self.revoked, ["revoke"])] if self.revoked is not None else []
        return [Act(time, words, self) for time, words in found]

    def does_at_times(self) -> bool:
        """Does it do anything later than at the start?"""
        return any(act.time is not None for act in self.acts())

    def lines_of(self, words: List[str]) -> List[str]:
        """The lines of one act. What waits is read before an end, and a joystick's startup after its open."""
        lines = self.lines_at_the_end() if words[0] == "revoke" else []
        self.is_open = words[0] != "revoke"
        lines += [f"do {self.name} {word}" for word in words]
        return lines + ([f"do {self.name} read {GREATEST_READ}"] if self.is_joy and self.every else [])

    def lines_behind_a_frame(self) -> List[str]:
        if not self.is_open:
            return []
        self.unread += 1
        return self.lines_at_the_end() if self.every and self.unread >= self.every else []

    def lines_at_the_end(self) -> List[str]:
        if not self.unread:
            return []
        self.unread = 0
        return [f"do {self.name} {f'read {GREATEST_READ}' if self.is_joy else 'follow'}"]


class Acts:
    """What readers do at times, in order: each is done before the first frame of its time or later."""

    def __init__(self, readers: Iterable[Reader]) -> None:
        acts = [act for reader in readers for act in reader.acts()]
        # (what is done at the start stands in the order of the readers)
        self.at_start = [act for act in acts if act.time is None]
        self.later = sorted((act for act in acts if act.time is not None), key=lambda act: act.order)

    def opening_lines(self) -> List[str]:
        """(no reader has done anything yet)"""
        for act in self.at_start + self.later:
            act.reader.unread, act.reader.is_open = 0, False
        return [line for act in self.at_start for line in act.reader.lines_of(act.words)]

    def lines_before(self, time: Optional[int] = None) -> List[str]:
        """The lines of what is due at a time, or of all that is left."""
        lines: List[str] = []
        while self.later and (time is None or (self.later[0].time or 0) <= time):
            act = self.later.pop(0)
            lines += act.reader.lines_of(act.words)
        return lines


def micros_of(text: str) -> int:
    """A time in seconds, with six digits after the point at most, as microseconds."""
    match = re.fullmatch(r"([0-9]{1,10})(?:\.([0-9]{1,6}))?", text)
    if not match or int(match[1]) > LATEST_SECOND:
        raise Wrong(f'"{text}" is no time in seconds: 9, or 1.5')
    return int(match[1]) * 1000000 + int((match[2] or "").ljust(6, "0"))


def span_of(text: str) -> Tuple[int, Optional[int]]:
    """From which time, and to which or None: 1.5-3.2, or 1.5."""
    first, dash, last = text.partition("-")
    begin, end = micros_of(first), micros_of(last) if dash else None
    if end is not None and end <= begin:
        raise Wrong(f'the grab "{text}" does not end behind its begin')
    return begin, end


def wanted_codes(text: str) -> Wants:
    """The types that a mask lets through, each with its codes, or with None for all of them."""
    wants: Wants = {}
    for word in re.split("[,+]", text):
        kind, code = kind_and_code(word)
        codes = wants.setdefault(kind, set())
        if code is None:
            wants[kind] = None
        elif codes is not None:
            codes.add(code)
    return wants


def kind_and_code(word: str) -> Tuple[int, Optional[int]]:
    first, _, second = word.partition("/")
    kind, code = number_of_kind(first), None
    if kind is None and not second:
        kind = next((kind for kind, names in CODES.items() if first in names), None)
        code = CODES[kind][first] if kind is not None else None
    elif kind is not None and second:
        code = number_of_code(kind, second)
    if kind is None or not can_be_masked(kind, code) or (second and code is None):
        raise Wrong(f'"{word}" of a mask is no type (EV_KEY), no code (KEY_A) and no TYPE/CODE (EV_KEY/656)')
    return kind, code


def can_be_masked(kind: int, code: Optional[int]) -> bool:
    return kind in GREATEST and (code is None or (kind != REP and code <= GREATEST[kind]))


def mask_words(wants: Wants) -> List[str]:
    """The commands that set the mask of types, and a mask of codes where not all are wanted."""
    words = [f"mask EV_SYN 0 0x{bits_of(wants):016x}"]
    for kind, codes in sorted(wants.items()):
        if codes is None:
            continue
        for place in range(GREATEST[kind] // 64 + 1):
            bits = bits_of(code - 64 * place for code in codes if 64 * place <= code < 64 * place + 64)
            words.append(f"mask {kind_text(kind)} {place} 0x{bits:016x}")
    return words


def bits_of(numbers: Iterable[int]) -> int:
    return sum(1 << number for number in numbers)


def readers_of(texts: Optional[List[str]]) -> List[Reader]:
    """The readers that are asked for: one that follows after each frame where no reader is asked for."""
    readers = [Reader(text) for text in texts or ["reader"]]
    names = [reader.name for reader in readers]
    for name in names:
        if names.count(name) > 1:
            raise Wrong(f"two readers are named {name}")
    if len(readers) > GREATEST_READERS:
        raise Wrong(f"{len(readers)} readers: a device has at most {GREATEST_READERS} open clients: "
                    "others can have a record of their own")
    spans = sorted(span for span in map(held_span, readers) if span)
    if any(one[1] > other[0] for one, other in zip(spans, spans[1:])):
        raise Wrong("two readers grab at one time: one client alone can hold the grab")
    return readers


def held_span(reader: Reader) -> Optional[Tuple[int, int]]:
    """From which time to which a reader holds the grab, or None."""
    if not reader.grab:
        return None
    ends = [end for end in (reader.grab[1], reader.revoked) if end is not None]
    return reader.grab[0] or reader.opens or 0, min(ends, default=LATEST_SECOND * 1000000)
