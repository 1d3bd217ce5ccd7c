"""Reads a device and its events as `evemu-describe` and `evemu-record` write them, versions 1.0 to 1.3.

Types and codes are hexadecimal, values decimal and padded by zeros. `B: TT ..` has the codes of the type TT
as bytes of bits, the lowest code first, over as many lines as it takes; that of the type 0 is always the
same and means nothing. Values of axes stand in comments alone.
"""

import re
from typing import Dict, List

from inputtools.command import Wrong, at_line, number
from inputtools.identity import ids_of
from inputtools.listing import Listing, complete
from inputtools.names import LED, SW
from inputtools.procfs import bits_of
from inputtools.recording import GREATEST, LEAST, Axis, Device, Event, Recording

HEAD = re.compile(r"# EVEMU \d")
# The first version has no such line.
KNOWN_BY = re.compile(
    r"# EVEMU \d|^(I: [0-9a-fA-F]{4} [0-9a-fA-F]{4}|B: [0-9a-fA-F]{2} [0-9a-fA-F]{2}"
    r"|E: ?\d+\.\d+ [0-9a-fA-F]{4} [0-9a-fA-F]{4} )", re.MULTILINE
)
VERSION = re.compile(r"# EVEMU (\d+)\.(\d+)")
EVENT = re.compile(r"E:\s*(\d+)\.(\d{6})\s+([0-9a-fA-F]{1,4})\s+([0-9a-fA-F]{1,4})\s+(-?\d+)\s*(#.*)?$")
AXIS = re.compile(r"([0-9a-fA-F]{1,2})((?:\s+-?\d+){4,5})\s*$")
STATE = re.compile(r"([0-9a-fA-F]{1,2})\s+(\d+)\s*$")


class Parser:
    """One device and its events."""

    def __init__(self) -> None:
        self.device, self.listing = Device("evemu"), Listing("evemu")
        self.bits: Dict[int, bytearray] = {}
        self.properties = bytearray()
        self.recording, self.is_described = Recording(), False

    def take(self, line: str, index: int, is_last: bool) -> None:
        if line.startswith("#"):
            if not self.device.identity.take(line):
                self.listing.take(line.lstrip("#"))
            return
        letter, _, rest = line.partition(":")
        rest = rest if letter == "N" else rest.partition("#")[0]
        try:
            if letter == "E":
                self.take_event(line)
            elif letter in ("N", "P", "B", "A", "L", "S", "I"):
                self.describe(letter, rest.strip())
                self.is_described = True
            elif line.strip():
                raise Wrong("no line of an evemu file")
        except Wrong as wrong:
            if not is_last or letter != "E":
                raise at_line(index, f"{wrong}: {line.strip()[:60]}") from None
            self.recording.ends_in_a_line = True

    def describe(self, letter: str, rest: str) -> None:
        if letter == "N":
            self.device.name = rest
        elif letter == "I":
            self.device.identity.ids = ids_of(rest)
        elif letter == "P":
            self.properties += bytes_of(rest.split())
        elif letter == "B":
            self.take_bits(rest.split())
        elif letter == "A":
            self.take_axis(rest)
        else:
            self.take_state(rest, LED if letter == "L" else SW)

    def take_bits(self, words: List[str]) -> None:
        if not words or not re.fullmatch("[0-9a-fA-F]{1,2}", words[0]):
            raise Wrong("bits without a type")
        self.bits.setdefault(int(words[0], 16), bytearray()).extend(bytes_of(words[1:]))

    def take_axis(self, rest: str) -> None:
        found = AXIS.match(rest)
        if not found:
            raise Wrong("an axis wants four or five numbers behind its code")
        numbers = [number(word, LEAST, GREATEST, "the number") for word in found[2].split()]
        self.device.axes[int(found[1], 16)] = Axis(None, *numbers)

    def take_state(self, rest: str, kind: int) -> None:
        found = STATE.match(rest)
        if not found:
            raise Wrong("a state wants a code and a number")
        if int(found[2]):
            self.device.on[kind].add(int(found[1], 16))

    def take_event(self, line: str) -> None:
        found = EVENT.match(line)
        if not found:
            raise Wrong("no event as evemu writes it")
        time = number(found[1], 0, 2**62, "the time") * 1000000 + int(found[2])
        value = number(found[5], LEAST, GREATEST, "the value")
        self.recording.events.append(Event(time, int(found[3], 16), int(found[4], 16), value))

    def finished(self) -> Recording:
        self.device.properties = bits_of(self.properties)
        for kind, octets in self.bits.items():
            if kind and any(octets):
                self.device.add(kind, bits_of(octets))
        complete(self.device, self.listing.device)
        if self.is_described:
            self.recording.device = self.device
        return self.recording


def bytes_of(words: List[str]) -> bytes:
    if not all(re.fullmatch("[0-9a-fA-F]{2}", word) for word in words):
        raise Wrong("bits that are no bytes")
    return bytes.fromhex("".join(words))


def parse(text: str) -> List[Recording]:
    """The recordings of a file: one for each description that it has, or one of events alone."""
    head = HEAD.search(text)
    if head and not re.search("^N:", text[: head.start()], re.MULTILINE):
        # (a terminal shows a list of devices before it)
        text = "\n" * text.count("\n", 0, head.start()) + text[head.start() :]
    parsers, lines = [Parser()], text.split("\n")
    for index, line in enumerate(lines):
        version = VERSION.match(line)
        if version and version[1] != "1":
            raise at_line(index, f"version {version[1]}.{version[2]} of evemu's format is not known here")
        if parsers[-1].is_described and (version or (line.startswith("N:") and parsers[-1].device.name)):
            parsers.append(Parser())
        parsers[-1].take(line, index, is_last=index == len(lines) - 1)
    return [parser.finished() for parser in parsers if parser.is_described or parser.recording.events]
