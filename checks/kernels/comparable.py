"""What of a report can be compared with a real kernel: no places, no numbers of clients."""

from __future__ import annotations

import re
from typing import Callable, Dict, Iterator, List, Optional

LIVE = "live"
# How many microseconds the machine's measure of its clocks may be off, and what it does in real time.
OFF, OFF_IN_REAL_TIME = 300, 90000
# The causes that evdev has one error for.
INVALID = ("bad-kind", "bad-code", "bad-info", "not-grabber")
WITHOUT_CLIENT = ("open",)
# The calls that are a line of a client or a joystick, and no inner call of its reader.
OWN = ("open", "close", "grab", "ungrab", "revoke", "mask", "clock", "write", "setaxis")
TOOK = re.compile(r"^took (\S+) (.*)$")


def call(line: str, role: str) -> Optional[str]:
    """A call without its client, its place, and what only the program can tell."""
    step, _, reply = line.partition(" reply ")
    _, op, *words = step.split(" ")
    name, _, *rest = reply.split(" ")
    if name == "refused":
        rest = ["invalid" if rest[0] in INVALID else rest[0]]
    if role in ("client", "joy") and op not in OWN:
        return f"refused {rest[0]}" if name == "refused" else None
    words = words if op in WITHOUT_CLIENT else words[1:]
    return " ".join(["call", op, *words, "reply", name, *([] if name == "opened" else rest)])


def behind(count: int) -> Callable[[str, str], Optional[str]]:
    """Without so many words behind the first one."""

    def cut(line: str, _: str) -> Optional[str]:
        words = line.split(" ")
        return " ".join(words[:1] + words[1 + count :])

    return cut


def nothing(_line: str, _role: str) -> Optional[str]:
    return None


def head(line: str, _: str) -> Optional[str]:
    return " ".join(line.split(" ")[:2])


def picture(line: str, role: str) -> Optional[str]:
    return None if role == "joy" else line


FORMS: Dict[str, Callable[[str, str], Optional[str]]] = {
    "device": head, "source": nothing, "stop": nothing, "call": call, "took": behind(1), "again": behind(1),
    "feedback": behind(1), "js": behind(1), "buttons": nothing, "axes": picture,
}
ROLES = ("source", "client", "tap", "joy", "owner")


def comparable(report: List[str]) -> List[str]:
    lines: List[str] = []
    role = ""
    for line in report:
        word = line.split(" ", 1)[0]
        role = word if word in ROLES else role
        form = FORMS.get(word)
        told = form(line, role) if form else line
        lines += [] if told is None else [told]
    return lines


def agreed(kernel: List[str], ours: List[str], is_live: bool) -> List[str]:
    """The kernel's lines, with our times where they agree. One of the kernel's own clock agrees with any."""

    def lines() -> Iterator[str]:
        for number, line in enumerate(kernel):
            came, wanted = TOOK.match(line), TOOK.match(ours[number]) if number < len(ours) else None
            if came and wanted and came[2] == wanted[2] and is_time(came[1], wanted[1], is_live):
                yield ours[number]
            else:
                yield line

    return list(lines())


def is_time(came: str, wanted: str, is_live: bool) -> bool:
    if LIVE in (came, wanted):
        return came == LIVE
    return abs(int(came) - int(wanted)) <= (OFF_IN_REAL_TIME if is_live else OFF)
