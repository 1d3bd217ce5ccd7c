"""Sorts what a kernel answered: equal to the program's report, explained by the kernel's ways, or neither."""

from __future__ import annotations

import difflib
import re
from dataclasses import dataclass, replace
from typing import Iterable, List, Optional, Tuple

from second.kernel import estimate
from second.model import play, read_record
from second.ways import ALL, RULES, Ways
from checks.kernels.answers import NotPlayed, report_of
from checks.kernels.comparable import agreed, comparable
from checks.kernels.lines import is_live

EQUAL, EXPLAINED, UNEXPLAINED = "equal", "explained", "unexplained"
# The greatest moment that uinput takes, and of a record that is played in real time.
MOST, MOST_IN_REAL_TIME = 7900000, 20000000
MOMENT = re.compile(r"^do \S+ (?:event|tick|inhibit|write|clock \S+) (\d+)", re.M)
CONSOLE = re.compile(r"^cap EV_KEY (?:KEY_(?:CAPSLOCK|NUMLOCK|SCROLLLOCK|SYSRQ)|58|69|70|99)$", re.M)
# The first kernel whose uinput takes the times of events, and the first libevdev that was seen to make all
# values of a contact that ended.
STAMPS, REMEMBERS = (6, 12), (1, 13, 4)
SHOWN = 40


@dataclass(frozen=True)
class Verdict:
    """What the answer of one kernel on one record is. `lines` shows what is not explained."""

    name: str
    kind: str
    ways: Tuple[str, ...] = ()
    lines: Tuple[str, ...] = ()

    def told(self) -> str:
        return f"{self.name}: {self.kind} {' '.join(self.ways)}".rstrip()


def version_of(told: str) -> Tuple[int, ...]:
    """The first numbers in what is told of a version."""
    return tuple(map(int, re.findall(r"\d+", told)[:3]))


def ways_of_peers(kernel: str, libevdev: str) -> Ways:
    """All ways of a kernel and a libevdev, by what is told of their versions."""
    stamps, forgets = version_of(kernel) >= STAMPS, version_of(libevdev) < REMEMBERS
    return replace(ALL, stamped_time=stamps, forgotten_values=forgets)


def why_not(text: str) -> Optional[str]:
    """Why a real kernel cannot play a record, or None."""
    devices = [caps for _, caps in read_record(text).descriptions]
    most = MOST_IN_REAL_TIME if is_live(text) else MOST
    if any(caps.filters for caps in devices):
        return "it has filters"
    if any(line.startswith("log ") for line in text.splitlines()):
        return "it has the limit of a history"
    if any(caps.hint > estimate(caps) for caps in devices if not caps.slots > 100):
        return "its hint is above the kernel's own"
    if any(int(moment) > most for moment in MOMENT.findall(text)):
        return f"it has a moment above {most}"
    return "it has a key that the console heeds" if CONSOLE.search(text) else None


def is_same(kernel: List[str], text: str, folder: str, ways: Ways) -> bool:
    ours = comparable(play(text, folder, ways=ways))
    return agreed(kernel, ours, is_live(text)) == ours


def least_ways(kernel: List[str], text: str, folder: str, ways: Ways) -> Optional[Ways]:
    """Those ways with which the second program answers as the kernel, and of which none can be left out; or
    None."""
    if not is_same(kernel, text, folder, ways):
        return None
    # (many that are not needed are left out at once)
    waiting = [ways.on()]
    while waiting:
        names = waiting.pop()
        fewer = ways.without(*names)
        if is_same(kernel, text, folder, fewer):
            ways = fewer
        elif len(names) > 1:
            half = len(names) // 2
            waiting += [names[half:], names[:half]]
    return ways


def is_explained(kernel: List[str], text: str, folder: str, ways: Ways) -> bool:
    """Whether the second program answers as the kernel by the rules, or with these ways."""
    return is_same(kernel, text, folder, RULES) or is_same(kernel, text, folder, ways)


def shown(wanted: List[str], came: List[str], text: str) -> Tuple[str, ...]:
    came = agreed(came, wanted, is_live(text))
    lines = difflib.unified_diff(wanted, came, "the second program", "the kernel", n=2, lineterm="")
    return tuple(lines)[:SHOWN]


def judge(name: str, text: str, said: Iterable[str], ways: Ways, folder: str = ".",
          program: Optional[List[str]] = None) -> Verdict:
    """What a kernel's answer is. `program` is the report of the program, where it is built."""
    try:
        kernel = comparable(report_of(text, said, folder))
    except NotPlayed as fault:
        return Verdict(name, UNEXPLAINED, lines=(f"it was not played: {fault}",))
    by_rules = play(text, folder)
    if program is not None and program != by_rules:
        return Verdict(name, UNEXPLAINED, lines=("the program and the second one differ",))
    if is_same(kernel, text, folder, RULES):
        return Verdict(name, EQUAL)
    least = least_ways(kernel, text, folder, ways)
    if least is not None:
        return Verdict(name, EXPLAINED, least.on())
    wanted = comparable(play(text, folder, ways=ways))
    return Verdict(name, UNEXPLAINED, lines=shown(wanted, kernel, text))
