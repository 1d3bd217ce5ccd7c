"""What a file tells: a device and the events that it sent. They are cut into frames here."""

import re
from dataclasses import dataclass, field
from typing import Dict, Iterable, List, NamedTuple, Optional, Set, Tuple

from inputtools.command import Wrong
from inputtools.identity import Identity
from inputtools.names import KEY, LED, REP, SLOT, SW, SYN, event_text

LEAST, GREATEST = -(2**31), 2**31 - 1
# The value of a report in forms that do not tell it: no event has such a one.
UNTOLD = -(2**40)
SYN_REPORT, SYN_CONFIG, SYN_MT_REPORT, SYN_DROPPED = 0, 1, 2, 3


class Event(NamedTuple):
    """An event of a capture. The value of a SYN_REPORT is UNTOLD in forms that do not tell it."""

    time: int
    kind: int
    code: int
    value: int

    def text(self) -> str:
        """Its type, code and value, as a line of a record has them."""
        return event_text(self.kind, self.code, self.value)


@dataclass
class Axis:
    """An axis as the kernel tells it. A value is None where the form has none."""

    value: Optional[int] = None
    minimum: int = 0
    maximum: int = 0
    fuzz: int = 0
    flat: int = 0
    resolution: int = 0


@dataclass
class Device:
    """A device as a file describes it."""

    form: str
    name: str = ""
    codes: Dict[int, Set[int]] = field(default_factory=dict)  # the codes of each type but EV_SYN
    axes: Dict[int, Axis] = field(default_factory=dict)
    on: Dict[int, Set[int]] = field(default_factory=lambda: {KEY: set(), SW: set(), LED: set()})
    repeat: Dict[int, int] = field(default_factory=dict)  # the settings of EV_REP, in milliseconds
    properties: List[int] = field(default_factory=list)
    identity: Identity = field(default_factory=Identity)
    has_ranges: bool = True
    # Told by the lines of a record alone.
    hint: Optional[int] = None
    slots: Optional[int] = None
    other_lines: List[str] = field(default_factory=list)

    def add(self, kind: int, codes: Iterable[int] = ()) -> None:
        self.codes.setdefault(kind, set()).update(codes)

    def has(self, kind: int, code: int) -> bool:
        if kind == SYN:
            return True
        return kind in self.codes and (code in self.codes[kind] or (kind == REP and code <= 1))

    def slot_count(self) -> int:
        """The number of slots: none where the axis before ABS_MT_SLOT is there too, as one of many."""
        if self.slots is not None:
            return self.slots
        if SLOT not in self.axes or SLOT - 1 in self.axes:
            return 0
        return max(self.axes[SLOT].maximum + 1, 1)


@dataclass
class Recording:
    """A device and its events; either may be missing."""

    device: Optional[Device] = None
    events: List[Event] = field(default_factory=list)
    hides_keys: bool = False
    hides_scan_codes: bool = False
    ends_in_a_line: bool = False
    was_grabbed: bool = False


def index_of(names: List[str], chosen: Optional[str], quote: str = "") -> int:
    """The index of the one device, or of that whose number, from 1, or whose name is chosen."""
    listed = ", ".join(f"{number} {quote}{name}{quote}" for number, name in enumerate(names, 1))
    if chosen is None and len(names) > 1:
        raise Wrong(f"{len(names)} devices: {listed}; choose one with --device")
    if chosen is None:
        return 0
    if names.count(chosen) == 1:
        return names.index(chosen)
    if re.fullmatch("[0-9]{1,6}", chosen) and 1 <= int(chosen) <= len(names):
        return int(chosen) - 1
    raise Wrong(f"no one device {quote}{chosen}{quote}; there are {listed}")


@dataclass
class Frame:
    """The events of a frame and the value of its report. After a loss `lost` is the time of SYN_DROPPED."""

    time: int
    events: List[Event]
    report: Optional[int]
    lost: Optional[int] = None


def frames_of(events: List[Event]) -> Tuple[List[Frame], int, Optional[int]]:
    """The frames of a capture, how many events stand after the last one, and the time of a loss after it.

    A SYN_DROPPED is no event of a frame: it tells that events before it are missing. What came before it in
    the same frame is a frame of its own.
    """
    frames: List[Frame] = []
    batch: List[Event] = []
    lost: Optional[int] = None
    for event in events:
        is_report = (event.kind, event.code) == (SYN, SYN_REPORT)
        is_loss = (event.kind, event.code) == (SYN, SYN_DROPPED)
        if not is_report and not is_loss:
            batch.append(event)
            continue
        if batch:
            time, report = (event.time, event.value) if is_report else (batch[-1].time, 0)
            frames.append(Frame(time, batch, None if report == UNTOLD else report, lost))
            batch, lost = [], None
        if is_loss:
            lost = event.time
    return frames, len(batch), lost
