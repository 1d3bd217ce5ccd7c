"""The calls of a reader and of a joystick client of the library, beside those of the second program over the
same steps.

Each stands between an event that goes to the device's owner and the owner's call. Its answer is to be the
second program's, and what the owner then takes too. Each is noted in numbers, for programs in other
languages.
"""

from struct import pack
from typing import Any, Callable, List, Optional, Tuple

from second.device import DROPPED, MOST_WAITING
from second.joystick import Joystick
from second.names import ABS, KEY, SYN
from second.reader import Reader

NEXTS = READS = 8
FORCED_AT, AGAINST_THE_PHASE = 5, 3
LATE = 10**12
CONFIG, REPORT = (SYN, 1), (SYN, 0, 0)

# The number of each answer, by the reply to the last call behind it.
ENDS = {"again": 3, "no-device": 5, "bad-client": 6, "log-full": 7}
JOY_ENDS = {"again": 2, "no-device": 3, "bad-client": 4, "log-full": 5}

Event = Tuple[Any, ...]
NO_EVENT: Event = (0, 0, 0, 0, 0)


class Differs(Exception):
    """Something else came than was wanted."""


def same(what: str, wanted: object, came: object) -> None:
    if wanted != came:
        raise Differs(f"{what}: {wanted} was wanted, and {came} came")


def end_of(ends: Any, calls: Any) -> int:
    """The number of an answer without an event."""
    reply = calls[-1][1]
    return int(ends[reply[2] if reply[0] == "refused" else reply[0]])


def refusal_of(calls: Any) -> str:
    """Why a start was refused, or nothing."""
    reply = calls[-1][1]
    return str(reply[2]) if reply[0] == "refused" else ""


def next_of(given: Any, calls: Any) -> Tuple[int, Event]:
    """The number of a reader's answer, and its event."""
    what, *values = given
    if what == "took":
        event, time, place = values[0]
        return int(event[:2] == (SYN, DROPPED)), (*event, time, place)
    if what == "made":
        return 2, (*values[0], 0, 0)
    return (4 if what == "synced" else end_of(ENDS, calls)), NO_EVENT


def joy_of(given: Any, calls: Any) -> Tuple[int, bytes]:
    """The number of a joystick client's answer, and the bytes of its record."""
    if isinstance(given, tuple):
        return 0, pack("<IhBB", *given)
    return {"frame": 1, "more": 6}.get(given) or end_of(JOY_ENDS, calls), bytes(8)


class Beside:
    """A reader and a joystick client of a device of the library, and those of the second program."""

    def __init__(self, device: Any) -> None:
        self.device, self.library, self.mirror = device, device.inputplay, device.mirror
        self.reader, self.joystick = Reader(device.caps), Joystick(device.caps)
        self.kept: Any = None
        self.sent = 0

    def note(self, *words: object) -> None:
        self.device.log.append(" ".join(map(str, words)) + "\n")

    def events(self) -> None:
        """The driver injects a frame of a key and an axis."""
        self.sent += 1
        keys = self.device.caps.codes.get(KEY, ())
        events = [(KEY, min(keys), self.sent % 2)] if keys else []
        events += [(ABS, code, self.sent) for code in sorted(self.device.caps.axes)[:1]]
        for event in [*events, REPORT]:
            self.device.step(("inject", LATE + self.sent, event))

    def between(self, call: Callable[..., None], *words: object) -> None:
        """A call between an event that goes to the owner and the owner's call."""
        self.sent += 1
        self.device.step(("inject", LATE + self.sent, (*CONFIG, self.sent)))
        call(*words)
        self.device.feedback(MOST_WAITING)

    def start(self, number: int, kind: Any, model: Any, reader: Reader) -> None:
        """Starts the one of this number: 0 for the reader, 1 for the joystick client."""
        model.start(self.mirror)
        try:
            self.kept, why = kind(self.device.device), 0
            same("client", reader.client, self.kept.client)
        except self.library.StepRefused as refused:
            self.kept, why = None, int(refused.why)
        same("why", refusal_of(model.calls),
             why and self.library.Why(why).name.lower().replace("_", "-") or "")
        self.note("start", self.device.number, number, why, self.kept.client if self.kept else 0)

    def next(self, at: int) -> None:
        """The reader's next event, sometimes in a mode that its phase does not ask for."""
        if at == FORCED_AT:
            self.reader.phase = "needed"
            self.kept.force_sync()
            self.note("force", self.device.number)
        sync = (self.reader.phase != "plain") != (at == AGAINST_THE_PHASE)
        given = self.reader.next(self.mirror, sync)
        answer, event = self.kept.next(sync)
        came: Optional[Event] = tuple(event) if event else NO_EVENT
        same("next", next_of(given, self.reader.calls), (int(answer), came))
        self.note("next", self.device.number, int(sync), int(answer), *map(int, came or NO_EVENT))

    def read(self) -> None:
        given = self.joystick.read(self.mirror)
        answer, record, place = self.kept.read()
        came = pack("<IhBB", *record) if record else bytes(8)
        same("read", joy_of(given, self.joystick.calls), (int(answer), came))
        self.note("joyread", self.device.number, int(answer), place, *came)

    def make(self) -> None:
        self.between(self.start, 0, self.library.Reader, self.reader, self.reader)
        for at in range(NEXTS if self.kept else 0):
            self.between(self.next, at)
            self.events()
        self.between(self.start, 1, self.library.Joystick, self.joystick, self.joystick.reader)
        for _ in range(READS if self.kept else 0):
            self.between(self.read)
            self.events()


def make_calls(devices: List[Any]) -> None:
    for device in devices:
        Beside(device).make()
