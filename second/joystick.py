"""A joystick client, by the rules of docs/RULES.md, "Joystick clients".

A record that it hands out is a tuple (time in milliseconds, value, type, number).
"""

from typing import Any, List, Tuple, Union

from second.device import Caps, DROPPED, LAST, REPORT, SLOT
from second.names import ABS, KEY, SYN
from second.reader import Reader
from second.values import Event, HandedOut, JoyRecord, Reply, Step

BUTTON, AXIS, STARTUP = 1, 2, 0x80
FIRST_OF_ALL, FIRST_OF_JOYSTICKS = 0x100, 0x120
# How many buttons a client has, and how many numbers the byte of a record.
MOST_BUTTONS, NUMBERS = 64, 256
LONG = 64

# What a read comes to: a record, or a word.
Read = Union[JoyRecord, str, None]


def cut(value: int) -> int:
    return max(-32767, min(32767, value))


def buttons_of(caps: Caps) -> List[int]:
    keys = sorted(caps.codes.get(KEY, ())) if KEY in caps.kinds else []
    behind = [code for code in keys if FIRST_OF_ALL <= code < FIRST_OF_JOYSTICKS]
    return [code for code in keys if FIRST_OF_JOYSTICKS <= code] + behind


def axes_of(caps: Caps) -> List[int]:
    return [code for code in sorted(caps.axes) if not SLOT <= code <= LAST]


class Joystick:
    def __init__(self, caps: Caps) -> None:
        self.reader = Reader(caps)
        self.buttons, self.axes = buttons_of(caps)[:MOST_BUTTONS], axes_of(caps)
        self.startup: List[JoyRecord] = []
        self.calls: List[Tuple[Step, Reply]] = []
        self.clear()

    def clear(self) -> None:
        """The picture before the records of a startup."""
        self.down, self.values = [0] * len(self.buttons), [0] * len(self.axes)

    def begin_startup(self) -> None:
        view = self.reader.view
        buttons = [(0, int(code in view.on[KEY]), BUTTON + STARTUP, i) for i, code in enumerate(self.buttons)]
        axes = [self.axis_value(i, view.axes[code]) for i, code in enumerate(self.axes)]
        self.startup = buttons + [(0, value, AXIS + STARTUP, i) for i, value in enumerate(axes)]
        self.clear()

    def start(self, device: Any) -> None:
        self.reader.start(device)
        self.calls = self.reader.calls
        if self.reader.phase == "needed":
            self.startup = []
        elif self.calls[0][1][0] == "opened":
            self.begin_startup()

    def close(self, device: Any) -> Tuple[Step, Reply]:
        step = ("close", self.reader.client)
        return step, device.step(step)[0]

    def ask(self, device: Any, in_sync_mode: bool) -> HandedOut:
        answer = self.reader.next(device, in_sync_mode)
        self.calls += self.reader.calls
        return answer

    def read(self, device: Any) -> Read:
        """What a read answers: a record, or "frame", "more" or "end"."""
        self.calls = []
        while True:
            answer = self.turn(device)
            accepted = [reply for _, reply in self.calls if reply[0] not in ("again", "refused")]
            if answer:
                return answer
            if not self.startup and len(accepted) >= LONG:
                return "more"

    def turn(self, device: Any) -> Read:
        if self.startup:
            return self.hand_out(self.startup.pop(0))
        if self.reader.phase == "needed":
            return self.synchronise(device)
        what, *values = self.ask(device, in_sync_mode=False)
        if what == "end":
            return "end"
        event, time, _ = values[0]
        if event[:2] == (SYN, DROPPED):
            return self.synchronise(device)
        return "frame" if event[:2] == (SYN, REPORT) else self.tell(event, time)

    def synchronise(self, device: Any) -> Read:
        if self.ask(device, in_sync_mode=True)[0] == "end":
            return "end"
        self.begin_startup()
        return None

    def button_value(self, value: int) -> int:
        return int(value != 0)

    def axis_value(self, index: int, value: int) -> int:
        return cut(value)

    def tell(self, event: Event, time: int) -> Read:
        """The record of an event, if it gives one."""
        kind, code, value = event
        milliseconds = time // 1000 % 2**32
        if kind == KEY and code in self.buttons and value != 2:
            number = self.buttons.index(code) % NUMBERS
            return self.hand_out((milliseconds, self.button_value(value), BUTTON, number))
        if kind != ABS or code not in self.axes:
            return None
        index = self.axes.index(code)
        told = self.axis_value(index, value)
        return None if told == self.values[index] else self.hand_out((milliseconds, told, AXIS, index))

    def hand_out(self, record: JoyRecord) -> JoyRecord:
        _, value, kind, number = record
        if kind % STARTUP == BUTTON:
            self.down[number] = value
        else:
            self.values[number] = value
        return record
