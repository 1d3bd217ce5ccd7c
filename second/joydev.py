"""A joystick as joydev has it: the ways of second/ways.py that are joydev's."""

from dataclasses import dataclass, field
from typing import Any, List, Optional, Tuple

from second.device import Caps, Device, SLOT
from second.joystick import AXIS, BUTTON, MOST_BUTTONS, NUMBERS, STARTUP, Joystick, Read, axes_of, buttons_of, cut
from second.kernel import KernelDevice, in_32_bits
from second.names import ABS, KEY, MSC, REL, SYN
from second.reader import NO_CLIENT
from second.values import Event, JoyRecord, Reply, Step

# Places of a ring.
PLACES = 64
# What a device must have one of to be a joystick, and the keys that it must not have.
WANTED_AXES, WANTED_KEYS, UNWANTED_KEYS = {0, 2, 8, 6}, {0x120, 0x130, 0x2C0}, {0x14A, 0x140}
MOUSE_KEYS = {0x110, 0x111, 0x112}
MOUSE_KINDS = ({SYN, KEY, ABS}, {SYN, KEY, ABS, MSC}, {SYN, KEY, ABS, MSC, REL})


def has_node(caps: Caps) -> bool:
    """Whether joydev takes a device for a joystick."""
    keys = caps.codes.get(KEY, set()) if KEY in caps.kinds else set()
    if keys & UNWANTED_KEYS or keys == MOUSE_KEYS and set(caps.axes) == {0, 1} and caps.kinds in MOUSE_KINDS:
        return False
    return bool(WANTED_AXES & set(caps.axes) or WANTED_KEYS & keys)


def in_16_bits(value: int) -> int:
    return (value + 2**15) % 2**16 - 2**15


def halved(value: int) -> int:
    return -(-value // 2) if value < 0 else value // 2


@dataclass(frozen=True)
class Correction:
    """Scales the values of an axis by its range and its flat zone."""

    low: int
    high: int
    factor: int

    def of(self, value: int) -> int:
        if self.low < value < self.high:
            return 0
        edge = self.high if value > self.low else self.low
        return cut(in_32_bits(self.factor * in_32_bits(value - edge)) >> 14)


def correction_of(minimum: int, maximum: int, flat: int) -> Optional[Correction]:
    if minimum == maximum:
        return None
    middle = halved(in_32_bits(maximum + minimum))
    reach = halved(in_32_bits(maximum - minimum)) - 2 * flat
    factor = int(2**29 / reach) if reach else 0
    return Correction(middle - flat, middle + flat, factor)


@dataclass(eq=False)
class Client:
    """What waits for a joystick: the next record of its startup, and in a ring the records behind it."""

    size: int
    startup: int = 0
    waiting: List[JoyRecord] = field(default_factory=list)

    def put(self, record: JoyRecord) -> None:
        if self.startup < self.size:
            return
        self.waiting.append(record)
        if len(self.waiting) == PLACES:
            self.startup, self.waiting = 0, []


class Node:
    """What joydev keeps of a device: its numbers, and the value of each axis that it passed last."""

    def __init__(self, caps: Caps) -> None:
        self.caps, self.ways = caps, caps.ways
        has_all = self.ways.joydev_numbers
        self.buttons = buttons_of(caps)[: None if has_all else MOST_BUTTONS]
        self.axes = sorted(caps.axes) if has_all else axes_of(caps)
        infos = (caps.axes[code] for code in self.axes)
        self.corrections = [correction_of(info[1], info[2], info[4]) for info in infos]
        self.values = [0] * len(self.axes)
        self.clients: List[Client] = []

    def button(self, value: int) -> int:
        return in_16_bits(value) if self.ways.joydev_values else int(value != 0)

    def axis(self, index: int, value: int) -> int:
        correction = self.corrections[index] if self.ways.joydev_values else None
        return correction.of(value) if correction else cut(value)

    def open(self, device: Device) -> Client:
        if not self.clients:
            told = {**device.axes, SLOT: device.announced}
            self.values = [self.axis(index, told[code]) for index, code in enumerate(self.axes)]
        self.clients.append(Client(len(self.buttons) + len(self.axes)))
        return self.clients[-1]

    def take(self, event: Event) -> None:
        kind, code, value = event
        if kind == KEY and code in self.buttons and value != 2:
            self.put((0, self.button(value), BUTTON, self.buttons.index(code) % NUMBERS))
        elif kind == ABS and code in self.axes:
            index = self.axes.index(code)
            before, self.values[index] = self.values[index], self.axis(index, value)
            if self.values[index] != before:
                self.put((0, self.values[index], AXIS, index))

    def put(self, record: JoyRecord) -> None:
        for client in self.clients:
            client.put(record)

    def startup(self, client: Client, device: Device) -> JoyRecord:
        """The next record of a startup."""
        place, client.startup = client.startup, client.startup + 1
        if place < len(self.buttons):
            number = place % NUMBERS
            return (0, int(self.buttons[number] in device.on[KEY]), BUTTON + STARTUP, number)
        index = place - len(self.buttons)
        return (0, self.values[index], AXIS + STARTUP, index)


class JoydevDevice(KernelDevice):
    """A device whose frames go to joydev too."""

    def __init__(self, name: str, caps: Caps) -> None:
        super().__init__(name, caps)
        self.node = Node(caps)

    def offer(self, events: List[Event], now: int, place: int) -> None:
        super().offer(events, now, place)
        for event in events if self.holder is None else ():
            self.node.take(event)


class JoydevStick(Joystick):
    def __init__(self, caps: Caps) -> None:
        super().__init__(caps)
        self.ways, self.node = caps.ways, Node(caps)
        self.buttons, self.axes = self.node.buttons, self.node.axes
        self.is_joystick = has_node(caps) or not self.ways.joydev_nodes
        self.client: Optional[Client] = None
        self.clear()

    def start(self, device: Any) -> None:
        if self.is_joystick and not self.ways.joydev_ring:
            super().start(device)
            return
        reply: Reply = ("refused", 0, "no-node")
        if self.is_joystick:
            self.client, reply = device.node.open(device), ("opened", 0, 0, PLACES)
        self.calls = [(("open",), reply)]

    def close(self, device: Any) -> Tuple[Step, Reply]:
        if not self.ways.joydev_ring:
            return super().close(device)
        client, self.client = self.client, None
        if client is None:
            return ("close", NO_CLIENT), ("refused", 0, "bad-client")
        device.node.clients.remove(client)
        return ("close", 0), ("done", 0)

    def read(self, device: Any) -> Read:
        if not self.ways.joydev_ring:
            return super().read(device)
        client, self.calls = self.client, []
        if client and client.startup < client.size:
            return self.hand_out(device.node.startup(client, device))
        if client and client.waiting:
            return self.hand_out(client.waiting.pop(0))
        reply: Reply = ("again", 0) if client else ("refused", 0, "bad-client")
        self.calls = [(("read", NO_CLIENT, 1), reply)]
        return "end"

    def button_value(self, value: int) -> int:
        return self.node.button(value)

    def axis_value(self, index: int, value: int) -> int:
        return self.node.axis(index, value)
