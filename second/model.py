"""Plays a record as `inputplay FILE` does: a second program, to compare the first one with.

It was written from docs/RULES.md, docs/READER.md and docs/FORMATS.md and shares no code with the program. It takes
the record for one that has a meaning, and plays on one thread.
"""

import os
import struct
from typing import Any, Callable, Dict, List, NamedTuple, Optional, Sequence, Tuple

from second.device import Caps, Device, FIRST, LAST, SLOT
from second.joydev import JoydevDevice, JoydevStick
from second.joystick import Joystick
from second.kernel import is_refused
from second.libevdev import Libevdev
from second.names import ABS, CODES, KEY, LED, SW, TYPES, code_text, event_text, kind_text
from second.reader import NO_CLIENT, Reader, View
from second.values import Event, Item, Reply, Step, Streams
from second.ways import RULES, Ways


def number(word: str) -> int:
    return -number(word[1:]) if word.startswith("-") else int(word, 16 if word.startswith("0x") else 10)


def kind_of(word: str) -> int:
    return TYPES[word] if word in TYPES else number(word)


def code_of(kind: int, word: str) -> int:
    names = CODES.get(kind, {})
    return names[word] if word in names else number(word)


def event_of(words: List[str]) -> Event:
    kind = kind_of(words[0])
    return (kind, code_of(kind, words[1]), number(words[2]))


# The text of steps and replies


def step_text(step: Step) -> str:
    op, *words = step
    if op in ("inject", "write"):
        return " ".join([op] + [str(word) for word in words[:-1]] + [event_text(words[-1])])
    if op in ("getaxis", "getslots"):
        return f"{op} {words[0]} {code_text(ABS, words[1])}"
    if op == "setaxis":
        return " ".join([op, str(words[0]), code_text(ABS, words[1])] + [str(word) for word in words[2:]])
    if op == "mask":
        return f"mask {words[0]} {kind_text(words[1])} {words[2]} 0x{words[3]:016x}"
    return " ".join(str(word) for word in step)


def reply_text(reply: Reply) -> str:
    if reply[0] == "bits":
        return " ".join(["bits", str(reply[1])] + [code_text(reply[2], code) for code in reply[3]])
    return " ".join(str(word) for word in reply)


# The records of a file, by the command that names it: seconds, microseconds, type, code, value.
RECORD_FORMS = {"stream": "<QQHHi", "stream16": "<IIHHi"}


def source_steps(words: List[str], streams: Streams) -> List[Step]:
    """The steps of a source's command."""
    command, *words = words
    if command == "event":
        return [("inject", number(words[0]), event_of(words[1:]))]
    if command in RECORD_FORMS:
        return [("inject", moment, event) for moment, event in streams(words[0], RECORD_FORMS[command])]
    return [(command,) + tuple(number(word) for word in words)]


def single_step(client: int, words: List[str]) -> Optional[Step]:
    """The step of a command that taps and clients share, or none."""
    command, *words = words
    if command in ("close", "grab", "ungrab", "revoke"):
        return (command, client)
    if command == "mask":
        return ("mask", client, kind_of(words[0]), number(words[1]), number(words[2]))
    if command == "clock":
        return ("clock", client, words[0], number(words[1]))
    if command == "write":
        return ("write", client, number(words[0]), event_of(words[1:]))
    if command == "setaxis":
        return ("setaxis", client, code_of(ABS, words[0]), *map(number, words[1:]))
    return None


def tap_step(client: int, words: List[str]) -> Step:
    """The step of a tap's command."""
    command = words[0]
    if command == "open":
        return ("open",)
    if command == "read":
        return ("read", client, number(words[1]))
    if command in ("discard", "syncslots"):
        return (command, client)
    if command in ("keys", "switches", "leds", "sounds"):
        return ("get" + command, client)
    if command in ("axis", "slots"):
        return ("get" + command, client, code_of(ABS, words[1]))
    return single_step(client, words) or ()


def reader_and_joystick(caps: Caps) -> Tuple[Reader, Joystick]:
    """Those of the rules, or those of libevdev and joydev."""
    return (Reader(caps), Joystick(caps)) if caps.ways == RULES else (Libevdev(caps), JoydevStick(caps))


class Actor:
    def __init__(self, name: str, role: str, device: Any) -> None:
        self.name, self.role, self.device = name, role, device
        self.sight: List[str] = []
        self.accepted, self.stop = 0, "finished"
        self.view, self.client = View(device.caps), NO_CLIENT
        self.reader, self.joystick = reader_and_joystick(device.caps)
        # (how many events or records the present line has handed out)
        self.handed = 0

    def see(self, step: Step, reply: Reply) -> None:
        if reply[0] == "again":
            self.sight.append(f"again {reply[1]}")
        else:
            self.sight.append(f"call {step_text(step)} reply {reply_text(reply)}")
        if reply[0] not in ("again", "refused"):
            self.accepted += 1
        if reply[0] == "refused" and reply[2] == "log-full":
            self.stop = f"full {reply[1]}"

    def see_taken(self, item: Item) -> None:
        event, time, place = item
        self.sight.append(f"took {place} {time} {event_text(event)}")

    def see_handed(self, what: str, values: Sequence[Any]) -> None:
        """Sees what the reader handed out."""
        if what == "took":
            self.see_taken(values[0])
        elif what == "made":
            self.sight.append(f"made {event_text(values[0])}")

    def see_record(self, answer: Any) -> None:
        """Sees what a joystick's read answers."""
        if isinstance(answer, tuple):
            self.sight.append("js " + " ".join(map(str, answer)))

    def see_feedback(self, at: int, events: List[Event]) -> None:
        self.sight += [f"feedback {at} {len(events)}"] + [f"fed {event_text(event)}" for event in events]

    def do(self, words: List[str], streams: Streams) -> None:
        if self.stop == "finished":
            ways: Dict[str, Callable[[List[str], Streams], None]] = {
                "source": self.do_source, "tap": self.do_tap, "client": self.do_client, "joy": self.do_joy,
                "owner": self.do_owner,
            }
            ways[self.role](words, streams)

    def do_source(self, words: List[str], streams: Streams) -> None:
        for step in source_steps(words, streams):
            reply, _ = self.device.step(step)
            self.see(step, reply)
            if reply[0] == "refused":
                return

    # (those that do a line otherwise have it too)
    single_step = staticmethod(single_step)

    def do_tap(self, words: List[str], _: Streams) -> None:
        step = tap_step(self.client, words)
        reply, written = self.device.step(step)
        self.see(step, reply)
        if reply[0] == "opened":
            self.client = reply[2]
        elif reply[0] == "took":
            for item in written:
                self.see_taken(item)
                self.view.take(item[0])
        else:
            self.view.answer(step, reply, written)

    def do_client(self, words: List[str], _: Streams) -> None:
        step = single_step(self.reader.client, words)
        if step:
            reply, _ = self.device.step(step)
            self.see(step, reply)
        elif words[0] == "open":
            self.reader.start(self.device)
            self.see_calls(self.reader.calls)
        elif words[0] == "force":
            self.reader.force(self.device)
        else:
            self.hand_out(words[0], number(words[1]) if words[1:] else None)
        self.view = self.reader.view

    def see_calls(self, calls: List[Tuple[Step, Reply]]) -> None:
        for step, reply in calls:
            self.see(step, reply)

    def hand_out(self, command: str, bound: Optional[int]) -> None:
        while bound is None or self.handed < bound:
            in_sync_mode = command != "skip" and self.reader.phase != "plain"
            what, *values = self.reader.next(self.device, in_sync_mode)
            if command == "follow" and what == "end" and self.waits_on(self.reader.calls[-1][1]):
                continue
            self.see_calls(self.reader.calls)
            if what == "end":
                break
            self.handed += what != "synced"
            self.see_handed(what, values)
        self.handed = 0

    def do_joy(self, words: List[str], _: Streams) -> None:
        if words[0] == "close":
            self.see(*self.joystick.close(self.device))
        elif words[0] == "open":
            self.joystick.start(self.device)
            self.see_calls(self.joystick.calls)
        else:
            self.read_records(number(words[1]))

    def read_records(self, bound: int) -> None:
        while self.handed < bound:
            answer = self.joystick.read(self.device)
            self.see_calls(self.joystick.calls)
            if answer == "end":
                break
            self.handed += isinstance(answer, tuple)
            self.see_record(answer)
        self.handed = 0

    def do_owner(self, words: List[str], _: Streams) -> None:
        at, events = self.device.feedback(number(words[1]))
        if events is None:
            self.stop = f"full {at}"
        else:
            self.see_feedback(at, events)

    def waits_on(self, reply: Reply) -> bool:
        """Whether a follow goes on behind its last call's reply. On one thread it never does."""
        return False

    def part(self) -> List[str]:
        if self.role == "source":
            return [f"source {self.name} calls {self.accepted} stop {self.stop}"]
        ends: List[str] = []
        if self.role != "owner":
            ends = self.picture_lines() if self.role == "joy" else self.view_lines()
        return [f"{self.role} {self.name}"] + self.sight + ends + [f"stop {self.stop}"]

    def picture_lines(self) -> List[str]:
        down = [str(number) for number, value in enumerate(self.joystick.down) if value]
        values = [str(value) for value in self.joystick.values]
        return [" ".join(["buttons"] + down), " ".join(["axes"] + values)]

    def view_lines(self) -> List[str]:
        caps, lines = self.device.caps, []
        for kind, word in ((KEY, "keys"), (SW, "switches"), (LED, "leds")):
            if kind in caps.kinds:
                lines.append(" ".join([word] + [code_text(kind, code) for code in sorted(self.view.on[kind])]))
        codes = sorted(caps.axes)
        if ABS in caps.kinds:
            values = [f"{code_text(ABS, c)}={self.view.axes[c]}" for c in codes if not SLOT <= c <= LAST]
            lines.append(" ".join(["axes"] + values))
        if caps.slots:
            lines.append(f"current {self.view.slot}")
        for slot, cells in enumerate(self.view.cells):
            values = [f"{code_text(ABS, c)}={cells[c - FIRST]}" for c in codes if FIRST <= c <= LAST]
            lines.append(" ".join([f"slot {slot}"] + values))
        return lines


def describe(caps: Caps, words: List[str]) -> None:
    """A line of a device's description."""
    first, *words = words
    if first in ("hint", "log", "slots"):
        setattr(caps, first, number(words[0]))
    elif first == "clock":
        caps.offsets[words[0]] = number(words[1])
    elif first == "type":
        caps.kinds.add(kind_of(words[0]))
    elif first == "cap":
        kind = kind_of(words[0])
        caps.kinds.add(kind)
        caps.codes.setdefault(kind, set()).add(code_of(kind, words[1]))
    elif first == "axis":
        caps.kinds.add(ABS)
        caps.axes[code_of(ABS, words[0])] = tuple(number(word) for word in words[1:])
    elif first == "filter":
        caps.filters.append(filter_of(words))


def filter_of(words: List[str]) -> Tuple[Any, ...]:
    """What a line says behind `filter`."""
    form, *words = words
    if form == "eat":
        kind = kind_of(words[0])
        return (form, kind, code_of(kind, words[1]))
    if form == "bounce":
        return (form, code_of(KEY, words[0]), number(words[1]))
    return (form, *(code_of(KEY, word) for word in words))


def read_stream(path: str, form: str) -> List[Tuple[int, Event]]:
    records = struct.iter_unpack(form, open(path, "rb").read())
    return [(seconds * 1000000 + micros, (kind, code, value)) for seconds, micros, kind, code, value in records]


class Record(NamedTuple):
    """What a record has: its devices' names and descriptions; its actors' names, roles and devices; its actions' words."""

    descriptions: List[Tuple[str, Caps]]
    actors: List[Tuple[str, str, int]]
    actions: List[List[str]]


def read_record(text: str) -> Record:
    descriptions: List[Tuple[str, Caps]] = []
    actors: List[Tuple[str, str, int]] = []
    actions: List[List[str]] = []
    for line in text.split("\n"):
        words = line.split()
        if not words or words[0].startswith("#") or words[0] == "inputrecord":
            continue
        if words[0] in ("device", "udevice"):
            descriptions.append((words[1], Caps()))
        elif words[0] in ("source", "client", "tap", "joy", "owner"):
            actors.append((words[1], words[0], len(descriptions) - 1))
        elif words[0] == "do":
            actions.append(words[1:])
        else:
            describe(descriptions[-1][1], words)
    for _, caps in descriptions:
        caps.build()
    return Record(descriptions, actors, actions)


def streams_of(folder: str) -> Streams:
    return lambda file, form: read_stream(os.path.join(folder, file), form)


# The roles whose parts stand behind all devices, in order.
LATER_ROLES = ("joy", "owner")


def report(devices: Sequence[Device], actors: Sequence[Actor], history: bool) -> List[str]:
    """The lines of the report on devices and, in record order, their actors; behind them all those on joysticks, and
    behind these those on owners."""
    lines = []
    for device in devices:
        lines.append(f"device {device.name} steps {len(device.history)}")
        if history:
            lines += [f"step {place} {step_text(step)}" for place, step in enumerate(device.history)]
        for actor in actors:
            if actor.device is device and actor.role not in LATER_ROLES:
                lines += actor.part()
    for role in LATER_ROLES:
        for actor in actors:
            if actor.role == role:
                lines += actor.part()
    return lines


def device_of(name: str, caps: Caps, ways: Ways) -> Device:
    """A device by the rules, or one with ways of the kernel's."""
    caps.ways = ways
    return Device(name, caps) if ways == RULES else JoydevDevice(name, caps)


def run(text: str, folder: str = ".", ways: Ways = RULES) -> Tuple[List[Device], List[Actor]]:
    """The devices and, in record order, the actors, once all lines are done."""
    record = read_record(text)
    devices = [device_of(name, caps, ways) for name, caps in record.descriptions]
    actors = {name: Actor(name, role, devices[device]) for name, role, device in record.actors}
    for name, *words in record.actions:
        actors[name].do(words, streams_of(folder))
    return devices, list(actors.values())


def play(text: str, folder: str = ".", history: bool = False, ways: Ways = RULES) -> List[str]:
    """The lines of the report. Where uinput refuses a device there are none but that."""
    if ways.refused_devices:
        refused = [name for name, caps in read_record(text).descriptions if is_refused(caps)]
        if refused:
            return [f"device {refused[0]} refused"]
    return report(*run(text, folder, ways), history)
