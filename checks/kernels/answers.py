"""What the player in the machine said of a record, as a report of the same form as the program's."""

from __future__ import annotations

import errno
from dataclasses import dataclass
from typing import Any, Dict, Iterable, Iterator, List, Optional, Tuple

from second.device import Caps, FIRST, LAST
from second.model import Actor, read_record, report, streams_of
from second.names import KEY, LED, SND, SW, event_text
from second.reader import View
from second.values import Answer, Event, Fed, Item, Reply, Step, Streams
from checks.kernels.lines import is_live

# What stands for a place, or for the number of a client.
ANY: Any = "*"
# A record that is not played in real time begins so long before the present time of the machine.
BEFORE = 8000000
LIVE = "live"
BITS = {"getkeys": KEY, "getswitches": SW, "getleds": LED, "getsounds": SND}
CAUSES = {
    errno.EINVAL: "invalid", errno.ENODEV: "no-device", errno.EBUSY: "busy", errno.EBADF: "bad-client",
    errno.ENOTTY: "bad-client", errno.ENXIO: "no-node",
}


class NotPlayed(Exception):
    """The player did not come to the end of a record."""


@dataclass(frozen=True)
class Said:
    """What was said of one step: lines of numbers, and the line that ends them."""

    lines: List[List[str]]
    status: int
    rest: List[str]

    @property
    def numbers(self) -> List[int]:
        return [int(word) for word in self.rest]

    def refusal(self) -> Optional[Reply]:
        if self.status == errno.EAGAIN:
            return ("again", ANY)
        return ("refused", ANY, CAUSES.get(self.status, str(self.status))) if self.status else None


class Machine:
    """The answers of the machine, one after another."""

    def __init__(self, lines: Iterable[str], is_live_record: bool) -> None:
        self.lines = iter(lines)
        self.is_live, self.base, self.ahead = is_live_record, 0, 0
        # (of the client that does a step)
        self.clock = "realtime"

    def next(self) -> Said:
        lines: List[List[str]] = []
        for line in self.lines:
            words = line.split()
            if words[:1] == ["base"]:
                self.base, self.ahead = int(words[1]), int(words[2])
            elif words[:1] == ["="]:
                return Said(lines, int(words[1]), words[2:])
            else:
                lines.append(words)
        raise NotPlayed(" ".join(lines[-1]) if lines else "it ended before")

    def time_of(self, told: int, caps: Caps) -> Any:
        """A time as the record counts it, or that it is of the machine's own clock."""
        time, clock = told - self.base, self.clock if self.clock != "realtime" else "monotonic"
        if abs(time) > abs(time - self.ahead):
            time, clock = time - self.ahead, "realtime"
        return time + caps.offsets[clock] if self.is_live or -1000 < time < BEFORE else LIVE


class AnsweringDevice:
    """In the place of a device: it answers what the machine said."""

    def __init__(self, name: str, caps: Caps, machine: Machine) -> None:
        self.name, self.caps, self.machine = name, caps, machine
        self.history: List[Step] = []

    def events(self, said: Said) -> List[Item]:
        times = (self.machine.time_of(int(line[0]), self.caps) for line in said.lines)
        return [(event_of(line[1:]), time, ANY) for line, time in zip(said.lines, times)]

    def step(self, step: Step) -> Answer:
        said, op = self.machine.next(), step[0]
        refusal = said.refusal()
        if refusal:
            return refusal, None
        if op == "open":
            return ("opened", ANY, ANY, ANY), None
        if op == "read":
            taken = self.events(said)
            return ("took", ANY, len(taken)), taken
        if op == "discard":
            return ("discarded", ANY, *said.numbers), None
        if op in BITS:
            return ("bits", ANY, BITS[op], said.numbers), None
        if op == "getaxis":
            return ("axis", ANY, *said.numbers), None
        if op in ("getslots", "syncslots"):
            slot, *cells = said.numbers
            return ("cells", ANY, len(cells), slot), cells
        return ("done", ANY), None

    def feedback(self, _: int) -> Fed:
        return ANY, [event for event, _, _ in self.events(self.machine.next())]


def event_of(words: List[str]) -> Event:
    kind, code, value = map(int, words)
    return (kind, code, value)


def view_of(caps: Caps, words: List[str]) -> View:
    """What a reader says that it believes: keys, switches, LEDs, axes, the slot, and the slots' values."""
    keys, switches, leds, axes, slot, cells = (part.split() for part in " ".join(words).split(";"))
    view, width = View(caps), LAST - FIRST + 1
    for kind, codes in ((KEY, keys), (SW, switches), (LED, leds)):
        view.on[kind] = set(map(int, codes))
    view.axes, view.slot = list(map(int, axes)), int(slot[0])
    values = list(map(int, cells))
    view.cells = [values[at : at + width] for at in range(0, len(values), width)]
    return view


class MachineActor(Actor):
    """An actor whose steps the machine did."""

    clock = "realtime"

    def do(self, words: List[str], streams: Streams) -> None:
        if words[0] in ("open", "clock"):
            self.clock = (words[1:] or ["realtime"])[0]
        self.device.machine.clock = self.clock
        super().do(words, streams)

    def do_client(self, words: List[str], _: Streams) -> None:
        step: Optional[Step] = ("open",) if words[0] == "open" else self.single_step(ANY, words)
        if step:
            self.see(step, self.device.step(step)[0])
            return
        said = self.device.machine.next()
        for line in said.lines:
            if line[0] == "m":
                self.sight.append(f"made {event_text(event_of(line[1:]))}")
            else:
                time = self.device.machine.time_of(int(line[0]), self.device.caps)
                self.see_taken((event_of(line[1:]), time, ANY))
        if words[0] != "force":
            self.see_end(said)

    def see_end(self, said: Said) -> None:
        refusal = said.refusal()
        if refusal:
            self.see(("read", ANY, ANY), refusal)

    def do_joy(self, words: List[str], _: Streams) -> None:
        if words[0] != "read":
            step = ("open",) if words[0] == "open" else ("close", ANY)
            self.see(step, self.device.step(step)[0])
            return
        said = self.device.machine.next()
        for line in said.lines:
            self.sight.append(" ".join(["js", ANY, *line[1:]]))
        self.see_end(said)

    def ask_view(self) -> None:
        said = self.device.machine.next()
        self.view = View(self.device.caps) if said.status else view_of(self.device.caps, said.rest)


def report_of(text: str, said: Iterable[str], folder: str = ".") -> List[str]:
    """The report on a record by what the machine said of it; NotPlayed where it did not say all."""
    record, lines = read_record(text), list(said)
    refused = [line.split()[1] for line in lines if line.startswith("refused ")]
    if refused:
        return [f"device {record.descriptions[int(refused[0])][0]} refused"]
    machine = Machine(lines, is_live(text))
    devices = [AnsweringDevice(name, caps, machine) for name, caps in record.descriptions]
    actors: Dict[str, MachineActor] = {}
    for name, role, device in record.actors:
        actors[name] = MachineActor(name, role, devices[device])
    for name, *words in record.actions:
        actors[name].do(words, streams_of(folder))
    for each in devices:
        for actor in actors.values():
            if actor.device is each and actor.role == "client":
                actor.ask_view()
    shown: Any = devices
    return report(shown, list(actors.values()), history=False)


def parts_of(text: str) -> Iterator[Tuple[str, List[str]]]:
    """The names of the records that were played to their end, and what was said of each."""
    name = ""
    lines: List[str] = []
    for line in text.splitlines():
        word, _, rest = line.partition(" ")
        if word == "record":
            name, lines = rest, []
        elif word == "ended" and name:
            yield name, lines + ([] if rest == "0" else [f"the player ended with {rest}"])
            name = ""
        else:
            lines.append(line)
