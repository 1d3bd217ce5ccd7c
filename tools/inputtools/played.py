"""A record that was played with its history, and all that is said of it: the state of each device, what
each client believed of it, and where both differ. `tools/stuck` prints this, and `tools/draw` draws it."""

import itertools
import os
import tempfile
from functools import cached_property
from typing import Dict, List, NamedTuple, Optional, Sequence, Union

from inputtools import devicestate
from inputtools.causes import Causes
from inputtools.command import Wrong
from inputtools.devicestate import SOURCE_STEPS, DeviceState
from inputtools.divergences import Divergence, Walk
from inputtools.joysticks import JoyWalk
from inputtools.owners import Owner
from inputtools.program import PLAYED, Player
from inputtools.progress import progress
from inputtools.record import Line, Record, lines_of
from inputtools.refusal_hints import refusal_text
from inputtools.report import Call, Device, Entry, Part, Report, Took, entry_of
from inputtools.source import Given, read_text
from inputtools.wall import wall

# The command by which an actor reads all that is queued.
READS = {"client": "follow", "tap": "read 4096", "joy": "read 100000"}


class Unread:
    """What clients would lose if they read on at the end: the record is played again with such lines after
    it."""

    def __init__(self, text: str, record: Record, folder: str, player: Player, report: Report) -> None:
        self.text, self.record, self.folder, self.player, self.report = text, record, folder, player, report

    def losses(self, name: str) -> List[Optional[int]]:
        """The places of the losses that an actor would read of at the end; None for one whose place is not
        told, as to a joystick, which then synchronises."""
        behind = self.parts.get(name, [])
        if self.report.parts[name].role == "joy":
            return [None for entry in behind if isinstance(entry, Call) and entry.step.name == "discard"]
        return [entry.place for entry in behind if isinstance(entry, Took) and entry.event.is_loss]

    @cached_property
    def parts(self) -> Dict[str, List[Entry]]:
        """What each actor that reads would see at the end, behind what it saw."""
        readers = [actor for actor in self.record.actors.values() if actor.role in READS]
        lines = ["", "# All that is queued is read."]
        lines += [f"do {actor.name} {READS[actor.role]}" for actor in readers]
        with tempfile.TemporaryDirectory() as folder:
            path = os.path.join(folder, "unread.rec")
            with open(path, "w", encoding="latin-1", newline="") as file:
                file.write(self.text + "\n".join(lines) + "\n")
            status, written = self.player.play(path, self.folder, what="what waits unread is asked for")
        rows = written.split("\n") if status in PLAYED else []
        heads = {f"{actor.role} {actor.name}": self.report.parts[actor.name] for actor in readers}
        parts = ((heads[row], at) for at, row in enumerate(rows, 1) if row in heads)
        return {part.name: entries_behind(part, rows, at) for part, at in parts}


def entries_behind(part: Part, rows: Sequence[str], first: int) -> List[Entry]:
    """What an actor has in another report's lines, from one of them on, behind what it saw in its part."""
    behind = itertools.islice(rows, first + len(part.sight), None)
    return [entry_of(0, row) for row in itertools.takewhile(lambda row: not row.startswith("stop "), behind)]


class Client:
    """A client, tap or joystick: what it saw, where it parted from its device and met it again, and where it
    differs at the end."""

    def __init__(self, walk: Walk) -> None:
        self.name, self.role, self.part, self.walk = walk.part.name, walk.part.role, walk.part, walk
        self.at_end: List[Divergence] = walk.run()
        self.divergences = walk.divergences


Reader = Union[Client, Owner]


class Made(NamedTuple):
    """A step that a source made: its place, and the source's name."""

    place: int
    source: str


def steps_of_action(line: Line, folder: str) -> int:
    """How many steps a source's action makes: one for each event of a stream, else one."""
    stream = line.stream
    return 1 if stream is None else os.path.getsize(os.path.join(folder, stream.file)) // stream.size


class PlayedDevice:
    """A device: its description, what was reported of it, its state, its clients' handles, its clients and
    taps, its joysticks, and its owners, of which there is one at most."""

    def __init__(self, report: Device, state: DeviceState, unread: Unread) -> None:
        self.name, self.report, self.state, self.unread = report.name, report, state, unread
        self.handles = state.handles
        causes = Causes(state, report, unread.losses)
        self.clients = [Client(Walk(part, state, causes.cause_of)) for part in report.readers()]
        self.joysticks = [Client(JoyWalk(part, state, causes.cause_of)) for part in report.joysticks]
        self.owners = [Owner(part, state) for part in report.owners]

    def readers(self) -> List[Reader]:
        """All who may part from the device."""
        return [*self.clients, *self.joysticks, *self.owners]

    @property
    def source_steps(self) -> List[Made]:
        """The steps that its sources made."""
        sources = {part.name for part in self.report.parts if part.role == "source"}
        lines = (line for line in self.unread.record.actions if line.actor in sources)
        names = [line.actor for line in lines for _ in range(steps_of_action(line, self.unread.folder))]
        places = (place for place in self.state.places if self.state.history[place].name in SOURCE_STEPS)
        return [Made(*each) for each in zip(places, names)]


def add_parts_behind(report: Report, record: Record) -> None:
    """Puts the parts of joysticks and owners to their devices."""
    for part in report.parts.values():
        device = report.devices[record.actors[part.name].device]
        {"joy": device.joysticks, "owner": device.owners}.get(part.role, []).append(part)


def check_streams(name: str, text: str, folder: str) -> None:
    """Refuses streams that are too long at once, and not once they were played."""
    streams = [line.stream for line in lines_of(text) if line.stream]
    try:
        events = [event for stream in streams for event in stream.events(folder)]
    except Wrong:
        # (who plays them says what is wrong with them)
        return
    try:
        devicestate.check_length(events)
    except Wrong as wrong:
        raise Wrong(f"{name}: {wrong}") from None


def play(given: Given, player: Player) -> List[PlayedDevice]:
    """Plays a record and asks for its devices' states; the played devices."""
    text, folder = read_text(given.path), given.folder
    check_streams(given.name, text, folder)
    wall.begin(given.name, text)
    status, written = player.play(given.path, folder, ["--history"])
    if status not in PLAYED:
        raise Wrong(f"{given.name}: {refusal_text(text, written, status, folder)}")
    return played(given.name, text, folder, player, written)


def cut_of(devices: Sequence[PlayedDevice]) -> Optional[Part]:
    """The first actor that stopped since a history was full, or None."""
    return next((part for device in devices for part in device.report.all_parts() if part.end.is_full), None)


def played(name: str, text: str, folder: str, player: Player, written: str,
           is_threaded: bool = False) -> List[PlayedDevice]:
    """The played devices of a record, by the report that was written of it."""
    record, report = Record(text), Report(written)
    add_parts_behind(report, record)
    histories = [device.history for device in report.devices]
    states = [DeviceState(*each) for each in zip(record.devices, histories)]
    progress.tell(f"{name}: the devices are played alone, {sum(map(len, histories))} steps")
    devicestate.ask(states, player)
    unread = Unread(text, record, folder, player, report)
    if is_threaded:
        # (another play would go another way)
        unread.parts = {}
    return [PlayedDevice(device, state, unread) for device, state in zip(report.devices, states)]
