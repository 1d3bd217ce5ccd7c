"""Whole records."""

from ctypes import byref, c_size_t, c_uint8, c_uint32
from enum import IntEnum
from pathlib import Path
from typing import Any, Dict, List, NamedTuple, Optional, Tuple, Union

from ._device import Device
from ._errors import RefusedRecord, Status, check
from ._kept import Kept
from ._library import RawCounts, RawLine, Stamped, Step, bytes_at, library
from ._queries import check_asked

NAME_MAX = 32
NO_STEP = 0xFFFF_FFFF


class Role(IntEnum):
    """The roles of actors."""

    SOURCE = 0
    CLIENT = 1
    TAP = 2
    JOYSTICK = 3
    OWNER = 4


class Command(IntEnum):
    """The commands of action lines."""

    EVENT = 0
    TICK = 1
    INHIBIT = 2
    UNINHIBIT = 3
    STREAM = 4
    STREAM16 = 5
    OPEN = 6
    CLOSE = 7
    GRAB = 8
    UNGRAB = 9
    REVOKE = 10
    MASK = 11
    CLOCK = 12
    WRITE = 13
    SET_AXIS = 14
    READ = 15
    DISCARD = 16
    KEYS = 17
    SWITCHES = 18
    LEDS = 19
    SOUNDS = 20
    SYNC_SLOTS = 21
    AXIS = 22
    SLOTS = 23
    NEXT = 24
    SKIP = 25
    FOLLOW = 26
    FORCE = 27
    FEEDBACK = 28


class Actor(NamedTuple):
    """An actor: its name, its role, and the number of its device."""

    name: str
    role: Role
    device: int


class Line(NamedTuple):
    """An action line: the number of its actor, its command, the number behind the command, 0 for those that have none, and the
    step that it makes, where it makes one: with client 0, as the record does not know of clients' numbers."""

    actor: int
    command: Command
    count: int  # type: ignore[assignment]
    step: Optional[Step]


class Record(Kept):
    """A record, of its text."""

    def __init__(self, text: Union[str, bytes]):
        super().__init__()
        self.text = text.encode() if isinstance(text, str) else bytes(text)
        self._make()

    @classmethod
    def from_file(cls, path: Union[str, Path]) -> "Record":
        """The record in a file, with the streams that lie beside it."""
        path = Path(path)
        record = cls(path.read_bytes())
        for line, name in record.streams().items():
            record.load(line, (path.parent / name).read_bytes())
        return record

    def _make(self) -> None:
        line, cause = c_uint32(), c_uint32()
        status = library.inputplay_record_new(
            *bytes_at(self.text), byref(self._handle), byref(line), byref(cause)
        )
        if status == Status.REFUSED:
            raise RefusedRecord(line.value, cause.value)
        check(status)

    def __repr__(self) -> str:
        return f"<Record of {len(self.text)} bytes>"

    def streams(self) -> Dict[int, str]:
        """The file that each stream line names, by the number of the action line, from 0."""
        names = {line: self._file(line) for line in range(self._counts().lines)}
        return {line: name for line, name in names.items() if name is not None}

    def _counts(self) -> RawCounts:
        raw = RawCounts()
        check(library.inputplay_record_counts(byref(self._handle), byref(raw)))
        return raw

    @property
    def devices(self) -> List[str]:
        """The names of its devices, by their numbers."""
        return [self._name(library.inputplay_record_device, number) for number in range(self._counts().devices)]

    @property
    def actors(self) -> List[Actor]:
        """Its actors, by their numbers, over all devices."""
        role, device = c_uint32(), c_uint32()
        actors = []
        for number in range(self._counts().actors):
            name = self._name(library.inputplay_record_actor, number, byref(role), byref(device))
            actors.append(Actor(name, Role(role.value), device.value))
        return actors

    def _name(self, function: Any, number: int, *more: Any) -> str:
        """The name that a call copies."""
        out, size = (c_uint8 * NAME_MAX)(), c_size_t()
        check(function(byref(self._handle), number, *more, out, NAME_MAX, byref(size)))
        return bytes(out[: size.value]).decode()

    @property
    def lines(self) -> List[Line]:
        """Its action lines, in order."""
        return [self.line(number) for number in range(self._counts().lines)]

    def line(self, number: int) -> Line:
        """The action line of this number, from 0."""
        raw = RawLine()
        check_asked(library.inputplay_record_line(byref(self._handle), number, byref(raw)), number)
        step = raw.step if raw.step.step != NO_STEP else None
        return Line(raw.actor, Command(raw.command), raw.count, step)

    def events(self, line: int) -> List[Tuple[int, int, int, int]]:
        """The events of a stream line that was given its bytes, each a tuple of its type, code, value and moment, as
        `Device.inject_all` takes them."""
        left = c_size_t()
        check_asked(library.inputplay_record_events(byref(self._handle), line, 0, (Stamped * 1)(), 0, byref(left)), line)
        raw = (Stamped * max(left.value, 1))()
        check(library.inputplay_record_events(byref(self._handle), line, 0, raw, left.value, byref(left)))
        return [(event.type, event.code, event.value, event.now) for event in raw[: left.value]]

    def _file(self, line: int) -> Union[str, None]:
        """The file that an action line names, if it takes a stream."""
        size, room = c_size_t(), 0
        while True:
            out = (c_uint8 * max(room, 1))()
            status = library.inputplay_record_file(byref(self._handle), line, out, room, byref(size))
            if status == Status.BAD_ARGUMENT:
                return None
            check(status)
            if size.value <= room:
                return bytes(out[:size.value]).decode()
            room = size.value

    def load(self, line: int, content: bytes) -> None:
        """Gives an action line, from 0, the bytes of its stream."""
        check(library.inputplay_record_load(byref(self._handle), line, *bytes_at(content)))

    def device(self, number: int = 0) -> Device:
        """The device of this number, from 0, with an empty history."""
        return Device(self.text, number)

    def play(self, history: bool = False) -> str:
        """The report of the record, which is played on this thread; with the steps of each device where they are wanted.

        The record stays, and may be played again. A stream line that was given no bytes has no events.
        """
        size = c_size_t()
        check(library.inputplay_record_play(byref(self._handle), bool(history), byref(size)))
        return self._made_text(size.value)

    def migrate(self) -> str:
        """The record's text in the newest version. The record stays."""
        size = c_size_t()
        check(library.inputplay_record_migrate(byref(self._handle), byref(size)))
        return self._made_text(size.value)

    def _made_text(self, size: int) -> str:
        """The text that was made of the record last."""
        out, left = (c_uint8 * max(size, 1))(), c_size_t()
        check(library.inputplay_record_text(byref(self._handle), 0, out, size, byref(left)))
        return bytes(out)[:size].decode()
