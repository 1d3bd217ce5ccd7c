"""Devices, their clients and their readers."""

from ctypes import byref, c_int32, c_size_t, c_uint8, c_uint32, c_uint64
from enum import IntEnum
from struct import unpack
from typing import Any, Iterable, Iterator, List, NamedTuple, Optional, Sequence, Set, Tuple, Union

from ._codes import Type, code_pair
from ._description import Description
from ._errors import RefusedDescription, RefusedRecord, Status, StepRefused, Why, check
from ._event import Event, event_of
from ._kept import Kept
from ._library import Info, RawEvent, RawPicture, RawReply, Stamped, Step, bytes_at, library
from ._numbers import fits
from ._queries import Axis, ClientState, Queries, axis_of, check_asked, numbers_on

MOMENT_MAX = 9_000_000_000_000_000
READ_MAX = 4096
CELLS_MAX = 14 * 256
FEEDBACK_MAX = 15
NO_CLIENT = 0xFFFF_FFFF


class Steps(IntEnum):
    """The steps of a device."""

    INJECT = 0
    TICK = 1
    OPEN = 2
    CLOSE = 3
    READ = 4
    DISCARD = 5
    GET_KEYS = 6
    GET_SWITCHES = 7
    GET_LEDS = 8
    GET_SOUNDS = 9
    GET_AXIS = 10
    SET_AXIS = 11
    GET_SLOTS = 12
    SYNC_SLOTS = 13
    WRITE = 14
    GRAB = 15
    UNGRAB = 16
    MASK = 17
    CLOCK = 18
    REVOKE = 19
    INHIBIT = 20
    UNINHIBIT = 21
    END = 22


class Replies(IntEnum):
    """The replies to steps."""

    DONE = 0
    OPENED = 1
    TOOK = 2
    DISCARDED = 3
    BITS = 4
    AXIS = 5
    CELLS = 6
    AGAIN = 7
    REFUSED = 8


class Reply(NamedTuple):
    """A reply to a step, with what was read."""

    reply: Replies
    at: int
    client: int
    count: int  # type: ignore[assignment]
    slot: int
    why: int
    words: List[int]
    axis: Axis
    events: List[Event]
    cells: List[int]


class Answer(IntEnum):
    """What a reader answers, as libevdev_next_event does."""

    EVENT = 0
    DROPPED = 1
    SYNC = 2
    AGAIN = 3
    SYNCED = 4
    NO_DEVICE = 5
    CLOSED = 6
    FULL = 7


class JoyAnswer(IntEnum):
    """What a joystick client answers, as a read of /dev/input/js0 does."""

    RECORD = 0
    FRAME = 1
    AGAIN = 2
    NO_DEVICE = 3
    CLOSED = 4
    FULL = 5
    MORE = 6


class JoyRecord(NamedTuple):
    """What happened to a button (type 1) or an axis (type 2), with 128 added in a startup (struct js_event)."""

    time: int
    value: int
    type: int
    number: int


class Phase(IntEnum):
    """Whether a reader is to synchronise."""

    PLAIN = 0
    NEEDED = 1
    HANDING = 2


class Device(Queries):
    """The device of a record's text that has this number, from 0.

    It may go from thread to thread, and is used by one call at a time: threads that share one take a lock for each call.
    """

    def __init__(self, text: Union[str, bytes], number: int = 0):
        super().__init__()
        content = text.encode() if isinstance(text, str) else text
        line, cause = c_uint32(), c_uint32()
        status = library.inputplay_device_new(
            *bytes_at(content), number, byref(self._handle), byref(line), byref(cause)
        )
        if status == Status.REFUSED:
            raise RefusedRecord(line.value, cause.value)
        check(status)
        self._begin()

    @classmethod
    def of(cls, description: Description) -> "Device":
        """The device that has this description."""
        device, cause = cls.__new__(cls), c_uint32()
        Kept.__init__(device)
        status = library.inputplay_device_of(byref(description.raw()), byref(device._handle), byref(cause))
        if status == Status.REFUSED:
            raise RefusedDescription(cause.value)
        check(status)
        device._begin()
        return device

    def _begin(self) -> None:
        self._events = (RawEvent * READ_MAX)()
        self._cells = (c_int32 * CELLS_MAX)()
        self._now = 0

    def __repr__(self) -> str:
        return f"<Device {'closed' if self.closed else 'open'}>"

    def step(self, step: int, **fields: Any) -> Reply:
        """Makes a step, whose fields are those of the header's inputplay_step_t, with `axis` for its info."""
        axis = fields.pop("axis", None)
        raw, reply = Step(step=step, **fields), RawReply()
        if axis is not None:
            raw.info = Info(*axis)
        check(
            library.inputplay_step(
                byref(self._handle), byref(raw), byref(reply), self._events, READ_MAX, self._cells, CELLS_MAX
            )
        )
        took = reply.count if reply.reply == Replies.TOOK else 0
        given = reply.count if reply.reply == Replies.CELLS else 0
        return Reply(
            Replies(reply.reply),
            reply.at,
            reply.client,
            reply.count,
            reply.slot,
            reply.why,
            list(reply.words),
            axis_of(reply.info),
            [event_of(raw) for raw in self._events[:took]],
            list(self._cells[:given]),
        )

    def must(self, step: int, **fields: Any) -> Reply:
        """Makes a step, and raises where the device refuses it."""
        reply = self.step(step, **fields)
        if reply.reply == Replies.REFUSED:
            raise StepRefused(reply.why, reply.at)
        return reply

    def inject(self, *event: Union[int, str], now: Optional[int] = None) -> int:
        """Injects an event, as `inject("KEY_A", 1)` or `inject("EV_KEY", "KEY_A", 1)`, and gives its place.

        A moment that is not given is the last one.
        """
        return self._enter([event], now)

    def frame(self, *events: Sequence[Union[int, str]], now: Optional[int] = None) -> int:
        """Injects events, each a tuple as for `inject`, and the SYN_REPORT that ends their frame; gives its place."""
        return self._enter([*events, ("SYN_REPORT", 0)], now)

    def _enter(self, events: Sequence[Sequence[Union[int, str]]], now: Optional[int]) -> int:
        """Injects events at one moment, once all are known to be such; gives the place of the last one."""
        moment = fits("now", c_uint64, self._now if now is None else now)
        at, why = c_uint32(), c_uint32()
        for numbers in [numbers_of(*event) for event in events]:
            check(library.inputplay_inject(byref(self._handle), *numbers, moment, byref(at), byref(why)))
            if why.value:
                raise StepRefused(why.value, at.value)
        self._now = moment
        return at.value

    def inject_all(self, events: Iterable[Tuple[int, int, int, int]]) -> int:
        """Injects events, each a tuple of its type, code, value and moment, and gives how many the history had room for."""
        content = [Stamped(*event) for event in events]
        if any(event.now > MOMENT_MAX for event in content):
            check(Status.BAD_ARGUMENT)
        count = c_uint32()
        entered = 0
        for first in range(0, len(content), READ_MAX):
            part = content[first : first + READ_MAX]
            stamps, at = (Stamped * len(part))(*part), c_uint32()
            check(library.inputplay_inject_all(byref(self._handle), stamps, len(part), byref(at), byref(count)))
            entered += count.value
        return entered

    def feedback(self, count: int = FEEDBACK_MAX) -> List[Event]:
        """The first of the events that wait for the device's owner, at most so many (a read of /dev/uinput)."""
        raw, at, taken, full = (RawEvent * FEEDBACK_MAX)(), c_uint32(), c_uint32(), c_uint32()
        room = min(fits("count", c_size_t, count), FEEDBACK_MAX)
        check(
            library.inputplay_feedback(byref(self._handle), raw, room, byref(at), byref(taken), byref(full))
        )
        if full.value:
            raise StepRefused(Why.LOG_FULL, at.value)
        return [event_of(event) for event in raw[: taken.value]]

    def read(self, client: int, count: int = 64) -> List[Event]:
        """At most so many events of a client of this number; none where nothing is there."""
        at, taken, why = c_uint32(), c_uint32(), c_uint32()
        room = min(fits("count", c_size_t, count), READ_MAX)
        raw = (RawEvent * max(room, 1))()
        told = byref(at), byref(taken), byref(why)
        check(library.inputplay_read(byref(self._handle), client, raw, room, *told))
        if why.value:
            raise StepRefused(why.value, at.value)
        return [event_of(event) for event in raw[: taken.value]]

    def history(self, first: int = 0) -> List[Step]:
        """The steps that the device accepted, from this place on, each with the fields of inputplay_step_t."""
        left = c_size_t()
        check(library.inputplay_history(byref(self._handle), first, (Step * 1)(), 0, byref(left)))
        steps = (Step * max(left.value, 1))()
        check(library.inputplay_history(byref(self._handle), first, steps, left.value, byref(left)))
        return list(steps[: left.value])

    def joystick(self) -> "Joystick":
        """Starts the device's joystick client, as the kernel's joydev is one."""
        return Joystick(self)

    def open(self) -> "Client":
        """Opens a client, as a program opens the device's file."""
        return Client(self, self.must(Steps.OPEN).client)

    def reader(self) -> "Reader":
        """Starts the device's reader, which keeps a state as libevdev does."""
        return Reader(self)


def numbers_of(*event: Any) -> Tuple[int, int, int]:
    """The type, the code and the value of an event that is told as for `Device.inject`."""
    *names, value = event
    kind, code = code_pair(names[0], names[1] if len(names) > 1 else None)
    return kind, code, fits("value", c_int32, value)


class Client:
    """A client of a device: what a program has that opened its file."""

    def __init__(self, device: Device, number: int):
        self.device, self.number = device, number

    def __repr__(self) -> str:
        return f"<Client {self.number}>"

    def read(self, count: int = 64) -> List[Event]:
        """At most so many events; none where nothing is there."""
        return self.device.read(self.number, count)

    @property
    def visible(self) -> int:
        """How many events it could read now."""
        return self.device.visible(self.number)

    @property
    def state(self) -> ClientState:
        """Its clock, whether it was revoked, and whether it holds the grab."""
        return self.device.client_state(self.number)

    def mask(self, kind: Union[int, str], word: int = 0) -> int:
        """A word of its mask of a type, as `Device.mask` has it."""
        return self.device.mask(self.number, kind, word)

    def _codes(self, step: int) -> Set[int]:
        return numbers_on(self.device.must(step, client=self.number).words)

    def keys(self) -> Set[int]:
        """The keys that are down (EVIOCGKEY). The queued key events go."""
        return self._codes(Steps.GET_KEYS)

    def leds(self) -> Set[int]:
        """The LEDs that are on (EVIOCGLED)."""
        return self._codes(Steps.GET_LEDS)

    def switches(self) -> Set[int]:
        """The switches that are on (EVIOCGSW)."""
        return self._codes(Steps.GET_SWITCHES)

    def axis(self, code: Union[int, str]) -> Axis:
        """An axis (EVIOCGABS)."""
        _kind, number = code_pair("EV_ABS", code)
        return self.device.must(Steps.GET_AXIS, client=self.number, code=number).axis

    def grab(self) -> None:
        """Takes the device for itself."""
        self.device.must(Steps.GRAB, client=self.number)

    def ungrab(self) -> None:
        """Gives up its grab."""
        self.device.must(Steps.UNGRAB, client=self.number)

    def revoke(self) -> None:
        """Loses the device for good, but for closing it."""
        self.device.must(Steps.REVOKE, client=self.number)

    def close(self) -> None:
        """Closes the client."""
        self.device.must(Steps.CLOSE, client=self.number)


class Reader:
    """The reader of a device: its events one by one, and a state that it keeps by them, as libevdev does.

    To go over it gives the events that are there. Behind a SYN_DROPPED it synchronises, and gives the events that lead
    from the old state to the new one.
    """

    def __init__(self, device: Device):
        self.device = device
        client, why = c_uint32(), c_uint32()
        check(library.inputplay_reader_start(byref(device._handle), byref(client), byref(why)))
        if why.value:
            raise StepRefused(why.value, 0)
        self.client = client.value

    def __repr__(self) -> str:
        return f"<Reader of client {self.client}>"

    def next(self, sync: bool = False) -> Tuple[Answer, Optional[Event]]:
        """The answer and the event of one call (libevdev_next_event); None where the answer has no event."""
        raw, told = RawEvent(), c_uint32()
        check(library.inputplay_reader_next(byref(self.device._handle), int(sync), byref(raw), byref(told)))
        answer = Answer(told.value)
        return answer, event_of(raw) if answer <= Answer.SYNC else None

    def __iter__(self) -> Iterator[Event]:
        sync = self.phase != Phase.PLAIN
        while True:
            answer, event = self.next(sync)
            if event is not None:
                yield event
                sync = answer in (Answer.DROPPED, Answer.SYNC)
            elif answer == Answer.SYNCED:
                sync = False
            elif answer == Answer.AGAIN:
                return
            else:
                raise EOFError(answer.name.lower().replace("_", "-"))

    def calls(self) -> List[Steps]:
        """The calls on the device that its start or its last `next` made, in order, those answered Again left out."""
        made: List[Steps] = []
        while True:
            step, reply = Step(), RawReply()
            status = library.inputplay_reader_call(byref(self.device._handle), len(made), byref(step), byref(reply))
            if status == Status.BAD_ARGUMENT:
                return made
            check(status)
            made.append(Steps(step.step))

    def force_sync(self) -> None:
        """Synchronises before the next event."""
        check(library.inputplay_reader_force_sync(byref(self.device._handle)))

    def value(self, kind: Union[int, str], code: Union[int, str, None] = None) -> int:
        """What the reader knows of a key, a switch, an LED or an axis, as `value("KEY_A")`."""
        number, value = code_pair(kind, code), c_int32()
        status = library.inputplay_reader_value(byref(self.device._handle), *number, byref(value))
        check_asked(status, *((kind,) if code is None else (kind, code)))
        return value.value

    def __getitem__(self, name: Union[int, str]) -> int:
        return self.value(name)

    def slot_value(self, slot: int, code: Union[int, str]) -> int:
        """What the reader knows of a slot on an axis."""
        _kind, number = code_pair(Type.EV_ABS, code)
        value = c_int32()
        status = library.inputplay_reader_slot_value(byref(self.device._handle), slot, number, byref(value))
        check_asked(status, slot, code)
        return value.value

    def _state(self) -> Tuple[int, Phase, int]:
        client, phase, slot = c_uint32(), c_uint32(), c_int32()
        check(
            library.inputplay_reader_state(
                byref(self.device._handle), byref(client), byref(phase), byref(slot)
            )
        )
        return client.value, Phase(phase.value), slot.value

    @property
    def phase(self) -> Phase:
        """Whether it is to synchronise."""
        return self._state()[1]

    @property
    def slot(self) -> int:
        """The current slot."""
        return self._state()[2]


class Joystick:
    """The joystick client of a device: numbered buttons and axes, as the kernel's joydev hands them out."""

    def __init__(self, device: Device):
        self.device = device
        client, why = c_uint32(), c_uint32()
        check(library.inputplay_joy_start(byref(device._handle), byref(client), byref(why)))
        if why.value:
            raise StepRefused(why.value, 0)
        self.client = client.value

    def __repr__(self) -> str:
        return f"<Joystick of client {self.client}>"

    def read(self) -> Tuple[JoyAnswer, Optional[JoyRecord], int]:
        """The answer of one read, its record, if there is one, and the place where a frame ended, or 0."""
        raw, told, place = (c_uint8 * 8)(), c_uint32(), c_uint32()
        check(library.inputplay_joy_read(byref(self.device._handle), raw, byref(told), byref(place)))
        answer = JoyAnswer(told.value)
        return answer, JoyRecord(*unpack("<IhBB", raw)) if answer == JoyAnswer.RECORD else None, place.value

    def __iter__(self) -> Iterator[JoyRecord]:
        while True:
            answer, record, _place = self.read()
            if record is not None:
                yield record
            elif answer == JoyAnswer.AGAIN:
                return
            elif answer not in (JoyAnswer.FRAME, JoyAnswer.MORE):
                raise EOFError(answer.name.lower().replace("_", "-"))

    def _picture(self) -> RawPicture:
        raw = RawPicture()
        check(library.inputplay_joy_picture(byref(self.device._handle), byref(raw)))
        return raw

    @property
    def buttons(self) -> Set[int]:
        """The numbers of the buttons that are down."""
        buttons = self._picture().buttons
        return {number for number in range(64) if buttons >> number & 1}

    @property
    def axes(self) -> List[int]:
        """The values of the axes, by their numbers; those that the device does not have are 0."""
        return list(self._picture().axes)
