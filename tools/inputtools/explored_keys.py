"""The key of a state: two states with one key go on alike, but for places and times.

What follows from the fields is left out. How many lines an actor has done says which masks, which clock
and which revocations its client has, how many feedback calls an owner made, and which sources are done.
The slot that was announced last is that of the open frame, else that of the last one. What a joystick's
records told is what its reader knows, but for the startup that it has not handed out. What was sent to
a device matters to its owner alone, and the autorepeat's timer where a tick is to come. For each field
there is a record on which leaving it out gives other numbers (`tests/test_explore_key.py`).
"""

from __future__ import annotations

from typing import Any, Dict, FrozenSet, List, NamedTuple, Optional, Tuple

from inputtools.explored_state import FINISHED, ActorState, Answer, ExploredDevice, Mark, copy_of_view
from second.device import DROPPED, Filter
from second.joystick import Joystick
from second.names import KEY, LED, SW, SYN
from second.reader import Reader, View

Events = Tuple[Any, ...]


class CoreKey(NamedTuple):
    """What a device is, whoever has opened it."""

    keys: FrozenSet[int]
    switches: FrozenSet[int]
    leds: FrozenSet[int]
    axes: Tuple[int, ...]
    fuzz: Tuple[int, ...]
    cells: Tuple[Tuple[int, ...], ...]
    staged: int
    at_frame: int
    batch: Events
    inhibited: bool
    repeat: Tuple[int, ...]
    filters: Tuple[Events, ...]
    waiting: Events
    sent: Events


class DeviceKey(NamedTuple):
    """A device: the number of its core's key, who holds the grab, the timer of the autorepeat, and,
    where a limit may be met, how many clients are open and how many steps there were."""

    core: int
    holder: Optional[int]
    due: Optional[int]
    repeat_key: Optional[int]
    open: int
    steps: int


class ViewKey(NamedTuple):
    """What a client or a tap knows."""

    keys: FrozenSet[int]
    leds: FrozenSet[int]
    switches: FrozenSet[int]
    axes: Tuple[int, ...]
    slot: int
    cells: Tuple[Tuple[int, ...], ...]


class ReaderKey(NamedTuple):
    """A reader: where it stands, what it knows, the events that it has read and not handed out, and
    those that it made."""

    phase: str
    view: ViewKey
    read: Events
    made: Events


class JoystickKey(NamedTuple):
    """A joystick: its reader, and the records of its startup that it has not handed out."""

    reader: ReaderKey
    startup: Tuple[Any, ...]


class ActorKey(NamedTuple):
    """An actor: its client and what waits for it, what it knows, whether it stopped, and how far a line
    is that goes on call by call."""

    client: int
    queue: Optional[Events]
    knows: Any
    is_stopped: bool
    losses: int
    handed: int
    is_begun: bool
    told: Tuple[Any, ...]


class StateKey(NamedTuple):
    """A state: how far each actor is, what was met on the way, the device, and the numbers of the
    actors' keys."""

    positions: Tuple[int, ...]
    marks: FrozenSet[Mark]
    device: DeviceKey
    actors: Tuple[int, ...]
    last: Optional[int]
    preemptions: int


class Numbers:
    """Numbers keys, equal ones alike: a key of many parts is hashed and kept once."""

    def __init__(self) -> None:
        self.numbers: Dict[Any, int] = {}

    def of(self, key: Any) -> int:
        return self.numbers.setdefault(key, len(self.numbers))


class Limits(NamedTuple):
    """What a key needs beside what always matters."""

    counts_steps: bool
    counts_open: bool
    has_owner: bool
    has_tick: bool


# Devices


def events_of(queue: List[Any]) -> Events:
    """The events of a queue, without their times and places."""
    return tuple([item[0] for item in queue])


def filter_key(each: Filter) -> Events:
    """What a filter needs of the past: a chord and a bounce the events on their keys."""
    if each.form in ("eat", "norepeat"):
        return ()
    keys = each.words[: 2 if each.form == "chord" else 1]
    return tuple(item for item in each.given if item[0][0] == KEY and item[0][1] in keys)


def core_key(device: ExploredDevice, has_owner: bool) -> CoreKey:
    on, outputs = device.on, device.outputs
    return CoreKey(
        frozenset(on[KEY]), frozenset(on[SW]), frozenset(on[LED]), tuple(device.axes.values()),
        tuple([info[3] for info in device.infos.values()]), tuple(map(tuple, device.cells)),
        device.staged, device.at_frame, tuple(device.batch), device.inhibited, tuple(device.repeat),
        tuple(map(filter_key, device.filters)), tuple(outputs.waiting) if has_owner else (),
        tuple(sorted(outputs.last.items())) if has_owner else (),
    )


def device_key(device: ExploredDevice, limits: Limits, numbers: Numbers) -> DeviceKey:
    if device.core_number is None:
        device.core_number = numbers.of(core_key(device, limits.has_owner))
    has_tick = limits.has_tick
    return DeviceKey(
        device.core_number, device.holder, device.due if has_tick else None,
        device.repeat_key if has_tick and device.due is not None else None,
        len(device.clients) if limits.counts_open else 0, len(device.history) if limits.counts_steps else 0,
    )


# Actors


def view_key(view: View) -> ViewKey:
    on = view.on
    return ViewKey(
        frozenset(on[KEY]), frozenset(on[LED]), frozenset(on[SW]), tuple(view.axes), view.slot,
        tuple(map(tuple, view.cells)),
    )


def reader_key(reader: Reader) -> ReaderKey:
    return ReaderKey(reader.phase, view_key(reader.view), events_of(reader.queue), tuple(reader.synthesised))


def joystick_key(joystick: Joystick) -> JoystickKey:
    return JoystickKey(reader_key(joystick.reader), tuple(joystick.startup))


def told_key(told: Tuple[Answer, ...]) -> Tuple[Any, ...]:
    """The answers to the calls of a line, without their places."""
    rows = []
    for reply, written in told:
        events = events_of(written) if reply[0] == "took" else tuple(written or ())
        rows.append((reply[0], *(str(word) for word in reply[2:]), events))
    return tuple(rows)


def knowledge_key(actor: ActorState) -> Any:
    if actor.is_bystander or actor.role == "source":
        return None
    if actor.role == "client":
        return reader_key(actor.reader)
    if actor.role == "tap":
        return view_key(actor.view)
    if actor.role == "joy":
        return joystick_key(actor.joystick)
    return tuple(sorted(actor.heard.items()))


def actor_key(actor: ActorState, device: ExploredDevice) -> ActorKey:
    number = actor.present_client()
    client = device.clients.get(number)
    queue = None if client is None else events_of(client.queue)
    state = actor.losses, actor.handed, actor.is_begun, told_key(actor.told)
    return ActorKey(number, queue, knowledge_key(actor), actor.stop != FINISHED, *state)


# Folding


def is_alike_when_read(actor: ActorState, device: ExploredDevice) -> bool:
    """Is it the same when this actor reads what waits for it, as far as it is itself concerned? Where
    it is to synchronise, or SYN_DROPPED waits, it is not."""
    if actor.is_bystander or actor.role not in ("client", "tap"):
        return False
    if actor.told or actor.handed or actor.stop != FINISHED:
        return False
    if actor.role == "client" and actor.reader.phase != "plain":
        return False
    client = device.clients.get(actor.present_client())
    return client is None or not client.queue or client.queue[0][0][:2] != (SYN, DROPPED)


def folded_key(actor: ActorState, device: ExploredDevice) -> ActorKey:
    """The key of an actor that will read all that waits, whenever it does: with what it knows then."""
    client = device.clients.get(actor.present_client())
    items = list(actor.reader.queue) if actor.role == "client" else []
    if client is not None and not client.revoked:
        items += client.queue
    view = copy_of_view(actor.belief())
    for item in items:
        view.take(item[0])
    is_open = None if client is None else ()
    return ActorKey(actor.present_client(), is_open, view_key(view), False, actor.losses, 0, False, ())
