"""A device with its actors as one state, which is copied and moved on by one unit of one actor.

The device, its clients, the reader, the joystick and what an actor does at a line are those of the
second program (`second`). What it tells people, places and times, is not kept: nothing that a client
believes comes of it.
"""

from __future__ import annotations

from typing import Any, Dict, FrozenSet, List, NamedTuple, Optional, Sequence, Set, Tuple

from inputtools.explored_record import Unit
from second.device import DROPPED, Caps, Client, Device, Filter, Outputs, is_output
from second.joystick import Joystick
from second.model import Actor
from second.names import LED, REP, SND, SYN
from second.reader import Reader, View

Event = Tuple[int, int, int]
Step = Tuple[Any, ...]
Reply = Tuple[Any, ...]
Answer = Tuple[Reply, Any]

# The kinds of events of which a device that is made by requests keeps the last value.
LASTING = (LED, SND, REP)
# The commands by which an actor changes what others are told, and those that change more than the own client.
EFFECTS = ("grab", "ungrab", "close", "revoke", "write", "setaxis")
OF_THE_CORE = ("event", "tick", "inhibit", "uninhibit", "write", "setaxis", "feedback", "end")
# The number of an actor's first client, times the actor's number from 1.
FIRST_CLIENT = 1000
FINISHED, FULL = "finished", "full"


class Mark(NamedTuple):
    """What an actor met on its way: a loss, a call that was refused and why, a full history, a thing in
    which it was apart at a moment, or an event that was expected."""

    kind: str
    actor: str
    what: Any = ""
    why: str = ""


# The device


class Pause(Exception):
    """The next call of a line is not made yet."""


class OneCall:
    """A line that goes on by one call: the earlier calls are answered as they were, and the one behind
    it waits."""

    def __init__(self, told: Sequence[Answer]) -> None:
        self.told, self.next = list(told), 0
        self.made: Optional[Step] = None

    def is_told(self) -> bool:
        return self.next < len(self.told)

    def take(self) -> Answer:
        reply, written = self.told[self.next]
        self.next += 1
        return reply, None if written is None else list(written)

    def add(self, step: Step, answer: Answer) -> None:
        self.made = step
        self.told.append(answer)

    def forget(self) -> None:
        """The actor has taken over what it was told."""
        self.told, self.next = self.told[self.next :], 0


class Length(List[Any]):
    """A history of which only the length counts."""

    def __init__(self, length: int = 0) -> None:
        super().__init__()
        self.length = length

    def __len__(self) -> int:
        return self.length

    def append(self, _: Any) -> None:
        self.length += 1


class LastOutputs(Outputs):
    """What was sent to a device, with the last value of each lasting thing, which its owner is compared
    with. Nothing is kept where there is no owner."""

    def __init__(self, most_calls: int, has_owner: bool) -> None:
        super().__init__(most_calls)
        self.has_owner = has_owner
        self.last: Dict[Tuple[int, int], int] = {}

    def send(self, events: List[Event]) -> None:
        if not self.has_owner:
            return
        super().send(events)
        lasting = (event for event in events if is_output(event) and event[0] in LASTING)
        self.last.update({(kind, code): value for kind, code, value in lasting})

    def copy(self) -> LastOutputs:
        if not self.has_owner:
            return self
        new = LastOutputs(self.most_calls, True)
        new.waiting, new.calls, new.last = self.waiting, self.calls, dict(self.last)
        return new


class ExploredClient(Client):
    """A client that can be copied. A bystander's takes no event, since nobody looks at it."""

    def __init__(self, places: int, is_bystander: bool) -> None:
        super().__init__(places)
        self.is_bystander = is_bystander

    def admits(self, event: Event) -> bool:
        return not self.is_bystander and super().admits(event)

    def copy(self) -> ExploredClient:
        new = ExploredClient.__new__(ExploredClient)
        new.__dict__.update(self.__dict__)
        new.queue = self.queue[:]
        new.clear_bits = set(self.clear_bits) if self.clear_bits else set()
        return new


def copied(client: Client) -> ExploredClient:
    assert isinstance(client, ExploredClient)
    return client.copy()


def copy_of_filter(old: Filter) -> Filter:
    new = Filter(old.form, *old.words)
    new.given = old.given[:]
    return new


class ExploredDevice(Device):
    """A device that can be copied. An actor's clients are numbered by the actor, so the order in which
    actors open makes no other state."""

    outputs: LastOutputs

    def __init__(self, name: str, caps: Caps, has_owner: bool) -> None:
        super().__init__(name, caps)
        self.history = Length()
        self.outputs = LastOutputs(caps.log, has_owner)
        self.call: Optional[OneCall] = None
        self.log: Optional[List[Step]] = None
        self.opens_bystander = False
        # (the number of the key of its core, where it is known)
        self.core_number: Optional[int] = None

    def copy(self, is_core_changed: bool, client: int) -> ExploredDevice:
        """A copy; its core and all clients are its own where a unit may change them, else one client
        alone."""
        new = ExploredDevice.__new__(ExploredDevice)
        new.__dict__.update(self.__dict__)
        new.history = Length(len(self.history))
        if not is_core_changed:
            new.clients = dict(self.clients)
            if client in new.clients:
                new.clients[client] = copied(new.clients[client])
            return new
        new.on = {kind: set(codes) for kind, codes in self.on.items()}
        new.repeat, new.infos, new.axes = self.repeat[:], dict(self.infos), dict(self.axes)
        new.cells, new.batch = [cells[:] for cells in self.cells], self.batch[:]
        new.clients = {number: copied(each) for number, each in self.clients.items()}
        new.filters = [copy_of_filter(each) for each in self.filters]
        new.outputs = self.outputs.copy()
        new.core_number = None
        return new

    def step(self, step: Step) -> Answer:
        if self.log is not None:
            self.log.append(step)
        if self.call is None:
            answer: Answer = super().step(step)
            return answer
        if not self.call.is_told():
            if self.call.made is not None:
                raise Pause
            self.call.add(step, super().step(step))
        return self.call.take()

    def do_open(self, op: str, words: Any, place: int) -> Answer:
        answer: Answer = super().do_open(op, words, place)
        number, places = answer[0][2], answer[0][3]
        self.clients[number] = ExploredClient(places, self.opens_bystander)
        return answer


# Readers and actors


class ExpectedEvent(NamedTuple):
    """An event that a record speaks of: the number of the line, its type, its code or None for all, and
    its value or None for any."""

    number: int
    kind: int
    code: Optional[int]
    value: Optional[int]

    def is_such(self, event: Event) -> bool:
        return event[0] == self.kind and self.code in (None, event[1]) and self.value in (None, event[2])


def copy_of_view(old: View) -> View:
    new = View.__new__(View)
    new.on = {kind: set(codes) for kind, codes in old.on.items()}
    new.axes, new.slot, new.cells = old.axes[:], old.slot, [cells[:] for cells in old.cells]
    return new


def copy_of_reader(old: Reader) -> Reader:
    new = Reader.__new__(Reader)
    new.__dict__.update(old.__dict__)
    new.view, new.queue, new.synthesised = copy_of_view(old.view), old.queue[:], old.synthesised[:]
    new.calls = []
    return new


def copy_of_joystick(old: Joystick) -> Joystick:
    new = Joystick.__new__(Joystick)
    new.__dict__.update(old.__dict__)
    new.reader, new.startup, new.calls = copy_of_reader(old.reader), old.startup[:], []
    new.down, new.values = old.down[:], old.values[:]
    return new


class ActorState(Actor):
    """An actor in the midst of its lines. Of one that is watched what it meets is marked; a bystander
    does no more than what others notice."""

    def __init__(self, name: str, role: str, number: int, device: ExploredDevice) -> None:
        super().__init__(name, role, device)
        self.number, self.opened = number, 0
        self.is_watched = self.is_bystander = False
        # (a source that is never refused a call stays as it is)
        self.may_stop = True
        self.expected: Sequence[ExpectedEvent] = ()
        self.heard: Dict[Tuple[int, int], int] = {}
        self.losses, self.counts_losses = 0, False
        self.told: Tuple[Answer, ...] = ()
        self.marks: Set[Mark] = set()
        self.kept: Optional[ActorState] = None
        self.waits_for: Optional[int] = None
        # (is a guarded line begun, which goes on call by call?)
        self.is_begun = False

    def copy(self) -> ActorState:
        if self.role == "source" and not self.may_stop:
            return self
        new = ActorState.__new__(ActorState)
        new.__dict__.update(self.__dict__)
        new.marks, new.kept = set(), None
        if self.role == "client":
            new.reader = copy_of_reader(self.reader)
        elif self.role == "tap":
            new.view = copy_of_view(self.view)
        elif self.role == "joy":
            new.joystick = copy_of_joystick(self.joystick)
        elif self.role == "owner":
            new.heard = dict(self.heard)
        return new

    def present_client(self) -> int:
        """The number of the client that it reads as; in the midst of an open the new one."""
        for reply, _ in self.told:
            if reply[0] == "opened":
                return int(reply[2])
        if self.is_bystander or self.role == "tap":
            return int(self.client)
        return int(self.joystick.reader.client if self.role == "joy" else self.reader.client)

    def belief(self) -> View:
        """What a client or a tap knows of its device."""
        view: View = self.reader.view if self.role == "client" else self.view
        return view

    # Lines

    def do_on(self, device: ExploredDevice, words: Sequence[str]) -> None:
        """Does a line on a device."""
        if words[0] == "open":
            device.opens = FIRST_CLIENT * (self.number + 1) + self.opened
            device.opens_bystander = self.is_bystander
            self.opened += 1
        idle, self.device = self.device, device
        try:
            self.do(list(words), None)
        finally:
            self.device = idle
        if self.stop != FINISHED:
            self.stop = FULL
            self.mark("full")

    def do(self, words: List[str], streams: Any) -> None:
        if not self.is_bystander:
            super().do(words, streams)
        elif self.stop == FINISHED and words[0] == "open":
            reply, _ = self.device.step(("open",))
            self.see(("open",), reply)
            if reply[0] == "opened":
                self.client = reply[2]
        elif self.stop == FINISHED and words[0] in EFFECTS:
            step = self.single_step(self.client, words) or ()
            self.see(step, self.device.step(step)[0])

    def waits_on(self, reply: Reply) -> bool:
        if self.waits_for is not None and reply[0] == "again" and self.device.ends < self.waits_for:
            raise Pause
        return False

    # What it sees

    def mark(self, kind: str, what: Any = "", why: str = "") -> None:
        if self.is_watched:
            self.marks.add(Mark(kind, self.name, what, why))

    def see(self, step: Step, reply: Reply) -> None:
        if reply[0] == "refused":
            self.mark("refused", step[0], reply[2])
            if reply[2] == "log-full":
                self.stop = FULL
        elif step[0] == "discard" and self.role == "joy":
            self.mark("lost")

    def see_taken(self, item: Any) -> None:
        event = item[0]
        if event[:2] == (SYN, DROPPED):
            self.mark("lost")
            self.losses += self.counts_losses
        self.see_event(event)

    def see_event(self, event: Event) -> None:
        for expected in self.expected:
            if expected.is_such(event):
                self.mark("took", expected.number)

    def see_handed(self, what: str, values: Any) -> None:
        if what == "took":
            self.see_taken(values[0])
        elif what == "made":
            self.see_event(values[0])
        self.keep()

    def see_record(self, answer: Any) -> None:
        self.keep()

    def see_feedback(self, at: int, events: Sequence[Event]) -> None:
        for event in events:
            self.heard[event[:2]] = event[2]
            self.see_event(event)

    def keep(self) -> None:
        """A line that goes on call by call may go on from here."""
        call = self.device.call
        if call is not None:
            call.forget()
            self.kept = self.copy()
            self.kept.marks = set(self.marks)


# States


class State:
    """A device, its actors, how many units each has done, what was met on the way, and, where changes
    of actor are counted, who went on last and how often one was left that could go on. `made` is the
    call that led here, where orders are of calls."""

    __slots__ = ("device", "actors", "positions", "marks", "last", "preemptions", "made", "keys")

    def __init__(self, device: ExploredDevice, actors: Sequence[ActorState], positions: Tuple[int, ...],
                 marks: FrozenSet[Mark], last: Optional[int] = None, preemptions: int = 0,
                 made: Optional[Step] = None) -> None:
        self.device, self.actors, self.positions, self.marks = device, actors, positions, marks
        self.last, self.preemptions, self.made = last, preemptions, made
        # The numbers of the actors' keys, where they are known.
        self.keys: List[Optional[int]] = [None] * len(actors)

    def moved(self, number: int, device: ExploredDevice, actor: ActorState, changes_core: bool,
              is_done: bool = True, made: Optional[Step] = None) -> State:
        """The state behind a unit, or a call, of an actor. Where the core did not change no other
        actor's key did."""
        actors = list(self.actors)
        actors[number] = actor
        positions = self.positions_with(number, self.positions[number] + is_done)
        marks = self.marks | actor.marks if actor.marks else self.marks
        new = State(device, actors, positions, marks, self.last, self.preemptions, made)
        if not changes_core:
            new.keys = self.keys[:]
            new.keys[number] = None
        return new

    def at(self, number: int, position: int) -> State:
        """The same state, but that an actor is at another unit."""
        return State(self.device, self.actors, self.positions_with(number, position), self.marks)

    def positions_with(self, number: int, position: int) -> Tuple[int, ...]:
        return (*self.positions[:number], position, *self.positions[number + 1 :])


def is_core_changed(unit: Unit) -> bool:
    """May a unit change more than its actor's own client, and who holds the grab?"""
    return any(command in OF_THE_CORE for command in unit.commands())
