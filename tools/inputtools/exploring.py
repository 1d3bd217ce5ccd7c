"""What is explored of a device, for one actor that is judged: which units may come next, and what comes
of them.

Devices are explored apart, since no actor of one sees the other. Of the other actors those are left in
who change what the judged one is told: sources, and who grabs, writes or describes an axis. Their reads
are of no concern. Where a limit may be met, of steps or of open clients, all are left in as they are.
"""

from __future__ import annotations

from bisect import bisect_left, bisect_right
from dataclasses import dataclass
from operator import le
from typing import Any, Callable, List, Optional, Sequence, Set, Tuple

from inputtools.explored_ends import moment_marks
from inputtools.explored_expectations import expected_of
from inputtools.explored_keys import (
    ActorKey, Limits, Numbers, StateKey, actor_key, device_key, folded_key, is_alike_when_read,
)
from inputtools.explored_record import ExploredActor, ExploredRecord, Line, Unit, units_of
from inputtools.explored_state import (
    EFFECTS, FINISHED, ActorState, ExploredDevice, OneCall, Pause, State, is_core_changed,
)
from second.device import Caps, is_slot_value
from second.model import event_of
from second.names import ABS, KEY

MOST_OPEN = 64
ALWAYS = 10**9
INFLUENCES = ("grab", "write", "setaxis")
# The lines of an actor, of which nobody reads, that others may notice.
NOTICED = ("open", *EFFECTS)
# The lines before which it matters what was read: they lose what waits, or tell a later state than it does.
BREAKS = {
    "client": ("open", "clock", "close", "revoke"),
    "tap": ("open", "clock", "close", "revoke", "discard", "axis", "syncslots"),
}


@dataclass(frozen=True)
class Asked:
    """How a record is explored."""

    grain: str = "frame"
    waits: bool = False
    within: Optional[int] = None
    preemptions: Optional[int] = None
    moments: bool = False
    folds: bool = True


# Bounds of what the lines of a device can make


def events_of_line(line: Line) -> int:
    """How many events a line passes at most."""
    if line.words[0] == "tick":
        return 2
    if not line.is_event():
        return 0
    kind, code, _ = event_of(list(line.words[2:]))
    return 2 if kind == ABS and is_slot_value(code) else 1


def most_events(actors: Sequence[ExploredActor], caps: Caps) -> int:
    """How many events may be passed in all, reports of full batches among them."""
    lines = [line for actor in actors for line in actor.lines]
    events = sum(map(events_of_line, lines))
    keys = {event_of(list(line.words[2:]))[:2] for line in lines if line.is_event()}
    inhibitions = sum(line.words[0] == "inhibit" for line in lines)
    events += inhibitions * (sum(kind == KEY for kind, _ in keys) + 2 * caps.slots + 1)
    return events + events // max(caps.hint, 1) + 1


def queries_of(caps: Caps) -> int:
    """How many calls a start makes, or a synchronisation."""
    return 4 + len(caps.axes) + (caps.slots > 0)


def may_fill_log(actors: Sequence[ExploredActor], caps: Caps) -> bool:
    """May the history be full?"""
    lines = sum(len(actor.lines) for actor in actors)
    readers = sum(actor.role != "source" for actor in actors)
    steps = (lines + readers * (most_events(actors, caps) + 3)) * (queries_of(caps) + 1)
    return steps >= caps.log


def may_open_too_many(actors: Sequence[ExploredActor]) -> bool:
    """May more clients be open than a device has?"""
    return sum(line.words[0] == "open" for actor in actors for line in actor.lines) > MOST_OPEN


class Window:
    """How many events wait at most for an actor, where no line goes ahead of one that begins so many
    lines before it: those between two of its reads, and so many lines around."""

    def __init__(self, actors: Sequence[ExploredActor], within: int) -> None:
        sizes = {line.index: events_of_line(line) for actor in actors for line in actor.lines}
        self.is_bounded = all(line.words[0] != "inhibit" for actor in actors for line in actor.lines)
        self.within, self.last = within, max(sizes, default=0)
        self.totals = [0]
        for index in range(self.last + 1):
            self.totals.append(self.totals[-1] + sizes.get(index, 0))

    def most_waiting(self, actor: ExploredActor) -> int:
        if not self.is_bounded:
            return ALWAYS
        reads = [line.index for line in actor.lines if reads_all(line)]
        points, most = [0, *reads, self.last], 0
        for begin, end in zip(points, points[1:]):
            low = max(0, begin - self.within)
            high = min(self.last + 1, end + self.within + 1)
            most = max(most, self.totals[high] - self.totals[low] if high > low else 0)
        return most


def reads_all(line: Line) -> bool:
    command = line.words[0]
    return command == "follow" or (command == "read" and int(line.words[1], 0) >= 64)


# The problem


class Problem:
    """The units of a device's actors, and the state before them all. Judged are the target, or all
    where there is none."""

    def __init__(self, record: ExploredRecord, number: int, target: Optional[str], asked: Asked,
                 expectations: Optional[Sequence[Any]] = None) -> None:
        self.record, self.number, self.target, self.asked = record, number, target, asked
        self.expectations = expectations
        self.expected = expected_of(expectations or ())
        self.device_name, self.caps = record.descriptions[number]
        actors = record.actors_of(number)
        counts_steps, counts_open = may_fill_log(actors, self.caps), may_open_too_many(actors)
        is_tight = counts_steps or counts_open
        if target is not None and not is_tight:
            actors = [actor for actor in actors if actor.name == target or has_influence(actor)]
        self.actors = actors
        self.names = [actor.name for actor in actors]
        self.units = [units_of(actor.lines, asked.grain) for actor in actors]
        if asked.waits:
            self.add_ends()
        self.counts = [len(units) for units in self.units]
        self.stages = [[unit.first.stage for unit in units] for units in self.units]
        self.changes_core = [[is_core_changed(unit) for unit in units] for units in self.units]
        has_others = target is not None and not is_tight
        self.is_bystander = [has_others and actor.name != target and is_passive(actor) for actor in actors]
        has_owner = any(actor.role == "owner" for actor in actors)
        self.limits = Limits(counts_steps, counts_open, has_owner, False)
        self.start = self.state_at_start()
        self.sources = sum(actor.role == "source" for actor in actors)
        self.limits_before_tick = self.limits._replace(has_tick=True)
        self.ticks = [last_unit(units, lambda unit: "tick" in unit.commands()) for units in self.units]
        self.before, self.numbers = self.counts_before(), Numbers()
        # Did a bound leave out an order?
        self.is_cut = False
        self.prepare_folding()

    def add_ends(self) -> None:
        """Each source says at last that it is done, for which who waits is waiting."""
        for actor, units in zip(self.actors, self.units):
            if actor.role == "source":
                stage = units[-1].first.stage if units else 0
                units.append(Unit((Line(ALWAYS, stage, ("end",), False),)))

    def state_at_start(self) -> State:
        device = ExploredDevice(self.device_name, self.caps, self.limits.has_owner)
        states = []
        for number, actor in enumerate(self.actors):
            state = ActorState(actor.name, actor.role, number, device)
            state.is_bystander = self.is_bystander[number]
            state.is_watched = self.target in (None, actor.name)
            state.may_stop = self.limits.counts_steps or self.asked.grain == "call"
            if actor.name == self.target:
                state.expected, state.counts_losses = self.expected.events, self.expected.counts_losses
            states.append(state)
        return State(device, states, (0,) * len(states), frozenset())

    def counts_before(self) -> List[List[Tuple[int, ...]]]:
        """Of each unit, how many units of each actor begin before it in the record."""
        firsts = [[unit.first.index for unit in units] for units in self.units]
        return [
            [tuple(0 if other is own else bisect_left(other, index) for other in firsts) for index in own]
            for own in firsts
        ]

    def prepare_folding(self) -> None:
        """Where may it make no difference when an actor reads? Where no loss can come, and behind its
        last line before which it matters."""
        asked, caps = self.asked, self.caps
        ring = caps.ring() - 1
        is_lossless = most_events(self.actors, caps) < ring
        if not is_lossless and asked.within is not None:
            window, rows = Window(self.actors, asked.within), zip(self.actors, self.is_bystander)
            readers = (actor for actor, is_aside in rows if reads_events(actor) and not is_aside)
            is_lossless = all(window.most_waiting(actor) < ring for actor in readers)
        # (what waits says how many calls a line makes, of which a log has so many and no more)
        counts_calls = asked.grain == "call" or self.limits.counts_steps
        is_asked = asked.folds and not counts_calls and not asked.moments
        self.folds = is_asked and self.expected.is_nothing() and is_lossless
        self.folds_from = []
        for actor, units in zip(self.actors, self.units):
            breaks = set(BREAKS.get(actor.role, ()))
            self.folds_from.append(1 + last_unit(units, lambda unit: is_break(unit, breaks)))

    # What may come next

    def next_units(self, state: State) -> List[Tuple[int, Line]]:
        """The actors that have units left, each with the first line of its next one."""
        ats = enumerate(state.positions)
        return [(number, self.units[number][at].first) for number, at in ats if at < self.counts[number]]

    def enabled(self, state: State) -> List[int]:
        """The actors that may go on."""
        rows = self.next_units(state)
        stage = min((line.stage for _, line in rows), default=0)
        low = min((line.index for _, line in rows), default=0)
        most = ALWAYS if self.asked.within is None else low + self.asked.within
        rows = [(number, line) for number, line in rows if line.stage == stage]
        within = [(number, line) for number, line in rows if line.index <= most]
        self.is_cut = self.is_cut or len(within) < len(rows)
        actors = state.actors
        return [number for number, line in within if not (line.is_guarded and is_kept_back(actors[number]))]

    def units_left(self, state: State, number: int) -> int:
        """How many units an actor has left up to the next barrier."""
        stages, at = self.stages[number], state.positions[number]
        return bisect_right(stages, stages[at]) - at

    def overtaken(self, state: State, number: int) -> int:
        """How many units that begin before an actor's next one in the record are done after it."""
        before = self.before[number][state.positions[number]]
        return sum(count - at for count, at in zip(before, state.positions) if count > at)

    def successors(self, state: State) -> List[Tuple[int, State]]:
        """The states behind the next unit of each actor that may go on."""
        steps = ((number, self.step(state, number)) for number in self.enabled(state))
        moved = [(number, new) for number, new in steps if new is not None]
        most = self.asked.preemptions
        return moved if most is None else self.within_preemptions(state, moved, most)

    def within_preemptions(self, state: State, moved: List[Tuple[int, State]],
                           most: int) -> List[Tuple[int, State]]:
        """Those behind at most so many changes of actor that nobody needed: the one that is left could
        go on."""
        could_go_on = any(number == state.last for number, _ in moved)
        for number, new in moved:
            new.preemptions = state.preemptions + (could_go_on and number != state.last)
            new.last = number if new.positions[number] < self.counts[number] else None
        kept = [(number, new) for number, new in moved if new.preemptions <= most]
        self.is_cut = self.is_cut or len(kept) < len(moved)
        return kept

    # Steps

    def step(self, state: State, number: int) -> Optional[State]:
        """The state behind an actor's next unit, or its next call; None where it waits on."""
        unit = self.units[number][state.positions[number]]
        old = state.actors[number]
        if self.asked.grain == "call":
            return self.step_by_call(state, number, unit)
        if old.is_bystander and unit.first.words[0] not in NOTICED:
            return state.moved(number, state.device, old, False)
        new = old.copy()
        changes_core = self.changes_core[number][state.positions[number]]
        device = state.device.copy(changes_core, old.present_client())
        for line in unit.lines:
            new.do_on(device, line.words)
        if self.asked.moments:
            new.marks |= moment_marks(new, device, unit)
        return state.moved(number, device, new, changes_core)

    def step_by_call(self, state: State, number: int, unit: Unit) -> Optional[State]:
        old, words = state.actors[number], unit.first.words
        new = old.copy()
        new.told, new.waits_for = (), self.sources if self.asked.waits else None
        changes_core = self.changes_core[number][state.positions[number]]
        device = state.device.copy(changes_core, old.present_client())
        device.call = call = OneCall(old.told)
        is_done = True
        try:
            new.do_on(device, words)
        except Pause:
            is_done = False
            if call.told and call.told[-1][0][0] == "again":
                return None
            new = self.paused(new, old, call, words)
        device.call, new.is_begun = None, unit.first.is_guarded and not is_done
        if is_done and self.asked.moments:
            new.marks |= moment_marks(new, device, unit)
        return state.moved(number, device, new, changes_core, is_done, call.made)

    def paused(self, new: ActorState, old: ActorState, call: OneCall, words: Sequence[str]) -> ActorState:
        """The actor in the midst of a line, as it goes on by the next call."""
        marks = new.marks
        kept = new.kept if new.kept is not None else old.copy()
        if words[0] == "follow":
            kept.handed = 0
        kept.opened, kept.told, kept.marks, kept.device = old.opened, tuple(call.told), marks, old.device
        return kept

    # Keys

    def key(self, state: State) -> StateKey:
        has_tick = any(map(le, state.positions, self.ticks))
        limits = self.limits_before_tick if has_tick else self.limits
        of, known = self.numbers.of, enumerate(state.keys)
        keys = [of(self.actor_key(state, number)) if key is None else key for number, key in known]
        state.keys = list(keys)
        device = device_key(state.device, limits, self.numbers)
        return StateKey(state.positions, state.marks, device, tuple(keys), state.last, state.preemptions)

    def actor_key(self, state: State, number: int) -> ActorKey:
        actor, device = state.actors[number], state.device
        folds = self.folds and state.positions[number] >= self.folds_from[number]
        if folds and is_alike_when_read(actor, device):
            return folded_key(actor, device)
        return actor_key(actor, device)


def has_influence(actor: ExploredActor) -> bool:
    """Does an actor change what others are told?"""
    return actor.role == "source" or any(line.words[0] in INFLUENCES for line in actor.lines)


def is_passive(actor: ExploredActor) -> bool:
    """Are an actor's reads of no concern to others? Those of who looks at what it knows are."""
    return actor.role in ("client", "tap") and not any(line.is_guarded for line in actor.lines)


def reads_events(actor: ExploredActor) -> bool:
    return actor.role not in ("source", "owner")


def is_break(unit: Unit, breaks: Set[str]) -> bool:
    return unit.first.is_guarded or any(command in breaks for command in unit.commands())


def last_unit(units: Sequence[Unit], is_such: Callable[[Unit], bool]) -> int:
    """The number of the last such unit, or -1."""
    return max((number for number, unit in enumerate(units) if is_such(unit)), default=-1)


def is_kept_back(actor: ActorState) -> bool:
    """Does a guard keep an actor from its next line, since it knows of a key that is down?"""
    return not actor.is_begun and actor.stop == FINISHED and bool(actor.belief().on[KEY])
