"""An order of units as a record that plays in this order, and a short one in which a thing still comes.

At grain "call" a client becomes a tap that makes the same calls one by one. A joystick's calls have no
lines of their own, so an order of them is no record.
"""

from __future__ import annotations

from typing import List, NamedTuple, Optional, Sequence, Set, Tuple

from inputtools.explored_ends import READS, Thing, drained, things_at
from inputtools.explored_record import GUARD, MARK
from inputtools.explored_state import State, Step
from inputtools.exploring import Problem, is_kept_back
from inputtools.shrinking import shorter
from second.names import ABS, code_text

# The line of a tap that makes a call, where it is not named as the call is.
TAP_LINES = {"getkeys": "keys", "getswitches": "switches", "getleds": "leds", "getsounds": "sounds"}
AS_WRITTEN = ("mask", "clock", "write", "setaxis")


class Turn(NamedTuple):
    """A unit of an actor, or one call of it: the actor's number, and the number of the unit."""

    actor: int
    unit: int


def turns_of(problem: Problem, order: Sequence[int]) -> List[Turn]:
    """The units of an order that names actors."""
    state, turns = problem.start, []
    for actor in order:
        turns.append(Turn(actor, state.positions[actor]))
        state = stepped(problem, state, actor)
    return turns


def stepped(problem: Problem, state: State, actor: int) -> State:
    new = problem.step(state, actor)
    assert new is not None
    return new


class Replay:
    """An order, played on the graph's own states: the state at its end, and the record's rows as
    (actor, words)."""

    def __init__(self, problem: Problem, turns: Sequence[Turn]) -> None:
        self.problem, self.state = problem, problem.start
        self.rows: List[Tuple[int, Tuple[str, ...]]] = []
        self.units: List[Turn] = []
        self.is_allowed = True
        for turn in turns:
            self.take(turn)
        for actor in range(len(problem.names)):
            self.end_line(actor)
        if self.is_allowed:
            self.go_to_end()

    def take(self, turn: Turn) -> None:
        at = self.state.positions[turn.actor]
        if not self.is_allowed or at > turn.unit:
            return
        if at < turn.unit:
            self.end_line(turn.actor)
            self.state = self.state.at(turn.actor, turn.unit)
        line = self.problem.units[turn.actor][turn.unit].first
        if line.is_guarded and is_kept_back(self.state.actors[turn.actor]):
            self.is_allowed = False
            return
        self.step(turn)

    def step(self, turn: Turn) -> None:
        unit = self.problem.units[turn.actor][turn.unit]
        state = self.problem.step(self.state, turn.actor)
        if state is None:
            return
        if self.problem.asked.grain != "call":
            self.rows += [(turn.actor, line.words) for line in unit.lines]
        elif self.problem.actors[turn.actor].role in ("source", "owner"):
            self.rows += [(turn.actor, unit.first.words)]
        elif state.made is not None:
            self.rows.append((turn.actor, words_of_call(state.made, unit.first.words)))
        if not self.units or self.units[-1] != turn:
            self.units.append(turn)
        self.state = state

    def is_in_line(self, actor: int) -> bool:
        """Is an actor in the midst of a line, of which a call was made?"""
        state = self.state.actors[actor]
        return bool(state.told or state.handed or state.is_begun)

    def end_line(self, actor: int) -> None:
        while self.is_allowed and self.is_in_line(actor):
            self.step(Turn(actor, self.state.positions[actor]))

    def go_to_end(self) -> None:
        """No actor waits with the lines that were left out."""
        for actor, count in enumerate(self.problem.counts):
            self.state = self.state.at(actor, count)

    def has(self, thing: Thing) -> bool:
        return self.is_allowed and thing in things_at(self.state, self.problem)


def words_of_call(step: Step, line: Tuple[str, ...]) -> Tuple[str, ...]:
    """The line of a tap that makes a call."""
    if step[0] in AS_WRITTEN:
        return line
    if step[0] in ("getaxis", "getslots"):
        return step[0][3:], code_text(ABS, step[2])
    if step[0] == "read":
        return "read", str(step[2])
    return (TAP_LINES.get(step[0], str(step[0])),)


def shortened(problem: Problem, turns: Sequence[Turn], thing: Thing) -> List[Turn]:
    """The order without units that a thing does not need: none can be left out alone."""
    units = list(dict.fromkeys(turns))

    def keeps(kept: List[Turn]) -> bool:
        wanted = set(kept)
        return Replay(problem, [turn for turn in turns if turn in wanted]).has(thing)

    if not is_shortened(thing) or not keeps(units):
        return list(turns)
    wanted: Set[Turn] = set(shorter(units, keeps, lambda _: None))
    return [turn for turn in turns if turn in wanted]


def is_shortened(thing: Thing) -> bool:
    """Is a thing the same in a shorter order? Lines that are left out may miss an expectation by
    themselves."""
    if thing.kind == "missed":
        return str(thing.what).split()[1] in ("agrees", "never")
    return thing.kind != "waits"


# Records


def is_record(problem: Problem) -> bool:
    """Is an order of this problem a record? Not where a joystick's calls are apart."""
    return problem.asked.grain != "call" or all(actor.role != "joy" for actor in problem.actors)


class OrderRecord(NamedTuple):
    """An order as a record: its text, its action lines, and its units as (actor, lines)."""

    text: str
    lines: Tuple[str, ...]
    units: Tuple[Tuple[str, Tuple[str, ...]], ...]


def record_of(problem: Problem, turns: Sequence[Turn], target: str,
              expectation: Optional[str] = None) -> OrderRecord:
    """The record that plays in an order, and whose target reads all that waits at its end."""
    replay, head = Replay(problem, turns), problem.record.head
    if problem.asked.grain == "call":
        lines, head = call_lines(problem, replay, target), [as_tap(line) for line in head]
    else:
        role = problem.actors[problem.names.index(target)].role
        lines = action_lines(problem, replay) + [do_line(target, words) for words in READS[role]]
    head = ["inputrecord 2", *(line for line in head if not line.startswith("inputrecord"))]
    head[1:1] = [] if expectation is None else [f"#= {expectation}"]
    text = "".join(line + "\n" for line in head + lines)
    return OrderRecord(text, tuple(lines), units_shown(problem, replay))


def do_line(name: str, words: Sequence[str]) -> str:
    return " ".join(("do", name, *words))


def as_tap(line: str) -> str:
    return f"tap {line.split()[1]}" if line.startswith("client ") else line


def action_lines(problem: Problem, replay: Replay) -> List[str]:
    """The lines of an order, with its barriers and guards."""
    lines: List[str] = []
    stage = 0
    for turn in replay.units:
        unit = problem.units[turn.actor][turn.unit]
        if unit.first.stage > stage:
            stage = unit.first.stage
            lines.append(MARK)
        if unit.first.is_guarded:
            lines.append(" ".join((MARK, *GUARD)))
        lines += [do_line(problem.names[turn.actor], line.words) for line in unit.lines]
    return lines


def call_lines(problem: Problem, replay: Replay, target: str) -> List[str]:
    """The lines that make the calls of an order, those of the end among them."""
    rows = [do_line(problem.names[actor], words) for actor, words in replay.rows if words != ("end",)]
    number = problem.names.index(target)
    role = problem.actors[number].role
    if role in ("source", "owner"):
        return rows + [do_line(target, words) for words in READS.get(role, ())]
    log: List[Step] = []
    drained(replay.state, number, log)
    return rows + [do_line(target, words_of_call(step, ())) for step in log]


def units_shown(problem: Problem, replay: Replay) -> Tuple[Tuple[str, Tuple[str, ...]], ...]:
    """The units of an order for people: those of an actor that follow each other are one row."""
    rows: List[Tuple[str, List[str]]] = []
    for name, words in shown_rows(problem, replay):
        if not rows or rows[-1][0] != name:
            rows.append((name, []))
        rows[-1][1].append(words)
    return tuple((name, tuple(words)) for name, words in rows)


def shown_rows(problem: Problem, replay: Replay) -> List[Tuple[str, str]]:
    rows, units = replay.rows, problem.units
    if problem.asked.grain != "call":
        rows = [(actor, line.words) for actor, unit in replay.units for line in units[actor][unit].lines]
    return [(problem.names[actor], shown_line(words)) for actor, words in rows]


def shown_line(words: Sequence[str]) -> str:
    """A line for people: of an event its code and value."""
    return " ".join(words[3:]) if words[0] == "event" else " ".join(words)
