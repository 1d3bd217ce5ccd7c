"""What is wrong at the end of an order: of each judged actor the things in which it differs from its
device, once it has read all that waits, and what it met on its way.

The reads of the end are those of `tools/stuck`; so what is not read yet is no fault.
"""

from __future__ import annotations

from functools import lru_cache
from typing import (
    TYPE_CHECKING, Any, Callable, Dict, FrozenSet, Iterator, List, NamedTuple, Optional, Sequence, Set, Tuple,
)

from inputtools.belief import CURRENT
from inputtools.belief import Thing as What
from inputtools.checking import is_line_held
from inputtools.command import Wrong
from inputtools.explored_record import Unit
from inputtools.explored_state import FINISHED, ActorState, ExploredDevice, Mark, State, Step
from inputtools.names import code_text, kind_text
from second.device import FIRST, LAST, SLOT
from second.joystick import cut
from second.names import ABS, KEY, LED, SW
from second.reader import NO_CLIENT

if TYPE_CHECKING:
    from inputtools.exploring import Problem

# The lines by which an actor reads all that waits for it.
READS: Dict[str, Tuple[Tuple[str, ...], ...]] = {
    "client": (("follow",),),
    "tap": (("read", "4096"), ("read", "4096")),
    "joy": (("read", "100000"),),
    "owner": (("feedback", "15"), ("feedback", "15")),
}
FIRST_SETTINGS = {"REP_DELAY": 250, "REP_PERIOD": 33}
READING = ("follow", "read")

Difference = Tuple[Any, int, int]


class Thing(NamedTuple):
    """Something that an end has: its kind, whose it is, what is apart or what was refused, what is
    believed and what is so on the device, and why a call was refused.

    Kinds are `apart` and `open-frame` at the end, `moment` on the way, `lost`, `refused`, `full`,
    `waits` for an actor whose guard never let it go on, and `missed` for an expectation.
    """

    kind: str
    actor: str
    what: Any = ""
    believed: Any = None
    present: Any = None
    why: str = ""

    def is_wrong(self) -> bool:
        return self.kind in ("apart", "open-frame", "moment", "missed")

    def name(self) -> str:
        return self.what.text() if isinstance(self.what, What) else str(self.what)


def drained(state: State, number: int, log: Optional[List[Step]] = None) -> Tuple[ActorState, ExploredDevice]:
    """An actor that has read all that waits for it, and its device then. The calls are put to a log."""
    actor = state.actors[number].copy()
    device = state.device.copy(actor.role == "owner", actor.present_client())
    device.log = log
    actor.told, actor.handed, actor.waits_for = (), 0, None
    for words in READS.get(actor.role, ()):
        actor.do_on(device, words)
    return actor, device


def has_opened(actor: ActorState) -> bool:
    return actor.role == "owner" or actor.present_client() != NO_CLIENT


def things_at(state: State, problem: Problem) -> List[Thing]:
    """What an end has."""
    things: List[Thing] = []
    for number, actor in enumerate(state.actors):
        if not actor.is_watched or actor.role == "source":
            continue
        actor, device = drained(state, number)
        if problem.expectations is not None:
            things += missed(actor, device, state.marks | actor.marks, problem.expectations)
            continue
        marks = state.marks | {mark for mark in actor.marks if mark.kind == "lost"}
        if has_opened(actor):
            things += [apart(actor.name, device, row) for row in differences(actor, device)]
        own = (mark for mark in sorted(marks, key=str) if mark.actor == actor.name and mark.kind != "took")
        things += [Thing(mark.kind, mark.actor, mark.what, why=mark.why) for mark in own]
    return things + waiting(state, problem)


def missed(actor: ActorState, device: ExploredDevice, marks: FrozenSet[Mark],
           expectations: Sequence[Any]) -> List[Thing]:
    """The expectations of an actor that an end misses."""
    took = {mark.what for mark in marks if mark.kind == "took"}
    is_held: Dict[str, Callable[[Any], bool]] = {
        "agrees": lambda _: not differences(actor, device),
        "never": lambda each: each.number not in took,
        "takes": lambda each: each.number in took,
        "drops": lambda each: actor.losses == int(each.words[0]),
        "at-end": lambda each: has_line(actor, each),
    }
    return [Thing("missed", actor.name, each.text) for each in expectations if not is_held[each.kind](each)]


def has_line(actor: ActorState, expectation: Any) -> bool:
    """Has an actor's view the line that is wanted?"""
    if actor.role == "client":
        actor.view = actor.reader.view
    lines = actor.picture_lines() if actor.role == "joy" else actor.view_lines()
    rows = (line.split(" ") for line in lines)
    count = len(expectation.line)
    words = next((row[count:] for row in rows if row[:count] == expectation.line), None)
    if words is None:
        line = " ".join(expectation.line)
        raise Wrong(f"line {expectation.number}: the view of {actor.name} has no line {line}")
    return bool(is_line_held(expectation, words))


def waiting(state: State, problem: Problem) -> List[Thing]:
    """The actors that have lines left at an end, since nobody can go on."""
    left = zip(state.actors, state.positions, problem.counts)
    return [Thing("waits", actor.name, actor.name) for actor, at, count in left if at < count]


@lru_cache(maxsize=None)
def what_of(kind: int, code: int, slot: Optional[int] = None) -> What:
    return What(kind_text(kind), code_text(kind, code), slot)


def apart(name: str, device: ExploredDevice, row: Difference) -> Thing:
    what, believed, present = row
    return Thing("open-frame" if what in things_of_batch(device) else "apart", name, what, believed, present)


def things_of_batch(device: ExploredDevice) -> Set[Any]:
    """The things that events of a frame set which has not ended."""
    things: Set[Any] = set()
    slot = device.at_frame
    for kind, code, value in device.batch:
        slot = value if (kind, code) == (ABS, SLOT) else slot
        things.add(what_of(kind, code, slot if kind == ABS and FIRST <= code <= LAST else None))
    return things


# Differences


def differences(actor: ActorState, device: ExploredDevice) -> List[Difference]:
    """The things in which an actor differs from the device: what it believes of each, and what is so."""
    if actor.role == "joy":
        return list(differences_of_joystick(actor, device))
    if actor.role == "owner":
        return list(differences_of_owner(actor, device))
    compared = (differences_of_bits, differences_of_axes, differences_of_slots)
    return [row for each in compared for row in each(actor, device)]


def differences_of_joystick(actor: ActorState, device: ExploredDevice) -> Iterator[Difference]:
    joystick = actor.joystick
    for code, down in zip(joystick.buttons, joystick.down):
        if down != int(code in device.on[KEY]):
            yield what_of(KEY, code), int(down), int(code in device.on[KEY])
    for code, value in zip(joystick.axes, joystick.values):
        if value != cut(device.axes[code]):
            yield what_of(ABS, code), value, device.axes[code]


def differences_of_owner(actor: ActorState, device: ExploredDevice) -> Iterator[Difference]:
    for (kind, code), present in sorted(device.outputs.last.items()):
        heard = actor.heard.get((kind, code), FIRST_SETTINGS.get(code_text(kind, code), 0))
        if heard != present:
            yield what_of(kind, code), heard, present


def differences_of_bits(actor: ActorState, device: ExploredDevice) -> Iterator[Difference]:
    on = actor.belief().on
    for kind in (KEY, SW, LED):
        for code in sorted(on[kind] ^ device.on[kind]):
            yield what_of(kind, code), int(code in on[kind]), int(code in device.on[kind])


def differences_of_axes(actor: ActorState, device: ExploredDevice) -> Iterator[Difference]:
    axes = actor.belief().axes
    for code in sorted(device.caps.axes):
        if not SLOT <= code <= LAST and axes[code] != device.axes[code]:
            yield what_of(ABS, code), axes[code], device.axes[code]


def differences_of_slots(actor: ActorState, device: ExploredDevice) -> Iterator[Difference]:
    view = actor.belief()
    codes = [code for code in sorted(device.caps.axes) if FIRST <= code <= LAST]
    for slot, (believed, present) in enumerate(zip(view.cells, device.cells)):
        for code in codes:
            if believed[code - FIRST] != present[code - FIRST]:
                yield what_of(ABS, code, slot), believed[code - FIRST], present[code - FIRST]
    if device.caps.slots and view.slot != device.at_frame:
        yield CURRENT, view.slot, device.at_frame


def moment_marks(actor: ActorState, device: ExploredDevice, unit: Unit) -> Set[Mark]:
    """The things in which an actor is apart where nothing was left to read and no frame is open."""
    client = device.clients.get(actor.present_client())
    if client is None or client.revoked or client.visible() or device.batch:
        return set()
    if not actor.is_watched or actor.stop != FINISHED or unit.lines[-1].words[0] not in READING:
        return set()
    return {Mark("moment", actor.name, what) for what, _, _ in differences(actor, device)}
