"""What is wrong at the end of a played record, in words: what `tools/stuck --summary` and the page of
`tools/draw` say first. With it, what is told as one, since it lasts."""

from typing import Callable, Dict, Iterable, Iterator, List, NamedTuple, Optional, Sequence

from inputtools.belief import TRACKING_ID
from inputtools.command import counted
from inputtools.divergences import Divergence
from inputtools.owners import Owner
from inputtools.played import PlayedDevice, Reader, cut_of
from inputtools.report import cut_text
from inputtools.still_down import still_down_of
from inputtools.stuck_text import name_of

# The causes that last, by a client's own doing.
LASTING = ("mask", "revoked", "closed", "never-opened")

# How many things are named where not all are.
NAMED = 3

# How grave what is right at the end is.
PASSED = 3


class Ending(NamedTuple):
    """Something that is wrong: how grave it is, 0 the most; the device; since which place, 0 for the start
    too; the name of its row in a picture; and what is said of it."""

    rank: int
    device: PlayedDevice
    since: int
    row: str
    text: str

    @property
    def is_at_end(self) -> bool:
        return self.rank < PASSED


def names_text(names: Sequence[str], most: Optional[int] = NAMED) -> str:
    """The names of things, the first ones of many."""
    more = 0 if most is None else len(names) - most
    return ", ".join(names[:most]) + (f" and {counted(more, 'thing')} more" if more > 0 else "")


Groups = Dict[str, List[Divergence]]


def grouped(divergences: Iterable[Divergence], key: Callable[[Divergence], str]) -> Groups:
    """Divergences by a text that they have in common, in their order."""
    found: Groups = {}
    for divergence in divergences:
        found.setdefault(key(divergence), []).append(divergence)
    return found


def lasting_of(reader: Reader) -> Groups:
    """The divergences by causes that last, by their kinds, where one keeps several things from a reader: they
    are told as one."""
    lasting = (divergence for divergence in reader.divergences if divergence.cause.kind in LASTING)
    groups = grouped(lasting, lambda divergence: divergence.cause.kind)
    return {kind: group for kind, group in groups.items() if len({each.thing for each in group}) > 1}


def apart_of(reader: Reader) -> List[Divergence]:
    """All other divergences of a reader, each of which is told."""
    lasting = lasting_of(reader)
    return [divergence for divergence in reader.divergences if divergence.cause.kind not in lasting]


def first_of(divergences: Iterable[Divergence]) -> Divergence:
    """The one that began first."""
    return min(divergences, key=lambda each: -1 if each.since is None else each.since)


def kind_of(divergence: Divergence) -> str:
    """How a client and its device differ: `stuck` where it is down, on or touched for it alone, `missed`
    where it is so on the device alone, and `parted` by any other value."""
    thing, values = divergence.thing, (divergence.believed, divergence.present)
    if thing.kind == "EV_ABS" and thing.code != TRACKING_ID:
        return "parted"
    believed, present = (value != thing.first_value for value in values)
    return "parted" if believed == present else "stuck" if believed else "missed"


def rank_of(group: Sequence[Divergence]) -> int:
    """How grave it is that things differ at the end by one cause: what waits to be read is not, nor what a
    client wants to know nothing of, unless something sticks for it."""
    kind = group[0].cause.kind
    is_stuck = any(kind_of(divergence) == "stuck" for divergence in group)
    return 2 if kind == "not-read" or kind in LASTING and not is_stuck else 0


def readers_of(devices: Sequence[PlayedDevice]) -> List[Reader]:
    """All who may part from their device: who never opened it has nothing to part from."""
    readers = (reader for device in devices for reader in device.readers())
    return [reader for reader in readers if isinstance(reader, Owner) or reader.walk.clients]


def endings_of_reader(device: PlayedDevice, reader: Reader, most: Optional[int]) -> Iterator[Ending]:
    """In what a reader ends apart, an ending for each cause."""
    lasting, who = lasting_of(reader), f"{reader.role} {reader.name}"
    for cause, group in grouped(reader.at_end, lambda each: each.cause.text).items():
        names, first = sorted(name_of(reader, each.thing) for each in group), first_of(group)
        values = {f", {each.believed_text} for it, {each.present_text} on the device" for each in group}
        told = values.pop() if len(values) == 1 and first.thing.kind != "EV_ABS" else ""
        kind, since = first.cause.kind, device.state.at.since(first.since)
        row = f"{reader.name}, {kind if kind in lasting else name_of(reader, first.thing)}"
        text = f"{who} ends apart in {names_text(names, most)} {since}{told}: {cause}"
        yield Ending(rank_of(group), device, first.since or 0, row, text)


def endings_held(device: PlayedDevice, before: str) -> Iterator[Ending]:
    """What is held on a device itself at the end. `before` stands before each text."""
    for held in still_down_of(device.state):
        row = held.thing.code if held.thing.slot is None else f"slot {held.thing.slot}"
        yield Ending(1, device, held.since or 0, row, before + held.text(device.state.at))


def endings_of(devices: Sequence[PlayedDevice], most: Optional[int] = None) -> List[Ending]:
    """All that is wrong at the end, the gravest first: who ends apart, and what is held on a device itself.
    Of things that go together so many are named at most."""
    found: List[Ending] = []
    for device in devices:
        found += endings_held(device, f"device {device.name}: " if len(devices) > 1 else "")
        found += [one for reader in readers_of([device]) for one in endings_of_reader(device, reader, most)]
    return sorted(found, key=lambda ending: ending.rank)


def passing_of(device: PlayedDevice, reader: Reader) -> Iterator[Ending]:
    """In what a reader was apart before the end, but for what lasts."""
    at, who = device.state.at, f"{reader.role} {reader.name}"
    for one in reader.divergences:
        if one.met_by is not None and one.cause.kind not in LASTING:
            name, since = name_of(reader, one.thing), at.since(one.since)
            until = "" if one.met_at is None else f" until {at.text(one.met_at)}"
            text = f"{who} was apart in {name} {since}{until}: {one.cause.text}"
            yield Ending(PASSED, device, one.since or 0, f"{reader.name}, {name}", text)


def passed_of(devices: Sequence[PlayedDevice]) -> List[Ending]:
    """In what a reader was apart last, before the end."""
    readers = ((device, reader) for device in devices for reader in readers_of([device]))
    found = [one for device, reader in readers for one in passing_of(device, reader)]
    return [max(found, key=lambda ending: ending.since)] if found else []


def cuts_of(devices: Sequence[PlayedDevice]) -> List[str]:
    """Who stopped before its last line, since no more of a history or of its calls is kept."""
    cut = cut_of(devices)
    return [] if cut is None else [f"the play was cut: {cut_text(cut)}"]
