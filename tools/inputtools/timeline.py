"""What happens in a history: where a client's belief and the device part and meet, who grabs the device, and
where events are lost. The page draws the ranges of places in which any of this is.
"""

from bisect import bisect_left
from itertools import groupby
from typing import List, NamedTuple, Sequence, Tuple

from inputtools.joysticks import JoyWalk
from inputtools.owners import Owner
from inputtools.places import Places
from inputtools.played import Client, PlayedDevice, Reader
from inputtools.still_down import still_down_of
from inputtools.stuck_text import name_of
from inputtools.endings import apart_of, first_of, lasting_of, names_text

LEAST_RANGE = 200
MOST_RANGES = 40

# The kinds, the gravest first, and what is said of one.
KINDS = {
    "parts": "{who} parts from the device in {what}",
    "held": "{what}, which is held to the end, begins",
    "loses": "{who} loses events",
    "revoked": "{who} is revoked",
    "grabs": "{who} grabs the device",
    "ungrabs": "the grab of {who} ends",
    "meets": "{who} meets the device again in {what}",
}

# How many entries a text tells at most.
TOLD = 12


class Entry(NamedTuple):
    place: int
    kind: str
    who: str
    what: str = ""


def entries_of_client(played: PlayedDevice, client: Client) -> List[Entry]:
    # (a joystick synchronises anew where it lost events)
    lost = client.walk.synchronised if isinstance(client.walk, JoyWalk) else client.walk.losses
    who, numbers, handles = client.name, {each.number for each in client.walk.clients}, played.handles
    grabs = [grab for grab in handles.grabs if grab.client in numbers]
    found = [Entry(place, "loses", who) for place in lost]
    found += [Entry(place, "revoked", who) for number, place in handles.revokes.items() if number in numbers]
    found += [Entry(grab.begin, "grabs", who) for grab in grabs]
    return found + [Entry(grab.end, "ungrabs", who) for grab in grabs if grab.end is not None]


def partings_of(reader: Reader) -> List[Entry]:
    """Where a reader parts from its device and meets it again. What lasts is told where it begins."""
    found = []
    for group in lasting_of(reader).values():
        first, names = first_of(group).since or 0, {name_of(reader, divergence.thing) for divergence in group}
        found += [Entry(first, "parts", reader.name, name) for name in names]
    for divergence in apart_of(reader):
        name = name_of(reader, divergence.thing)
        found.append(Entry(divergence.since or 0, "parts", reader.name, name))
        if divergence.met_at is not None:
            found.append(Entry(divergence.met_at, "meets", reader.name, name))
    return found


def timeline(played: PlayedDevice) -> List[Entry]:
    """All that happens on a device, by place. (What is told of the history's end is of its last place.)"""
    last = max(len(played.report.history) - 1, 0)
    held = still_down_of(played.state)
    found = [Entry(each.since or 0, "held", played.name, each.thing.text()) for each in held]
    for reader in played.readers():
        found += partings_of(reader)
        if isinstance(reader, Owner):
            found += [Entry(sent.place, "loses", reader.name) for sent in reader.lost]
        else:
            found += entries_of_client(played, reader)
    return sorted(one._replace(place=min(one.place, last)) for one in found)


def between(found: Sequence[Entry], begin: int, end: int) -> Sequence[Entry]:
    """What happens from a place on, up to another one. `found` is in order."""
    return found[bisect_left(found, Entry(begin, "", "")) : bisect_left(found, Entry(end, "", ""))]


def ranges_of(found: Sequence[Entry], begin: int, end: int) -> List[Tuple[int, int]]:
    """The ranges of places, of one length, in which anything happens: at most 40, and none where one picture
    has all."""
    if end - begin <= LEAST_RANGE:
        return []
    places, length = {one.place for one in between(found, begin, end)}, LEAST_RANGE
    while len({(place - begin) // length for place in places}) > MOST_RANGES:
        length += LEAST_RANGE
    firsts = sorted({begin + (place - begin) // length * length for place in places})
    return [(first, min(first + length, end)) for first in firsts]


def order(one: Entry) -> Tuple[int, str]:
    return list(KINDS).index(one.kind), one.who


def gravest(found: Sequence[Entry]) -> str:
    """The kind that a range is marked with."""
    return min(found, key=order).kind


def lines_of(found: Sequence[Entry], at: Places) -> List[str]:
    """What happens, in words: one line for each kind and client."""
    lines = []
    for _, entries in groupby(sorted(found, key=order), order):
        group = list(entries)
        names = sorted({one.what for one in group})
        places = sorted({one.place for one in group})
        where = f"at {at.text(places[0])}"
        if len(places) > 1:
            where = f"at {len(places)} places from {at.bare(places[0])} to {at.bare(places[-1])}"
        lines.append(KINDS[group[0].kind].format(who=group[0].who, what=names_text(names)) + " " + where)
    return lines


def text_of(found: Sequence[Entry], at: Places) -> str:
    """What happens, in one text that is no longer than can be read."""
    lines = lines_of(found, at)
    more = f"; and {len(lines) - TOLD} more" if len(lines) > TOLD else ""
    return "; ".join(lines[:TOLD]) + more
