"""Compares two reports: each actor's entries are paired by what they say, and places by their order.

Entries are paired so that as few as possible are left over. What is compared of them are the words but
places, times and the numbers of clients. Places are compared by their order: where two entries of a device
stand in one order in the first report and in the other in the second, they differ. So one event more in
a capture is one difference, though each place after it is another one. Times are compared by their
distance: where it changes from one pair to the next, the times differ.
"""

import bisect
from dataclasses import dataclass
from itertools import groupby, zip_longest
from typing import Dict, Hashable, Iterator, List, NamedTuple, Optional, Sequence, Tuple

from inputtools.progress import progress
from inputtools.report import (
    Again, Call, Device, Entry, Feedback, JoyRecord, Part, Reply, Report, SourceLine, Step, Stop, Took,
)

# So many entries of an actor may be left over; what follows is told as one difference.
GREATEST_DISTANCE = 500

CLIENT_STEPS = (
    "close", "discard", "grab", "ungrab", "revoke", "read", "getkeys", "getswitches", "getleds", "getsounds",
    "syncslots", "getaxis", "getslots", "setaxis", "write", "mask", "clock",
)


@dataclass(frozen=True)
class Difference:
    """Where two reports differ, and in what: the actor (or None for a device's line), the number of the entry
    in its part from 1, the place in the device's history, and the line of each report. Where one has none,
    `before` is its line before which that would stand."""

    what: str
    device: Optional[str]
    actor: Optional[str]
    entry: Optional[int] = None
    place: Optional[int] = None
    first: Optional[Entry] = None
    second: Optional[Entry] = None
    before: Optional[Entry] = None


Key = Tuple[str, ...]


class Item:
    """An entry of a part: its number from 1, its line, the place that was told last, the words by which it is
    paired, and what kind of entry it is."""

    def __init__(self, number: int, line: Entry, place: Optional[int], is_sight: bool) -> None:
        self.number, self.line, self.place = number, line, place
        self.key: Key = key_of(line) if is_sight else view_key(line)
        self.kind: Key = self.key[:2] if isinstance(line, Call) or not is_sight else self.key[:1]


def items_of(part: Part) -> List[Item]:
    """The entries of a part: what the actor saw, its view, and how it ended."""
    lines: List[Entry] = [*part.sight, *part.view, part.end]
    items, place = [], None
    for number, line in enumerate(lines, 1):
        told = line.place_told()
        place = place if told is None else told
        items.append(Item(number, line, place, number <= len(part.sight)))
    return items


def view_key(line: Entry) -> Key:
    """The words of a line of a view, or of an end but for its place and for what a source counts."""
    if isinstance(line, Stop):
        reason = line.reason.split(" ")
        return ("view", "stop", *(reason[:-1] if len(reason) > 1 else reason))
    return ("view", *line.text.split(" "))


def key_of(line: Entry) -> Key:
    """The words of an entry of a sight, but places, times and the numbers of clients."""
    if isinstance(line, Took):
        return ("took", *line.text.split(" ")[3:])
    if isinstance(line, Call):
        return ("call", *step_key(line.step), "reply", *reply_key(line.reply))
    if isinstance(line, Again):
        return ("again",)
    words = line.text.split(" ")
    return (words[0], *words[2:]) if isinstance(line, (JoyRecord, Feedback)) else tuple(words)


def step_key(step: Step) -> Key:
    """The words of a step, but a client's number and a moment."""
    words = step.without_moment()
    return (words[0], *words[2:]) if step.name in CLIENT_STEPS else words


def reply_key(reply: Reply) -> Key:
    """The words of a reply, but its place and a client's number. (How many were read is told by the events behind.)"""
    if reply.name == "took":
        return (reply.name,)
    return (reply.name, *(reply.rest[1:] if reply.name == "opened" else reply.rest))


# Pairing


Pair = Tuple[int, int]
Pairs = List[Pair]


def pairs_of(ours: Sequence[Hashable], theirs: Sequence[Hashable]) -> Tuple[Pairs, bool]:
    """The pairs of equal keys that leave as few as possible over: (index in the first, in the second), in
    order; and whether all was paired that can be."""
    numbers: Dict[Hashable, int] = {}
    first, second = ([numbers.setdefault(key, len(numbers)) for key in keys] for keys in (ours, theirs))
    begin, end, least = 0, 0, min(len(first), len(second))
    while begin < least and first[begin] == second[begin]:
        begin += 1
    while end < least - begin and first[-1 - end] == second[-1 - end]:
        end += 1
    middle, is_whole = shortest(first[begin : len(first) - end], second[begin : len(second) - end])
    front = [(index, index) for index in range(begin)]
    behind = [(len(first) - index, len(second) - index) for index in range(end, 0, -1)]
    return front + [(one + begin, other + begin) for one, other in middle] + behind, is_whole


def shortest(first: List[int], second: List[int]) -> Tuple[Pairs, bool]:
    """The same for what differs at both ends: the shortest way through both lists, by steps that leave one over.
    Beyond a distance the rest is not paired."""
    most = min(len(first) + len(second), GREATEST_DISTANCE)
    # (how far the way goes on each diagonal, the middle one being that of equal indices)
    middle, furthest = most + 1, [-1] * (2 * most + 3)
    trace: List[List[int]] = []
    furthest[middle + 1] = 0
    for distance in range(most + 1):
        trace.append(furthest[middle - distance - 1 : middle + distance + 2])
        for line in range(middle - distance, middle + distance + 1, 2):
            at = max(furthest[line + 1], furthest[line - 1] + 1)
            other = at - line + middle
            while at < len(first) and other < len(second) and first[at] == second[other]:
                at, other = at + 1, other + 1
            furthest[line] = at
            if at >= len(first) and other >= len(second):
                return way_back(trace, len(first), len(second)), True
    ends = [(furthest[line], furthest[line] - line + middle) for line in range(middle - most, middle + most + 1, 2)]
    within = [(at, other) for at, other in ends if at <= len(first) and 0 <= other <= len(second)]
    return way_back(trace, *max(within, key=lambda end: end[0] + end[1])), False


def way_back(trace: List[List[int]], at: int, other: int) -> Pairs:
    """The pairs on the way that ends at two indices."""
    pairs = []
    for distance in range(len(trace) - 1, -1, -1):
        furthest, line = trace[distance], at - other + distance + 1
        is_from_above = furthest[line - 1] < furthest[line + 1]
        begin = furthest[line + 1 if is_from_above else line - 1]
        left = begin - (at - other) - (1 if is_from_above else -1)
        while at > begin and other > left:
            at, other = at - 1, other - 1
            pairs.append((at, other))
        at, other = begin, left
    return pairs[::-1]


def slid(pairs: Pairs, one: List[Item], other: List[Item]) -> Pairs:
    """The pairs, moved where equal keys leave a choice: so that the places of a pair are as far apart as those of the
    pair after it, where they are not as far apart as those of the pair before it."""
    pairs = list(pairs)
    for start in range(len(pairs) - 1, -1, -1):
        behind = pairs[start + 1] if start + 1 < len(pairs) else (len(one), len(other))
        at = start
        while at >= 0:
            moved = moved_pair(pairs[at], behind)
            if moved is None or one[moved[0]].key != other[moved[1]].key:
                break
            apart = [distance(pair, one, other) for pair in (pairs[at], moved, behind)]
            before_it = distance(pairs[at - 1], one, other) if at else None
            if apart[0] == before_it or (apart[1] != apart[2] and None not in apart):
                break
            pairs[at] = behind = moved
            at -= 1
    return pairs


def moved_pair(pair: Pair, behind: Pair) -> Optional[Pair]:
    """The pair that a pair becomes where what is left over after it is left over before it; or None where nothing
    is, or something in both lists."""
    if behind[0] == pair[0] + 1 and behind[1] > pair[1] + 1:
        return pair[0], behind[1] - 1
    if behind[1] == pair[1] + 1 and behind[0] > pair[0] + 1:
        return behind[0] - 1, pair[1]
    return None


def distance(pair: Pair, one: List[Item], other: List[Item]) -> Optional[int]:
    """How far the places of a pair are apart, or None."""
    if pair[0] >= len(one) or pair[1] >= len(other):
        return None
    first, second = one[pair[0]].line.place_told(), other[pair[1]].line.place_told()
    return None if first is None or second is None else second - first


# Comparing


class Other(NamedTuple):
    """Entries that are no pair of equal ones. One may be None, and `before` is what comes next there."""

    one: Optional[Item]
    other: Optional[Item]
    before: Optional[Item] = None


class Parts:
    """An actor's entries in both reports: those that are equal, and the others, in pairs as far as can be."""

    def __init__(self, first: Part, second: Part) -> None:
        progress.tell(f"what {first.name} saw is compared")
        one, other = items_of(first), items_of(second)
        self.device = first.device.name if first.device else None
        self.name = first.name
        self.same: List[Tuple[Item, Item]] = []
        self.others: List[Other] = []
        pairs, self.is_whole = pairs_of([item.key for item in one], [item.key for item in other])
        pairs, last = slid(pairs, one, other), (-1, -1)
        for pair in [*pairs, (len(one), len(other))]:
            is_paired = pair[0] < len(one)
            self.add_between(one[last[0] + 1 : pair[0] + 1], other[last[1] + 1 : pair[1] + 1], is_paired)
            if is_paired:
                self.same.append((one[pair[0]], other[pair[1]]))
            last = pair

    def add_between(self, one: List[Item], other: List[Item], is_paired: bool) -> None:
        """Entries that are left over before a pair, the last of both lists, or at the end: those of a kind
        are told together."""
        ends = len(one) - is_paired, len(other) - is_paired
        pairs, _ = pairs_of([item.kind for item in one[: ends[0]]], [item.kind for item in other[: ends[1]]])
        last = (-1, -1)
        for pair in [*pairs, ends]:
            ours, theirs = (items[at] if at < len(items) else None for items, at in zip((one, other), pair))
            self.others += [Other(item, None, theirs) for item in one[last[0] + 1 : pair[0]]]
            self.others += [Other(None, item, ours) for item in other[last[1] + 1 : pair[1]]]
            self.others += [Other(ours, theirs)] if pair != ends else []
            last = pair

    def differences(self, ignores_times: bool) -> List[Difference]:
        found = []
        for one, other, before in self.others:
            what = "another" if one and other else "only in the first" if one else "only in the second"
            found.append(self.difference(what, one, other, before))
        if not self.is_whole:
            what = f"more than {GREATEST_DISTANCE} entries are left over, those behind paired by their kind"
            found.append(Difference(what, self.device, self.name))
        return found + self.other_counts() + ([] if ignores_times else self.other_times())

    def difference(self, what: str, one: Optional[Item], other: Optional[Item],
                   before: Optional[Item] = None) -> Difference:
        items = [item for item in (one, other) if item]
        places = [item.place for item in items if item.place is not None]
        place = min(places, default=before.place if before else None)
        first, second, third = (item.line if item else None for item in (one, other, before))
        return Difference(what, self.device, self.name, items[0].number, place, first, second, third)

    def other_counts(self) -> List[Difference]:
        """Reads that took another number of events, where as many events are after them."""
        counts = [(read_count(one), read_count(other), one, other) for one, other in self.same]
        if self.others:
            return []
        return [self.difference("another count", one, other) for a, b, one, other in counts if a != b]

    def other_times(self) -> List[Difference]:
        """The first of each run of entries whose times are as far apart, and not equal."""
        found = []
        for shift, group in groupby(self.shifts(), lambda each: each[0]):
            run = [items for _, items in group]
            if shift:
                more = f" and at {len(run) - 1} entries behind it" if len(run) > 1 else ""
                found.append(self.difference(f"another time by {shift:+d}{more}", *run[0]))
        return found

    def shifts(self) -> Iterator[Tuple[int, Tuple[Item, Item]]]:
        """The pairs that tell a time, each with how far the times are apart."""
        for one, other in self.same:
            first, second = one.line.time_told(), other.line.time_told()
            if first is not None and second is not None:
                yield second - first, (one, other)


def read_count(item: Item) -> Optional[int]:
    line = item.line
    return line.reply.number if isinstance(line, Call) and line.reply.name == "took" else None


def spot(line: Entry) -> Optional[int]:
    """Where an entry stands in the order of a device's steps: at a step an even number, between two an odd
    one; or None."""
    place = line.place_told()
    if place is None:
        return None
    is_refused = isinstance(line, Call) and line.reply.is_refused
    return 2 * place - (is_refused or isinstance(line, (Again, Stop, Feedback)))


class Spots(NamedTuple):
    """Where a pair of entries of an actor stands in both orders."""

    one: int
    other: int
    part: Parts
    items: Tuple[Item, Item]


def spots_of(parts: List[Parts]) -> List[Spots]:
    """Those of all pairs that have places, in the first order."""
    found = []
    for part in parts:
        for items in part.same:
            first, second = spot(items[0].line), spot(items[1].line)
            if first is not None and second is not None:
                found.append(Spots(first, second, part, items))
    return sorted(found, key=lambda each: (each.one, each.other))


def out_of_order(parts: List[Parts]) -> List[Difference]:
    """The pairs of entries of a device whose places stand in another order: all but the most that do not."""
    spots = spots_of(parts)
    kept = longest_ascending([each.other for each in spots])
    chain, are_kept = [spots[index] for index in kept], set(kept)
    wrong = [each for index, each in enumerate(spots) if index not in are_kept]
    for before_it, each in zip(chain, chain[1:]):
        are_steps = before_it.one % 2 == each.one % 2 == 0
        if are_steps and (before_it.one == each.one) != (before_it.other == each.other):
            wrong.append(each)
    return [each.part.difference("another order of places", *each.items) for each in wrong]


def longest_ascending(values: List[int]) -> List[int]:
    """The indices of a longest list of values that do not descend."""
    ends: List[int] = []
    last: List[int] = []
    back: List[Optional[int]] = []
    for index, value in enumerate(values):
        at = bisect.bisect_right(ends, value)
        ends[at : at + 1], last[at : at + 1] = [value], [index]
        back.append(last[at - 1] if at else None)
    chain: List[int] = []
    end = last[-1] if last else None
    while end is not None:
        chain.append(end)
        end = back[end]
    return chain[::-1]


def compare_actors(parts: List[Parts], ignores_times: bool) -> List[Difference]:
    """The differences of actors of one device."""
    return [each for part in parts for each in part.differences(ignores_times)] + out_of_order(parts)


def compare_device(one: Device, other: Device, parts: List[Parts], ignores_times: bool) -> List[Difference]:
    """The differences on a device: of its actors, and else of its counts and its history."""
    found = compare_actors(parts, ignores_times)
    if found:
        return found
    place = min(one.steps, other.steps)
    if one.line.text != other.line.text:
        found.append(Difference("another count", one.name, None, None, place, one.line, other.line))
    for part in parts:
        ours, theirs = (item.line for item in part.same[0])
        if isinstance(ours, SourceLine) and ours.text != theirs.text:
            found.append(Difference("another count", one.name, part.name, 1, place, ours, theirs))
    if not found and one.history and other.history:
        found = compare_histories(one, other)
    return found


def compare_histories(one: Device, other: Device) -> List[Difference]:
    """The first step that is another one, where nothing else differs."""
    pairs = enumerate(zip_longest(one.history, other.history))
    place = next((place for place, (ours, theirs) in pairs if ours != theirs), None)
    if place is None:
        return []
    lines = one.step_line(place), other.step_line(place)
    return [Difference("another step", one.name, None, None, place, *lines)]


def compare(first: Report, second: Report, ignores_times: bool = False) -> List[Difference]:
    """The differences of two reports, device by device."""
    found = missing(first, second, "first") + missing(second, first, "second")
    devices = {device.name: device for device in second.devices}
    both = [name for name, part in first.parts.items()
            if name in second.parts and part.role == second.parts[name].role]
    for device in first.devices:
        if device.name in devices:
            parts = [Parts(part, second.parts[part.name]) for part in device.parts if part.name in both]
            found += in_order(compare_device(device, devices[device.name], parts, ignores_times))
    for name in both:
        if first.parts[name].device is None:
            found += compare_actors([Parts(first.parts[name], second.parts[name])], ignores_times)
    return found


def in_order(differences: List[Difference]) -> List[Difference]:
    """Actor by actor, that which differs at the first place in front; those of an actor as they stand in its part."""
    first: Dict[Optional[str], int] = {}
    for each in differences:
        if each.place is not None:
            first[each.actor] = min(each.place, first.get(each.actor, each.place))
    actors = list(dict.fromkeys(each.actor for each in differences))
    actors.sort(key=lambda actor: (actor not in first, first.get(actor, 0)))
    number = {actor: number for number, actor in enumerate(actors)}
    return sorted(differences, key=lambda each: (number[each.actor], each.entry is None, each.entry or 0))


def missing(one: Report, other: Report, which: str) -> List[Difference]:
    """Devices and actors that one of both reports has alone."""
    def alone(device: Optional[str], actor: Optional[str], line: Entry, place: Optional[int]) -> Difference:
        lines = (line, None) if which == "first" else (None, line)
        return Difference(f"only in the {which}", device, actor, None, place, *lines)

    names = {device.name for device in other.devices}
    found = [alone(each.name, None, each.line, 0) for each in one.devices if each.name not in names]
    for name, part in one.parts.items():
        if name not in other.parts or other.parts[name].role != part.role:
            device = part.device.name if part.device else None
            found.append(alone(device, name, part.first, items_of(part)[0].place))
    return found
