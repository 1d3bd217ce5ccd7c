"""What a client knows of its device, and a reader that keeps it right, by the rules of docs/READER.md."""

import copy
from typing import Any, Dict, List, Optional, Set, Tuple

from second.device import Caps, DROPPED, FIRST, ID, LAST, REPORT, SLOT, is_slot_value, new_slot
from second.names import ABS, KEY, LED, SW, SYN
from second.values import Answer, Event, HandedOut, Item, Reply, Step

NO_CLIENT = 4294967295
AT_ONCE = 64


class View:
    def __init__(self, caps: Caps) -> None:
        self.on: Dict[int, Set[int]] = {KEY: set(), LED: set(), SW: set()}
        self.axes = [0] * 64
        self.slot = 0
        self.cells = [new_slot() for _ in range(caps.slots)]

    def take(self, event: Event) -> None:
        kind, code, value = event
        if kind in self.on and not (kind == KEY and value == 2):
            (self.on[kind].add if value else self.on[kind].discard)(code)
        elif kind == ABS and code == SLOT:
            self.slot = value
        elif kind == ABS and is_slot_value(code):
            if 0 <= self.slot < len(self.cells):
                self.cells[self.slot][code - FIRST] = value
        elif kind == ABS:
            self.axes[code] = value

    def answer(self, step: Step, reply: Reply, cells: Any) -> None:
        if reply[0] == "bits" and reply[2] in self.on:
            self.on[reply[2]] = set(reply[3])
        elif reply[0] == "axis" and not SLOT <= step[2] <= LAST:
            self.axes[step[2]] = reply[2]
        elif reply[0] == "cells" and step[0] == "syncslots":
            self.slot = reply[3]
            self.cells = [list(cells[14 * i : 14 * i + 14]) for i in range(len(self.cells))]


def synthesised(old: View, new: View) -> List[Event]:
    """The events that lead from the old view to the new one."""
    old = copy.deepcopy(old)
    events: List[Event] = []

    def make(group: List[Event], event: Event) -> None:
        group.append(event)
        old.take(event)

    def to_slot(group: List[Event], slot: int) -> None:
        if old.slot != slot:
            make(group, (ABS, SLOT, slot))

    lifts: List[Event] = []
    for slot, values in enumerate(old.cells):
        before, after = values[ID - FIRST], new.cells[slot][ID - FIRST]
        if before >= 0 and after >= 0 and before != after:
            to_slot(lifts, slot)
            make(lifts, (ABS, ID, -1))
    if lifts:
        events += lifts + [(SYN, REPORT, 0)]

    changes: List[Event] = []
    for kind in (KEY, LED, SW):
        for code in sorted(old.on[kind] ^ new.on[kind]):
            make(changes, (kind, code, int(code in new.on[kind])))
    for code in range(64):
        if old.axes[code] != new.axes[code]:
            make(changes, (ABS, code, new.axes[code]))
    for slot in range(len(new.cells)):
        for i in range(14):
            if old.cells[slot][i] != new.cells[slot][i]:
                to_slot(changes, slot)
                make(changes, (ABS, FIRST + i, new.cells[slot][i]))
    to_slot(changes, new.slot)
    return events + (changes + [(SYN, REPORT, 0)] if changes else [])


class Reader:
    def __init__(self, caps: Caps) -> None:
        self.caps, self.view, self.client, self.phase = caps, View(caps), NO_CLIENT, "plain"
        self.queue: List[Item] = []
        self.synthesised: List[Event] = []
        self.calls: List[Tuple[Step, Reply]] = []
        self.at_once = AT_ONCE

    def call(self, device: Any, step: Step) -> Answer:
        reply, written = device.step(step)
        self.calls.append((step, reply))
        return reply, written

    def queries(self) -> List[Step]:
        flags = [("getkeys", KEY), ("getleds", LED), ("getswitches", SW)]
        steps: List[Step] = [(op, self.client) for op, kind in flags if kind in self.caps.kinds]
        steps += [("getaxis", self.client, code) for code in sorted(self.caps.axes) if not SLOT <= code <= LAST]
        return steps + ([("syncslots", self.client)] if self.caps.slots else [])

    def ask(self, device: Any) -> Optional[View]:
        """The view that the answers make, or none where a query was refused."""
        view = copy.deepcopy(self.view)
        for step in self.queries():
            reply, written = self.call(device, step)
            if reply[0] == "refused":
                return None
            view.answer(step, reply, written)
        return view

    def start(self, device: Any) -> None:
        self.calls = []
        reply, _ = self.call(device, ("open",))
        if reply[0] == "refused":
            return
        self.client, self.queue, self.synthesised = reply[2], [], []
        view = self.ask(device)
        self.phase = "plain" if view else "needed"
        self.view = view or self.view

    def synchronise(self, device: Any) -> bool:
        self.queue, self.synthesised, self.phase = [], [], "needed"
        reply, _ = self.call(device, ("discard", self.client))
        view = self.ask(device) if reply[0] != "refused" else None
        if view is None:
            return False
        self.synthesised, self.view, self.phase = self.synthesise(self.view, view), view, "handing"
        return True

    def synthesise(self, old: View, new: View) -> List[Event]:
        return synthesised(old, new)

    def force(self, device: Any) -> None:
        self.calls, self.phase = [], "needed"

    def next(self, device: Any, in_sync_mode: bool) -> HandedOut:
        """What is handed out: ("took", item), ("made", event), ("synced",), or ("end",) where a call says so."""
        self.calls = []
        if self.phase == "needed" and not self.synchronise(device):
            return ("end",)
        return self.next_made(device) if in_sync_mode else self.next_read(device)

    def next_made(self, device: Any) -> HandedOut:
        if self.synthesised:
            return ("made", self.synthesised.pop(0))
        self.phase = "plain"
        return ("synced",)

    def next_read(self, device: Any) -> HandedOut:
        self.synthesised, self.phase = [], "plain"
        if not self.queue and not self.read_more(device):
            return ("end",)
        item = self.queue.pop(0)
        self.view.take(item[0])
        if item[0][:2] == (SYN, DROPPED):
            self.phase = "needed"
        return ("took", item)

    def read_more(self, device: Any) -> bool:
        """Reads into the empty queue, and answers whether there was anything."""
        reply, written = self.call(device, ("read", self.client, self.at_once))
        self.queue = written if reply[0] == "took" else []
        return bool(self.queue)
