"""A reader as libevdev has it: the ways of second/ways.py that are libevdev's."""

import copy
from typing import Any, List, Tuple

from second.device import Caps, DROPPED, FIRST, ID, LAST, SLOT
from second.names import ABS, GREATEST, KEY, LED, REP, SW, SYN
from second.reader import Reader, View
from second.values import Event, HandedOut, Step

RESERVED = 0x2E
LEAST_AT_ONCE = 256
# The buttons that say how many fingers there are, from one finger on.
FINGERS = (0x145, 0x14D, 0x14E, 0x14F, 0x148)


def has_slots(caps: Caps) -> bool:
    return bool(caps.slots) and not (caps.ways.reserved_axis and RESERVED in caps.axes)


def most_at_once(caps: Caps) -> int:
    """How many events libevdev reads at once. It leaves the greatest code of each type out of its sum."""
    codes = {**caps.codes, ABS: set(caps.axes), REP: {0}}
    has = sum(len(codes.get(kind, set()) - {GREATEST[kind]}) for kind in caps.kinds - {SYN})
    more_slots = caps.slots - 1 if has_slots(caps) else 0
    return max(LEAST_AT_ONCE, 2 * (1 + has + more_slots * sum(code >= SLOT for code in caps.axes)))


class LibevdevView(View):
    def __init__(self, caps: Caps) -> None:
        super().__init__(caps)
        self.ways = caps.ways

    def take(self, event: Event) -> None:
        kind, code, value = event
        if (kind, code) == (ABS, SLOT) and not self.cells:
            return
        super().take(event)
        if self.ways.pressing_repeats and (kind, value) == (KEY, 2):
            self.on[KEY].add(code)


class Loss:
    """The events that lead from one view to another as libevdev makes them, and how many buttons of fingers
    among them the device lacks."""

    def __init__(self, old: View, new: View, caps: Caps) -> None:
        self.old, self.new, self.caps = copy.deepcopy(old), new, caps
        self.events: List[Event] = []
        self.lacking, self.slot = 0, 0
        if self.end_contacts():
            self.events.append((SYN, 0, 0))
        self.change_codes()
        for slot in range(len(new.cells)):
            self.change_slot(slot)
        if new.cells and self.slot != new.slot:
            self.events.append((ABS, SLOT, new.slot))
        if self.events:
            self.events.append((SYN, 0, 0))

    def ids(self) -> List[Tuple[int, int]]:
        """The tracking ids of each slot, in the old view and in the new one."""
        return [(old[ID - FIRST], new[ID - FIRST]) for old, new in zip(self.old.cells, self.new.cells)]

    def end_contacts(self) -> bool:
        ids = self.ids()
        ended = [slot for slot, (old, new) in enumerate(ids) if old not in (-1, new)]
        for slot in ended:
            self.events += [(ABS, SLOT, slot), (ABS, ID, -1)]
            self.slot = slot
        if ended:
            self.press_fingers(sum(old != -1 for old, _ in ids), 0)
            self.press_fingers(sum(old == new != -1 for old, new in ids), 1)
        return bool(ended)

    def press_fingers(self, count: int, value: int) -> None:
        if not 0 < count <= len(FINGERS):
            return
        event = (KEY, FINGERS[count - 1], value)
        if self.caps.supports(*event[:2]):
            self.events.append(event)
            self.old.take(event)
        else:
            # (a press of it is taken back among the keys)
            self.lacking += 1 + int(value and KEY in self.caps.kinds)

    def change_codes(self) -> None:
        for kind in (KEY, LED, SW):
            changed = sorted(self.old.on[kind] ^ self.new.on[kind])
            self.events += [(kind, code, int(code in self.new.on[kind])) for code in changed]
        axes = zip(self.old.axes, self.new.axes)
        self.events += [(ABS, code, new) for code, (old, new) in enumerate(axes) if old != new]

    def change_slot(self, slot: int) -> None:
        old, new = self.old.cells[slot], self.new.cells[slot]
        is_ended = old[ID - FIRST] != -1 and new[ID - FIRST] == -1
        if is_ended and self.caps.ways.forgotten_values:
            return
        changes = [(ABS, FIRST + i, new[i]) for i in range(LAST - FIRST + 1) if old[i] != new[i]]
        changes = [change for change in changes if change != (ABS, ID, -1)]
        if changes:
            self.events += [(ABS, SLOT, slot), *changes]
            self.slot = slot


class Libevdev(Reader):
    def __init__(self, caps: Caps) -> None:
        super().__init__(caps)
        self.ways, self.view = caps.ways, LibevdevView(caps)
        self.at_once = most_at_once(caps) if self.ways.long_reads else self.at_once
        # Of the events to come so many are taken for synthesised ones.
        self.counted = 0

    def start(self, device: Any) -> None:
        if self.caps.slots and not has_slots(self.caps):
            self.view.cells, self.view.slot = [], -1
        super().start(device)

    def queries(self) -> List[Step]:
        return [step for step in super().queries() if step[0] != "syncslots" or has_slots(self.caps)]

    def synthesise(self, old: View, new: View) -> List[Event]:
        if not self.ways.split_losses:
            return super().synthesise(old, new)
        loss = Loss(old, new, self.caps)
        self.counted = loss.lacking if self.ways.counted_buttons else 0
        return loss.events

    def take_all(self) -> None:
        """Takes into the view what was made and what was read, and drops both."""
        for event in self.synthesised + [item[0] for item in self.queue]:
            self.view.take(event)
        self.synthesised, self.queue, self.counted = [], [], 0

    def force(self, device: Any) -> None:
        was_plain = self.phase == "plain"
        super().force(device)
        if self.ways.forced_reads and not was_plain:
            self.take_all()
        if self.ways.forced_reads and not self.queue:
            self.read_more(device)

    def next(self, device: Any, in_sync_mode: bool) -> HandedOut:
        if self.ways.stale_view and self.phase != "plain" and not in_sync_mode:
            self.take_all()
            self.phase = "plain"
        return super().next(device, in_sync_mode)

    def next_made(self, device: Any) -> HandedOut:
        if self.synthesised and self.ways.split_losses:
            self.view.take(self.synthesised[0])
        if self.synthesised or not self.counted:
            return super().next_made(device)
        return self.next_counted(device)

    def next_counted(self, device: Any) -> HandedOut:
        """A real event that is handed out as a synthesised one."""
        if not self.queue and not self.read_more(device):
            if self.calls[-1][1][0] != "again":
                return ("end",)
            # (who reads in Sync mode is not told that there is nothing to read)
            self.counted, self.calls = 0, []
            return super().next_made(device)
        event = self.queue.pop(0)[0]
        self.view.take(event)
        self.counted -= 1
        if event[:2] == (SYN, DROPPED) and self.counted:
            self.phase = "needed"
        return ("made", event)

    def next_read(self, device: Any) -> HandedOut:
        if self.ways.split_losses:
            for event in self.synthesised:
                self.view.take(event)
        self.synthesised, self.phase, self.counted = [], "plain", 0
        while self.queue or self.read_more(device):
            if not self.ways.single_ids or not self.is_double(self.queue[0][0]):
                return super().next_read(device)
            self.queue.pop(0)
        return ("end",)

    def is_double(self, event: Event) -> bool:
        """Whether a tracking id comes where its slot has a contact, or ends one that there is not."""
        if event[:2] != (ABS, ID) or not self.view.cells:
            return False
        return (event[2] == -1) == (self.view.cells[self.view.slot][ID - FIRST] == -1)
