#!/usr/bin/env python3
"""Makes a random record of one device and its driver: checks/random_devices.py SEED [--raw] > FILE

The driver does as drivers do: each contact ends before another one begins in its slot. With --raw it does
not, and sends autorepeats of keys, whether they are down or not."""

import random
import sys
from typing import Dict, List, Sequence, Tuple

KEYS = (30, 48, 46, 1, 0x110, 0x111, 0x145, 0x14A, 0x14D, 0x130, 0x2C0)
LEDS, SWITCHES = (0, 1, 2), (0, 1, 5)
AXES, AXES_OF_SLOTS = (0, 1, 2, 3, 0x18, 0x28), (0x30, 0x35, 0x36, 0x3A)
KEY, ABS, SW, LED = 1, 3, 5, 17
SLOT, TRACKING_ID = 0x2F, 0x39
AUTOREPEAT = 2

Raw = Tuple[int, int, int]


class RandomDevice:
    """A device of random keys, lights, switches, axes and slots, and what its driver sends."""

    def __init__(self, seed: int, is_raw: bool = False):
        self.random = r = random.Random(seed)
        self.is_raw, self.hint = is_raw, r.choice((8, 8, 16, 47))
        self.keys = r.sample(KEYS, r.randint(0, 7))
        self.leds = r.sample(LEDS, r.randint(0, 3)) if r.random() < 0.5 else []
        self.switches = r.sample(SWITCHES, r.randint(1, 3)) if r.random() < 0.4 else []
        self.axes = r.sample(AXES, r.randint(0, 4))
        self.slots = r.choice((0, 0, 2, 5, 10, 20))
        self.of_slots = r.sample(AXES_OF_SLOTS, r.randint(1, 4)) if self.slots else []
        if not (self.keys or self.leds or self.switches or self.axes or self.slots):
            self.keys = [KEYS[0]]
        self.ids: Dict[int, int] = {}
        self.last_id = 0

    def description(self) -> List[str]:
        lines = ["device d", f"hint {self.hint}"]
        for kind, codes in (("EV_KEY", self.keys), ("EV_LED", self.leds), ("EV_SW", self.switches)):
            lines += [f"cap {kind} {code}" for code in codes]
        lines += [f"axis {code} {self.random.randint(-5, 5)} -1000 1000 {self.fuzz()} 0 0" for code in self.axes]
        if self.slots:
            lines.append(f"slots {self.slots}")
        lines += [f"axis {code} 0 0 1000 {self.fuzz()} 0 0" for code in self.of_slots]
        return [*lines, "source s"]

    def fuzz(self) -> int:
        return self.random.choice((0, 0, 4))

    def of_a_contact(self) -> List[Raw]:
        """A contact begins, ends or moves."""
        slot = self.random.randrange(self.slots)
        events: List[Raw] = [(ABS, SLOT, slot)]
        if slot in self.ids and self.random.random() < 0.2:
            del self.ids[slot]
            events.append((ABS, TRACKING_ID, -1))
        elif slot not in self.ids or (self.is_raw and self.random.random() < 0.1):
            self.last_id = (self.last_id + 1) % 65536
            self.ids[slot] = self.last_id
            events.append((ABS, TRACKING_ID, self.last_id))
        if slot in self.ids:
            moved = [code for code in self.of_slots if self.random.random() < 0.7]
            events += [(ABS, code, self.random.randint(0, 1000)) for code in moved]
        return events

    def happening(self) -> List[Raw]:
        """Something that the driver tells."""
        kinds = ((KEY, self.keys), (LED, self.leds), (SW, self.switches), (ABS, self.axes))
        each = [(kind, code) for kind, codes in kinds for code in codes]
        if self.slots and (not each or self.random.random() < 0.5):
            return self.of_a_contact()
        kind, code = self.random.choice(each)
        if kind == ABS:
            return [(kind, code, self.random.randint(-1000, 1000))]
        value = self.random.choice((0, 1))
        is_repeat = kind == KEY and self.is_raw and self.random.random() < 0.1
        return [(kind, code, AUTOREPEAT if is_repeat else value)]

    def frames(self, counts: Sequence[int] = (200, 500, 1000)) -> List[str]:
        lines, now = [], 1000
        for _ in range(self.random.choice(counts)):
            now += self.random.choice((1000, 8000, 12000))
            events = [event for _ in range(self.random.randint(0, 5)) for event in self.happening()]
            lines += [f"do s event {now} {kind} {code} {value}" for kind, code, value in [*events, (0, 0, 0)]]
        return lines

    def record(self) -> str:
        return "".join(f"{line}\n" for line in ["inputrecord 2", *self.description(), *self.frames()])


if __name__ == "__main__":
    print(RandomDevice(int(sys.argv[1]), "--raw" in sys.argv).record(), end="")
