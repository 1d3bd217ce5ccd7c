#!/usr/bin/env python3
"""Makes a random record of a gamepad, and how it stands at last: checks/random_pads.py SEED FRAMES > FILE"""

import random
import sys
from typing import Dict, List, Tuple

BUTTONS = (0x130, 0x131, 0x133, 0x134, 0x136, 0x137, 0x13A, 0x13B, 0x13C, 0x13D, 0x13E)
STICKS, HATS = (0, 1, 2, 3, 4, 5), (16, 17)
KEY, ABS = 1, 3


class RandomPad:
    """A gamepad whose buttons and axes change by chance. `state` has what each stands at."""

    def __init__(self, seed: int, frames: int):
        self.random = random.Random(seed)
        self.state: Dict[Tuple[int, int], int] = {}
        self.lines: List[str] = []
        for now in range(1000, 1000 + 4000 * frames, 4000):
            for _ in range(self.random.randint(1, 3)):
                kind, code, value = self.change()
                self.state[kind, code] = value
                self.lines.append(f"do s event {now} {kind} {code} {value}")
            self.lines.append(f"do s event {now} 0 0 0")

    def change(self) -> Tuple[int, int, int]:
        if self.random.random() < 0.5:
            return KEY, self.random.choice(BUTTONS), self.random.choice((0, 1))
        if self.random.random() < 0.7:
            return ABS, self.random.choice(STICKS), self.random.randint(-32768, 32767)
        return ABS, self.random.choice(HATS), self.random.choice((-1, 0, 1))

    def record(self) -> str:
        caps = [f"cap EV_KEY {button}" for button in BUTTONS]
        caps += [f"axis {axis} 0 -32768 32767 0 0 0" for axis in STICKS]
        caps += [f"axis {axis} 0 -1 1 0 0 0" for axis in HATS]
        head = ["inputrecord 2", "device pad", "# name: Random Pad", "hint 16"]
        return "".join(f"{line}\n" for line in [*head, *caps, "source s", *self.lines])

    def stands(self) -> str:
        """How its buttons and sticks stand at the end, as tests/run_programs/sdl.c prints it."""
        buttons = [str(self.state.get((KEY, button), 0)) for button in BUTTONS]
        sticks = [str(self.state.get((ABS, axis), 0)) for axis in STICKS]
        return " ".join(["stands", *buttons, "/", *sticks])


if __name__ == "__main__":
    made = RandomPad(int(sys.argv[1]), int(sys.argv[2]))
    print(made.record(), end="")
    print(made.stands(), file=sys.stderr)
