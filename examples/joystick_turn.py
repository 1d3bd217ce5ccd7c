#!/usr/bin/env python3
"""Writes the events of `joystick.rec`'s stream: the left stick goes round once, and a button is let go on the way.

usage: joystick_turn.py FILE
"""

import math
import struct
import sys

KEY, ABS = 1, 3
SOUTH, X, Y = 0x130, 0, 1
FRAMES, STEP = 40, 4000
START = 2000000


def frames():
    """For each frame its moment in microseconds and its events, without the report."""
    for i in range(1, FRAMES + 1):
        angle = 2 * math.pi * i / FRAMES
        events = [(ABS, X, round(-30000 * math.cos(angle))), (ABS, Y, round(-30000 * math.sin(angle)))]
        if i == FRAMES // 2:
            events.append((KEY, SOUTH, 0))
        yield START + i * STEP, events


def main():
    if len(sys.argv) != 2 or sys.argv[1] in ("-h", "--help"):
        print(__doc__.strip(), file=sys.stderr if len(sys.argv) != 2 else sys.stdout)
        return 2 if len(sys.argv) != 2 else 0
    with open(sys.argv[1], "wb") as file:
        for moment, events in frames():
            for kind, code, value in events + [(0, 0, 0)]:
                file.write(struct.pack("<QQHHi", *divmod(moment, 1000000), kind, code, value))
    return 0


if __name__ == "__main__":
    sys.exit(main())
