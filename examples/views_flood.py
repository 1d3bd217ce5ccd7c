#!/usr/bin/env python3
"""Writes views_flood.bin: 33 frames of motion, as `cat /dev/input/eventN` would have recorded them."""
import struct
import sys

with open(sys.argv[1], "wb") as out:
    for frame in range(33):
        for kind, code, value in ((2, 0, 1), (0, 0, 0)):
            out.write(struct.pack("<QQHHi", 0, 4000 + frame, kind, code, value))
