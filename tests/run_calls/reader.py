"""Reads the first device to its end, so many events at once, and prints each: its time in microseconds,
type, code and value. With `held` it has a second open file, which it does not read."""

import os
import struct
import sys

from nodes import EVENT_BYTES, NODE

held = [os.open(NODE, os.O_RDONLY) for word in sys.argv[2:] if word == "held"]
node = os.open(NODE, os.O_RDONLY)
try:
    while True:
        data = os.read(node, int(sys.argv[1]) * EVENT_BYTES)
        for at in range(0, len(data), EVENT_BYTES):
            seconds, micros, *event = struct.unpack_from("qqHHi", data, at)
            print(seconds * 1000000 + micros, *event)
except OSError:
    pass
