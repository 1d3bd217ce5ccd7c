"""Follows a keyboard, as a program does that ignores losses: run by tools/run, which ends it."""

import os
import select
import struct
import sys

from nodes import EVENT_BYTES, opened

LOST = (0, 3)

node = opened()
while True:
    select.select([node], [], [])
    try:
        data = os.read(node, 64 * EVENT_BYTES)
    except BlockingIOError:
        continue
    for at in range(0, len(data), EVENT_BYTES):
        if struct.unpack_from("HH", data, at + 16) == LOST:
            print("lost events", file=sys.stderr, flush=True)
