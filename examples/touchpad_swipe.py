#!/usr/bin/env python3
"""Writes touchpad_swipe.bin: a swipe of three fingers, as `cat /dev/input/eventN` would have recorded it."""
import struct
import sys

SYN, KEY, ABS = 0, 1, 3
TOUCH, FINGER, TRIPLETAP = 0x14A, 0x145, 0x14E
X, Y, PRESSURE = 0x00, 0x01, 0x18
SLOT, MT_X, MT_Y, ID, MT_PRESSURE = 0x2F, 0x35, 0x36, 0x39, 0x3A

out = open(sys.argv[1], "wb")
moment = 1764255600_024000


def event(kind, code, value):
    out.write(struct.pack("<QQHHi", moment // 1000000, moment % 1000000, kind, code, value))


def report():
    global moment
    event(SYN, 0, 0)
    moment += 12000


# Two more fingers come down beside the one in slot 0.
for slot, x in ((1, 3400), (2, 3800)):
    for code, value in ((SLOT, slot), (ID, 100 + slot), (MT_X, x), (MT_Y, 2400), (MT_PRESSURE, 55)):
        event(ABS, code, value)
event(KEY, FINGER, 0)
event(KEY, TRIPLETAP, 1)
report()
# All three move to the right and a little up, 60 times.
for i in range(1, 61):
    for slot, x in ((0, 3000), (1, 3400), (2, 3800)):
        event(ABS, SLOT, slot)
        event(ABS, MT_X, x + 20 * i)
        event(ABS, MT_Y, (2500 if slot == 0 else 2400) - 16 * i)
    event(ABS, X, 3000 + 20 * i)
    event(ABS, Y, 2500 - 16 * i)
    report()
# They lift.
for slot in (0, 1, 2):
    event(ABS, SLOT, slot)
    event(ABS, ID, -1)
event(KEY, TOUCH, 0)
event(KEY, TRIPLETAP, 0)
event(ABS, PRESSURE, 0)
report()
# Half a second later one finger comes down again: a new contact, in slot 0.
moment += 500000
for code, value in ((SLOT, 0), (ID, 103), (MT_X, 3500), (MT_Y, 3000), (MT_PRESSURE, 70)):
    event(ABS, code, value)
event(KEY, TOUCH, 1)
event(KEY, FINGER, 1)
for code, value in ((X, 3500), (Y, 3000), (PRESSURE, 70)):
    event(ABS, code, value)
report()
