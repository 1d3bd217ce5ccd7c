#!/usr/bin/env python3
"""Writes records at the bounds of what they may have, each with the model's report, for `rt try --cases`.

usage: records_at_bounds.py FOLDER
"""

import os
import sys
from typing import Callable, List, Tuple

if not __package__:
    import repository_path  # noqa: F401  (run as a script: the packages of this repository)

from checks.random_records import write_all

MOMENT_MAX = 9000000000000000
LEAST, GREATEST = -(2**31), 2**31 - 1


def events(moment: int, *texts: str) -> List[str]:
    return [f"do s event {moment} {text}" for text in texts]


def report(moment: int, value: int = 0) -> List[str]:
    return events(moment, f"EV_SYN SYN_REPORT {value}")


def record(description: List[str], actions: List[str], version: int = 1) -> str:
    return "\n".join([f"inputrecord {version}"] + description + actions) + "\n"


def clients() -> str:
    """64 clients are open, a revoked one among them; another one is refused until that one is closed."""
    device = ["device d", "cap EV_KEY KEY_A", "source s", "tap t", "tap u"]
    opens = ["do t open", "do t revoke"] + ["do u open"] * 64 + ["do t close", "do u open"]
    return record(device, opens + events(1, "EV_KEY KEY_A 1") + report(1) + ["do u read 4096"])


def moments() -> str:
    """The last moment on clocks with the greatest offsets, the greatest codes, and values at their bounds."""
    device = ["device d", f"clock realtime {MOMENT_MAX}", f"clock boottime {MOMENT_MAX:#x}", "type EV_REP"]
    device += ["cap EV_KEY 767", "cap EV_SW 16", "cap EV_LED 15", "cap EV_SND 7", "cap EV_MSC 7",
               "cap EV_REL 15"]
    actions = ["do c open", "do t open", f"do t clock monotonic {MOMENT_MAX}"]
    actions += events(MOMENT_MAX, f"EV_REP REP_DELAY {GREATEST}", "EV_REP REP_PERIOD 1",
                      f"EV_KEY 767 {LEAST}")
    actions += report(MOMENT_MAX, -5) + [f"do s tick {MOMENT_MAX}"]
    actions += events(0, "EV_KEY 767 0", "EV_KEY 767 1") + report(0, GREATEST)
    actions += [f"do s tick {MOMENT_MAX}"] * 2
    actions += events(5, "EV_SW 16 9", "EV_LED 15 -1", "EV_SND 7 3", f"EV_MSC 7 {LEAST}",
                      f"EV_REL 15 {GREATEST}")
    actions += report(5) + ["do c follow", "do t read 4096", "do t sounds", "do t switches", "do t leds",
                            "do t keys"]
    return record(device + ["source s", "client c", "tap t"], actions)


def fuzz(version: int = 1, slots: int = 64) -> str:
    """64 slots, and the greatest fuzz with values that are as far apart as they can be."""
    device = ["device d", f"slots {slots}", "hint 512", f"axis ABS_X {LEAST} {LEAST} {GREATEST} {2**30} 0 0"]
    device += [f"axis ABS_Y {GREATEST} 0 0 1 0 0", "axis ABS_Z -7 0 0 3 0 0", "axis 63 1 2 3 5 6 -7"]
    device += [f"axis ABS_MT_POSITION_X 0 0 0 {2**30} 0 0", "source s", "client c"]
    values = [LEAST, GREATEST, 0, 1, -1, 2**30 - 1, -(2**30), 2**29 - 1, 2**29, -(2**29) - 1, GREATEST - 1,
              LEAST + 1]
    actions = ["do c open"]
    for i, value in enumerate(values * 3):
        for axis in ("ABS_X", "ABS_Y", "ABS_Z", "ABS_MT_POSITION_X", "63"):
            actions += events(1, f"EV_ABS ABS_MT_SLOT {i}", f"EV_ABS {axis} {value}")
    actions += report(1) + events(2, f"EV_ABS ABS_MT_SLOT {slots - 1}",
                                  f"EV_ABS ABS_MT_TRACKING_ID {GREATEST}") + report(2)
    return record(device, actions + ["do c follow", "do s inhibit 3", "do c follow"], version)


def slots() -> str:
    """The same with 256 slots, under version 2; a reader whose ring was full makes up for all of them."""
    return fuzz(2, 256)


def counts() -> str:
    """Commands before any open, for no event, for the greatest number of them, and behind a close."""
    device = ["device d", "hint 2", "cap EV_KEY 30", "source s", "client c", "tap t"]
    early = ["do t read 0", "do t keys", "do c next 1", "do c follow", "do c force", "do c next 1"]
    late = ["do c skip 1", "do c skip 4294967295", "do c open", "do c open", "do c follow"]
    closed = ["do c close", "do c close", "do c grab", "do t open", "do t read 0"]
    actions = early + ["do c open", "do c next 0", "do c skip 0", "do c next 4294967295"]
    actions += events(1, "EV_KEY 30 1") + report(1) + late + closed
    return record(device, actions + events(1, "EV_KEY 30 0") + report(1) + ["do t read 0", "do t read 4096"])


def devices() -> str:
    """Eight devices that describe nothing."""
    device, actions = [], []
    for i in range(8):
        device += [f"device d{i}", f"hint {2 + i}", f"source s{i}", f"client c{i}", f"tap t{i}"]
        actions += [f"do c{i} open", f"do t{i} open", f"do s{i} event 1 EV_SYN SYN_CONFIG 0"]
        actions += [f"do s{i} event 1 EV_SYN 0 0", f"do c{i} follow", f"do t{i} read 4096", f"do t{i} axis 0"]
        actions += [f"do t{i} keys", f"do t{i} mask EV_SYN 0 18446744073709551614"]
    return record(device, actions)


def owners() -> str:
    """Eight owners of devices with small limits: room for 1 and for 4096, and more sent than can wait."""
    device, actions = [], []
    values = [LEAST + n for n in range(9)] + [GREATEST - n for n in range(9)]
    for i in range(8):
        device += [f"udevice u{i}", f"log {1 + 3 * i}", "type EV_REP", "cap EV_MSC 7", f"source s{i}",
                   f"owner o{i}"]
        actions += [f"do o{i} feedback 1", f"do s{i} event {MOMENT_MAX} EV_REP 1 {GREATEST}"]
        actions += [f"do s{i} event 0 EV_MSC 7 {value}" for value in values]
        actions += [f"do o{i} feedback 0x1"] + [f"do o{i} feedback 4096"] * 4
    return record(device, actions, version=2)


def full() -> str:
    """A history of one step."""
    device = ["device d", "log 1", "cap EV_KEY 30", "source s", "source z", "client c", "tap t"]
    actions = ["do t read 1", "do t open", "do t read 1", "do c open", "do c follow"]
    return record(device, actions + ["do s uninhibit"] * 2 + ["do t grab"] * 2)


def full_start() -> str:
    """A start whose last query finds the history full."""
    device = ["device d", "log 2", "cap EV_KEY 30", "axis ABS_X 0 0 1 0 0 0", "source s", "client c"]
    return record(device, ["do c open", "do c follow", "do s uninhibit"])


def blanks() -> str:
    """Comments, blank lines, carriage returns, tabs, numbers in both bases, and no line feed at the end."""
    lines = ["\r", "# c\xe9 \r", " \t inputrecord\t1\r", "", "device  d \r", "cap 0x1 0x1E\r", "source s\r",
             "tap t\r"]
    lines += ["do\tt open\r", "  # c", " do s event 0x10 1 30 -0\r", "do s event 00012 EV_KEY KEY_A 0x1\r"]
    return "\n".join(lines + ["do s event 1 0 0 0\r", "do t read 0x10"])


def nothing() -> str:
    return "inputrecord 1\n"


# Each record by its name.
MAKERS: Tuple[Callable[[], str], ...] = (clients, moments, fuzz, slots, counts, devices, owners, full,
                                         full_start, blanks, nothing)
RECORDS = {make.__name__: make for make in MAKERS}


if __name__ == "__main__":
    os.makedirs(sys.argv[1], exist_ok=True)
    write_all(sys.argv[1], [(name, make()) for name, make in RECORDS.items()])
