"""The key of a state that tools/explore has: of each field a record on which leaving it out gives other
numbers.

Most of these records have two units whose order makes the field, and a later line by which it comes out.
"""

import contextlib
import unittest
from typing import NamedTuple
from unittest import mock

from tests.explore_cases import (MOST_STATES, SECONDS, Asked, Counts, Graph, Problem, counted_things,
                                 explored_record)
from inputtools import explored_keys as keys
from inputtools import exploring
from inputtools.explored_expectations import expectations_on_actors

KEYS = "cap EV_KEY KEY_A\ncap EV_KEY KEY_B\n"
SWITCH, LED, MSC = "cap EV_SW SW_LID\n", "cap EV_LED LED_CAPSL\n", "cap EV_MSC MSC_RAW\n"
SOUNDS = MSC + "cap EV_SND SND_BELL\n"
AXIS = "axis ABS_X 0 -100 100 0 0 0\n"
SLOTS = "slots 2\naxis ABS_MT_POSITION_X 0 0 4000 0 0 0\n"
BUTTONS = "cap EV_KEY BTN_TRIGGER\ncap EV_KEY BTN_THUMB\n"
CALLS = Asked(grain="call")
# A client's queue has SYN_DROPPED alone, and the lid was closed before it.
DROPPED_LID = "~; c open; ~; s: SW_LID 1; ~; c clock monotonic 5; ~; "
# Another program keeps away what comes.
GRABS = "m grab, ungrab; "
OPENED = "c open; m open; ~; " + GRABS


class Case(NamedTuple):
    """A record, how it is explored, and whether it expects something of its actor c, which is judged."""

    text: str
    asked: Asked
    expects: bool


def lines_of(step):
    """The lines of a step: `~` is a barrier, `s: KEY_A 1` a frame, `s. KEY_A 1` events without a report, and
    `c open, read 2` are commands."""
    if step.startswith("~"):
        return ["#" + step]
    actor, words = step.split(" ", 1)
    commands, end = words.split(", "), actor[-1]
    if end in ":.":
        actor, _, moment = actor[:-1].partition("@")
        codes = commands + ["SYN_REPORT 0"] * (end == ":")
        kinds = [code.split("_")[0].replace("BTN", "KEY") for code in codes]
        commands = [f"event {moment or 1000} EV_{kind} {code}" for kind, code in zip(kinds, codes)]
    return [f"do {actor} {command}" for command in commands]


def case(description, actors, steps, asked=Asked(), expected="", device="device"):
    head = f"inputrecord 2\n{device} d\nhint 8\n{description}source s\nsource z"
    lines = [line for step in steps.strip("; ").split("; ") for line in lines_of(step)]
    text = "\n".join([head, *actors.split(", "), *([expected] if expected else []), *lines, ""])
    return Case(text, asked, bool(expected))


def two_values(description, one, other):
    """Two sources set a thing in either order, and a tap opens that does not ask."""
    return case(description, "tap c", f"s: {one}; z: {other}; ~; c open")


def one_value(description, one, asked=Asked()):
    """A tap that does not ask opens before an event or behind it."""
    return case(description, "tap c", f"s: {one}; c open", asked)


def many(count, form):
    return ", ".join(form.format(number) for number in range(count))


CASES = {
    "CoreKey.keys": two_values(KEYS, "KEY_A 1", "KEY_A 0"),
    "CoreKey.switches": two_values(SWITCH, "SW_LID 1", "SW_LID 0"),
    "CoreKey.leds": two_values(LED, "LED_CAPSL 1", "LED_CAPSL 0"),
    "CoreKey.axes": two_values(AXIS, "ABS_X 5", "ABS_X 0"),
    "CoreKey.cells": two_values(SLOTS, "ABS_MT_POSITION_X 5", "ABS_MT_POSITION_X 0"),
    # Two programs describe the axis with another fuzz each.
    "CoreKey.fuzz": case(
        AXIS, "tap m, tap n, tap c", "m open; n open; ~; m setaxis ABS_X 0 -100 100 0 0 0; "
        "n setaxis ABS_X 0 -100 100 8 0 0; ~; s: ABS_X 3; ~; c open"),
    "CoreKey.staged": case(
        SLOTS, "client c",
        "c open; s: ABS_MT_SLOT 1; z: ABS_MT_SLOT 0; ~; c close; ~; s: ABS_MT_POSITION_X 5"),
    "CoreKey.at_frame": case(
        SLOTS, "tap c", "s: ABS_MT_SLOT 1, ABS_MT_POSITION_X 5; z: ABS_MT_SLOT 0, ABS_MT_POSITION_X 7; ~; "
        "s: ABS_MT_SLOT 0; ~; c open"),
    # A key goes down and up in a frame that ends between both, or that has both.
    "CoreKey.batch": case(KEYS, "tap c", "s. KEY_A 1; z: KEY_B 1; ~; c open; ~; s. SYN_REPORT 0"),
    "CoreKey.inhibited": case(KEYS, "tap c", "s inhibit 10; z uninhibit; ~; s: KEY_A 1; ~; c open"),
    # The last setting makes a frame, by which SYN_DROPPED is visible, where it changes something.
    "CoreKey.repeat": case(
        KEYS + SWITCH + "type EV_REP\n", "client c",
        f"s: REP_DELAY 100; z: REP_DELAY 200; {DROPPED_LID}s: REP_DELAY 100"),
    "CoreKey.filters": case(
        KEYS + "filter chord KEY_A KEY_B\n", "client c", "s: KEY_A 1; z: KEY_B 1; ~; c open; ~; z: KEY_B 0"),
    # Of sixteen events the oldest is lost to the owner: the bell or the tone.
    "CoreKey.waiting": case(
        SOUNDS + "cap EV_SND SND_TONE\n", "owner c",
        f"s: SND_BELL 1; z: SND_TONE 1; ~; s: {many(14, 'MSC_RAW {}')}", device="udevice"),
    "CoreKey.sent": case(
        SOUNDS, "owner c", f"s: SND_BELL 1; z: SND_BELL 0; ~; s: {many(15, 'MSC_RAW {}')}", device="udevice"),
    "DeviceKey.core": two_values(KEYS, "KEY_A 1", "KEY_A 0"),
    # Whoever grabs first holds the device, and one of both gives it up.
    "DeviceKey.holder": case(
        KEYS, "tap m, tap n, client c",
        "c open; m open; n open; ~; m grab; n grab; ~; m ungrab; ~; s: KEY_A 1"),
    # The first press counts, and the tick fires, by which SYN_DROPPED is visible, or is early.
    "DeviceKey.due": case(
        KEYS + SWITCH + "type EV_REP\n", "client c",
        f"s: KEY_A 1; z@500000: KEY_A 1; {DROPPED_LID}s tick 300000"),
    # The last press repeats, unless its key is up already: then the tick ends no frame.
    "DeviceKey.repeat_key": case(
        KEYS + "type EV_REP\n", "client c",
        "s: KEY_A 1; z: KEY_B 1; ~; c open; ~; s. KEY_A 0; ~; s tick 300000"),
    # Two places are free before the first open of a program that opens twice, or one behind it.
    "DeviceKey.open": case(
        KEYS, "tap crowd, tap a, tap b, tap m, tap c",
        f"crowd {many(62, 'open')}; a open; b open; ~; a close; b close; m open, open; ~; c open"),
    "DeviceKey.steps": case(
        "log 7\n" + KEYS, "tap m, tap c", "m open; ~; s: KEY_A 1; s: KEY_A 0; m read 9, read 9; ~; c open"),
    "ViewKey.keys": one_value(KEYS, "KEY_A 1"),
    "ViewKey.switches": one_value(SWITCH, "SW_LID 1"),
    "ViewKey.leds": one_value(LED, "LED_CAPSL 1"),
    "ViewKey.axes": one_value(AXIS, "ABS_X 5"),
    "ViewKey.cells": one_value(SLOTS, "ABS_MT_POSITION_X 5"),
    # A client that did not hear of the slot takes the value for another one.
    "ViewKey.slot": case(
        SLOTS, "tap m, client c", OPENED + "s: ABS_MT_SLOT 1, ABS_MT_POSITION_X 5; s: ABS_MT_POSITION_X 0; "
        "~; c follow; ~; s: ABS_MT_POSITION_X 9"),
    # SYN_DROPPED or another event was handed out, and a lone report is left: the client asks, or does not.
    "ReaderKey.phase": case(
        KEYS + MSC, "client c", "c open, mask EV_KEY 0 0x0; ~; s: MSC_RAW 1; ~; c clock boottime 5; ~; "
        "s: MSC_RAW 2; ~; c follow; ~; z: MSC_RAW 7; c clock monotonic 5; ~; s: KEY_A 1; ~; c next 1",
        Asked(folds=False)),
    "ReaderKey.view": case(KEYS, "client c", "s: KEY_A 1; z: KEY_B 1; c open, next 1, clock monotonic 5"),
    # A frame was read in part, or was kept away by a grab.
    "ReaderKey.read": case(
        KEYS + MSC, "tap m, client c", OPENED + "s: MSC_RAW 1, KEY_A 1; ~; c next 1; ~; c clock monotonic 5"),
    # What a reader made is handed out later, where it did not know of a key by asking.
    "ReaderKey.made": case(
        KEYS, "tap m, client c", "m open, grab; ~; z: KEY_B 1; c open; ~; s: KEY_A 1; ~; c force, next 1",
        expected="#= c takes KEY_B 1"),
    "JoystickKey.reader": case(
        BUTTONS, "tap m, joy c", f"c open, read 2; m open; ~; {GRABS}"
        "s: BTN_TRIGGER 1, BTN_TRIGGER 0, BTN_THUMB 1; ~; c read 2"),
    # A loss is met by the first read or by the second, so a startup is at its end or not; then it is closed.
    "JoystickKey.startup": case(
        BUTTONS + MSC, "joy c", f"c open, read 2; ~; s: {many(70, 'MSC_RAW {}')}; c read 1, read 1; ~; "
        "s: BTN_TRIGGER 1; ~; c read 1, close"),
    # The grab is of the first client of a program that opens twice, or of its only one.
    "ActorKey.client": case(
        KEYS, "tap crowd, tap x, client c, tap a, tap d",
        f"crowd {many(60, 'open')}; x open; c open; ~; a open, grab, open; d open; ~; x close; ~; d open; ~; "
        "a ungrab; ~; s: KEY_A 1"),
    "ActorKey.queue": one_value(KEYS, "KEY_A 1", Asked(folds=False)),
    "ActorKey.knows": one_value(KEYS, "KEY_A 1"),
    # The log is full before a program's mask, at which it stops, or behind it; then it waits for a source.
    "ActorKey.is_stopped": case(
        "log 8\n" + KEYS, "tap c, client d, tap m",
        "c open; d open; m open; ~; s: KEY_A 1; d mask EV_KEY 0 0x0; m keys, keys; d follow",
        Asked(grain="call", waits=True)),
    "ActorKey.losses": case(
        MSC, "client c", "c open; ~; s: MSC_RAW 1; c clock boottime 5; ~; s: MSC_RAW 2; ~; c follow; ~; "
        "s: MSC_RAW 3; c clock monotonic 5; ~; s: MSC_RAW 4; ~; c follow", expected="#= c drops 1"),
    "ActorKey.handed": case(
        KEYS + MSC, "tap m, client c", OPENED + "s: MSC_RAW 1; c next 3; z: KEY_A 1", CALLS),
    "ActorKey.is_begun": case(KEYS, "client c", "s: KEY_A 1; c open; ~ if no key; c follow", CALLS),
    "ActorKey.told": case(
        KEYS + LED, "tap m, client c", "m open, grab; ~; c open; s: KEY_A 1; s: KEY_A 0", CALLS),
    "StateKey.positions": case(MSC, "tap c", "s: MSC_RAW 1; s: MSC_RAW 1; c open"),
    "StateKey.marks": case(KEYS, "tap m, tap c", f"m open; c open; ~; {GRABS}c grab, ungrab"),
    "StateKey.device": two_values(KEYS, "KEY_A 1", "KEY_A 0"),
    "StateKey.actors": one_value(KEYS, "KEY_A 1"),
    "StateKey.last": case(
        KEYS, "tap c", 3 * "s: KEY_A 1; " + 2 * "z: KEY_A 1; " + "c open", Asked(preemptions=1)),
    "StateKey.preemptions": case(
        KEYS, "tap c", 3 * "s: KEY_A 1; " + "z: KEY_A 1; c open", Asked(preemptions=1)),
}

# The functions that make keys, by the key.
MAKERS = {
    "CoreKey": ((keys, "core_key"),),
    "DeviceKey": ((exploring, "device_key"),),
    "ViewKey": ((keys, "view_key"),),
    "ReaderKey": ((keys, "reader_key"),),
    "JoystickKey": ((keys, "joystick_key"),),
    "ActorKey": ((exploring, "actor_key"), (exploring, "folded_key")),
    "StateKey": ((Problem, "key"),),
}


def leaving_out(maker, field):
    return lambda *words: maker(*words)._replace(**{field: None})


@contextlib.contextmanager
def without(name):
    """The keys have nothing in a field."""
    key, field = name.split(".")
    with contextlib.ExitStack() as stack:
        for place, maker in MAKERS[key]:
            real = getattr(place, maker)
            stack.enter_context(mock.patch.object(place, maker, leaving_out(real, field)))
        yield


def numbers_of(given):
    """How many orders a record has, and of each thing in how many it comes."""
    record = explored_record(given.text)
    expectations = expectations_on_actors(record) if given.expects else None
    graph = Graph(Problem(record, 0, "c", given.asked, expectations), MOST_STATES, SECONDS)
    counts = Counts(graph)
    return counts.total, counted_things(graph, counts)


class Fields(unittest.TestCase):
    def test_each_field_is_needed(self):
        for name, given in CASES.items():
            with self.subTest(name):
                wanted = numbers_of(given)
                with without(name):
                    self.assertNotEqual(wanted, numbers_of(given))
                self.assertEqual(wanted, numbers_of(given))

    def test_each_field_has_a_record(self):
        names = [f"{key}.{field}" for key in MAKERS for field in getattr(keys, key)._fields]
        self.assertEqual(sorted(names), sorted(CASES))
