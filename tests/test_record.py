"""tools/record on captures by the real tools: a record that is played has the capture's events and no
others. What it makes of small captures, and that the forms of one give one record, is in tests/transcripts/."""

import re
from unittest import mock

from tests.desk_cases import DATA, DeskCase, belief, needs_program, raw_capture, raw_events, taken
from inputtools.verifying import found_in_order

DEVICES = ("keyboard", "mouse", "touchpad", "lid")
SLOT = 47
MODIFIERS = {29, 42, 54, 56, 58, 69, 70, 97, 100, 125, 126}


def gaps(events, length):
    """Gaps of so many frames behind which the next event names no slot, and is not in that announced before: the
    events, with SYN_DROPPED and a report in their place, and its slot."""
    ends = [index + 1 for index, event in enumerate(events) if event[1:3] == (0, 0)]
    slots, slot = [], 1
    for event in events:
        slots.append(slot)
        slot = event[3] if event[1:3] == (3, SLOT) else slot
    for begin, end in zip(ends, ends[length:-1]):
        kinds = (event[1:3] for event in events[end:])
        behind = next(kind for kind in kinds if kind == (0, 3) or (kind[0] == 3 and 46 < kind[1] < 62))
        if slots[begin] != slots[end] and behind not in ((0, 3), (3, SLOT)):
            time = events[end][0]
            yield [*events[:begin], (time, 0, 3, 0), (time, 0, 0, 0), *events[end:]], slots[end]


class RoundTrip(DeskCase):
    """Captures by the real tools: what a reader takes of the record is what was captured."""

    def sources(self, name):
        """Each way to give a device and its capture, and the files that it takes."""
        data = {form: DATA / f"{name}.{form}" for form in ("evtest", "evemu", "libinput.yml", "proc", "bin")}
        yield "evtest", [data["evtest"]]
        yield "evemu", [data["evemu"]]
        yield "libinput", [data["libinput.yml"]]
        yield "evtest and raw", [data["evtest"], data["bin"]]
        yield "evemu and evtest", [data["evemu"], data["evtest"]]
        yield "libinput and raw", [data["libinput.yml"], data["bin"]]
        yield "proc and raw", [data["proc"], data["bin"], "--device", "2"]
        described = self.written("describe", data["evemu"])
        yield "described and raw", [self.file("described", described), data["bin"]]

    def wanted(self, name, source):
        """The captured events. The libinput form of the mouse hides what its scan codes are."""
        events = raw_events((DATA / f"{name}.bin").read_bytes())
        if (name, source) != ("mouse", "libinput"):
            return events
        return [(*event[:3], 30) if event[1:3] == (4, 4) else event for event in events]

    def assert_same_events(self, wanted, came, slack):
        self.assertEqual([event[1:] for event in wanted], [event[1:] for event in came])
        late = max(abs(one[0] - other[0]) for one, other in zip(wanted, came))
        self.assertLessEqual(late, slack)

    def test_a_reader_takes_what_was_captured(self):
        for name in DEVICES:
            beliefs = {}
            for source, files in self.sources(name):
                with self.subTest(name=name, source=source):
                    notes = ["hid the scan codes"] if (name, source) == ("mouse", "libinput") else []
                    report = self.play(self.written("record", *files, notes=notes))
                    # (the clocks of two forms are rounded apart from each other)
                    slack = 1 if source in ("evemu", "libinput") else 0
                    self.assert_same_events(self.wanted(name, source), taken(report), slack)
                    beliefs[source] = belief(report)
            needs_program(self)
            told = beliefs.pop("proc and raw")
            self.assertEqual(beliefs["evtest"][0], told[0])
            for source, came in beliefs.items():
                with self.subTest(name=name, source=source):
                    self.assertEqual(beliefs["evtest"], came)


class Losses(DeskCase):
    """Captures that lack events, and say so."""

    def test_a_loss_in_a_capture(self):
        text = self.written("record", DATA / "touchpad.evemu", DATA / "touchpad-lost.bin",
                            notes=["the capture lost events at 1.540498 s (SYN_DROPPED)"])
        captured = raw_events((DATA / "touchpad-lost.bin").read_bytes())
        place = next(i for i, event in enumerate(captured) if event[1:3] == (0, 3))
        last = max(i for i, event in enumerate(captured) if event[1:3] == (0, 0))
        came = taken(self.play(text))
        self.assertEqual(captured[:place], came[:place])
        # Each event after the loss and its report is passed too; a frame before them sets what was lost.
        behind = captured[place + 2 : last + 1]
        self.assertEqual(behind, came[-len(behind):])
        between = came[place:-len(behind)]
        self.assertEqual({1540498}, {event[0] for event in between})
        self.assertEqual(1, [event[1:3] for event in between].count((0, 0)))

    def test_the_slot_behind_a_gap(self):
        """Of 28 gaps in a capture, where another slot was announced before than behind them, and the next event
        names none, the slot is guessed right in all: by the slot before, or another where that cannot be, in 12."""
        captured, guesses = raw_events((DATA / "touchpad-lost.bin").read_bytes()), []
        for length in (20, 25):
            for events, slot in gaps(captured, length):
                path = self.file("gap.bin", raw_capture(events))
                _, text, notes = self.tool("record", DATA / "touchpad.evemu", path)
                guesses.append((slot, int(re.search("slot ([0-9]) is a guess", notes[1])[1])))
                self.assertIn(f"# slot {guesses[-1][1]} is a guess for ", text)
        self.assertEqual(28, len(guesses))
        self.assertEqual([], [(slot, guess) for slot, guess in guesses if slot != guess])


class Parts(DeskCase):
    """Parts of a capture, several devices, and hidden keys."""

    def test_a_part_of_a_capture(self):
        """Each part has the events of its times, at these times, and begins in the state that was then."""
        for name in ("keyboard", "mouse", "touchpad"):
            captured = raw_events((DATA / f"{name}.bin").read_bytes())
            for begin, end in ((0, 300000), (200001, 600000), (450000, None)):
                with self.subTest(name=name, begin=begin):
                    words = ["--from", f"{begin / 1e6:.6f}"]
                    words += ["--to", f"{end / 1e6:.6f}"] if end is not None else []
                    text = self.written("record", DATA / f"{name}.evtest", *words)
                    last = captured[-1][0] if end is None else end
                    wanted = [event for event in captured if begin <= event[0] <= last]
                    self.assertTrue(wanted)
                    self.assertEqual(wanted, taken(self.play(text)))

    def test_all_devices_of_a_file(self):
        """Both devices of one recording, by its clock: each reader takes its device's events."""
        path, notes = DATA / "two.libinput.yml", ["logitech-m705: the capture ends within a frame"]
        text = self.written("record", "--all-devices", path, notes=notes)
        report, devices = self.play(text), []
        form = r"^- node|- \[ *(\d+), *(\d+), *(\d+), *(\d+), *(-?\d+)\]"
        for seconds, micros, *event in re.findall(form, path.read_text(), re.MULTILINE):
            if not seconds:
                devices.append([])
                continue
            time = int(seconds) * 1000000 + int(micros)
            devices[-1].append((time, *map(int, event)))
        base = min(event[0] for device in devices for event in device)
        # (the second one ends within a frame)
        devices[1].pop()
        for number, device in enumerate(devices, 1):
            wanted = [(time - base, *event) for time, *event in device]
            came = taken(report, f"reader-{number}")
            self.assertEqual([event[1:] for event in wanted], [event[1:] for event in came])
            self.assertEqual([event[0] for event in wanted], [event[0] for event in came])
        lines = text.split("# The captures.")[1].splitlines()
        moments = [int(line.split()[3]) for line in lines if " event " in line]
        self.assertEqual(sorted(moments), moments)

    def test_limits_of_a_capture_say_what_helps(self):
        with mock.patch("inputtools.writing.GREATEST_TEXT", 100):
            said = "would have more than 100 bytes: take a part with --from and --to"
            self.refused("record", DATA / "lid.evtest",
                         because=f"the record {said}, fewer readers, or have")
            self.refused("record", DATA / "mouse.evtest", "--stream", self.folder / "x.bin", because=said)

    def test_keys_are_hidden(self):
        """Each key is another one, one to one; modifiers, times and all else stay, and no scan code is left."""
        path = DATA / "keyboard.evtest"
        notes = ["29 keys renamed one to one, modifiers kept; 119 scan codes left out"]
        text = self.written("record", path, "--hide-keys", notes=notes)
        self.assertNotIn("MSC_SCAN 4", text)
        came, names = taken(self.play(text)), {}
        wanted = [event for event in raw_events((DATA / "keyboard.bin").read_bytes()) if event[1:3] != (4, 4)]
        self.assertEqual(len(wanted), len(came))
        for old, new in zip(wanted, came):
            self.assertEqual((*old[:2], old[3]), (*new[:2], new[3]))
            if old[1] == 1:
                self.assertEqual(new[2], names.setdefault(old[2], new[2]))
        self.assertEqual(len(names), len(set(names.values())))
        self.assertEqual({42, 54, 58}, {old for old, new in names.items() if old == new} & {42, 54, 58})
        self.assertLess(len([old for old, new in names.items() if old == new and old not in MODIFIERS]), 2)
        # What was down at the start is hidden too: Enter is the first key that is told.
        start = text.split("# What was on")[1].split("# The capture.")[0]
        self.assertIn("EV_KEY KEY_ESC 1\n", start)
        self.assertNotIn("KEY_ENTER", start)

    def test_verify_finds_as_many_events_as_can_be(self):
        """An event that is wanted early and comes late too keeps none between from being found."""
        for wanted, came, missed in (
            ([1, 9, 2, 9, 3, 9], [1, 2, 9, 3, 9], [1]), ([1, 2], [], [0, 1]), ([1, 2], [3, 1, 2], []),
            ([*range(2000)], [*range(700, 2000), 0], [*range(700)]),
        ):
            with self.subTest(came=came[:5]):
                found = found_in_order(wanted, came)
                self.assertEqual(missed, [index for index, is_there in enumerate(found) if not is_there])
