"""What the package promises, call by call, with the standard library's unittest: `python3 check_package.py`."""

import ctypes
import threading
import unittest

import inputplay
from inputplay import (
    Actor, Answer, Axis, Cause, Clock, Command, Description, Device, Event, Filter, JoyAnswer, Phase, Record,
    RefusedDescription, RefusedRecord, Role, Status, StepRefused, Steps, Type, Why,
)
from inputplay._library import library

PAD = """inputrecord 1
device pad
cap EV_KEY KEY_A
axis ABS_X 3 0 255 0 0 0
axis ABS_MT_POSITION_X 0 0 99 0 0 0
slots 2
log 700
source s
"""
JOYSTICK = """inputrecord 1
device pad
cap EV_KEY BTN_SOUTH
cap EV_LED LED_CAPSL
axis ABS_X 3 0 255 0 0 0
log 100
source s
"""
REPEATING = """inputrecord 2
device kbd
hint 64
clock boottime 500
type EV_REP
cap EV_KEY KEY_A
cap EV_KEY KEY_F24
cap EV_SW SW_LID
log 100
source s
"""
LINES = """inputrecord 2
device pad
cap EV_KEY KEY_A
axis ABS_X 3 0 255 0 0 0
log 90
source s
tap t
udevice lamp
cap EV_LED LED_CAPSL
client c
joy j
owner o
do t open
do s event 5 EV_KEY KEY_A 1
do s event 5 EV_SYN SYN_REPORT 0
do t read 16
do t mask EV_KEY 3 0xff
do t clock boottime 7
do t setaxis ABS_X 1 -2 3 4 5 6
do c open
do c next 3
do c follow
do j read 9
do o feedback 4
do s stream keys
"""
STREAM = "inputrecord 2\ndevice pad\ncap EV_KEY KEY_A\nlog 9\nsource s\ndo s stream16 keys\n"


WIDE = [
    ("type", lambda case, number: case.pad.inject(number, 30, 1)),
    ("code", lambda case, number: case.pad.inject(1, number, 1)),
    ("value", lambda case, number: case.pad.inject("KEY_A", number)),
    ("now", lambda case, number: case.pad.inject("KEY_A", 1, now=number)),
    ("value", lambda case, number: case.pad.frame(("KEY_A", 1), ("KEY_A", number))),
    ("now", lambda case, number: case.pad.frame(("KEY_A", 1), now=number)),
    ("type", lambda case, number: case.pad.inject_all([(1, 30, 1, 0), (number, 30, 1, 0)])),
    ("code", lambda case, number: case.pad.inject_all([(1, 30, 1, 0), (1, number, 1, 0)])),
    ("value", lambda case, number: case.pad.inject_all([(1, 30, 1, 0), (1, 30, number, 0)])),
    ("now", lambda case, number: case.pad.inject_all([(1, 30, 1, 0)] * 5000 + [(1, 30, 1, number)])),
    ("step", lambda case, number: case.pad.step(number)),
    *((field, lambda case, number, field=field: case.pad.step(0, **{field: number}))
      for field in ("client", "type", "code", "value", "now", "count", "clock", "bits")),
    *((field, lambda case, number, field=field: case.pad.step(Steps.SET_AXIS, axis=Axis(**{field: number})))
      for field in Axis._fields),
    ("client", lambda case, number: case.pad.read(number)),
    ("count", lambda case, number: case.pad.read(0, number)),
    ("count", lambda case, number: case.pad.feedback(number)),
    ("first", lambda case, number: case.pad.history(number)),
    ("number", lambda case, number: Device(PAD, number)),
    ("type", lambda case, number: case.reader.value(number, 30)),
    ("code", lambda case, number: case.reader.value(1, number)),
    ("slot", lambda case, number: case.reader.slot_value(number, 0x35)),
    ("code", lambda case, number: case.reader.slot_value(0, number)),
    ("sync", lambda case, number: case.reader.next(number)),
    ("code", lambda case, number: case.client.axis(number)),
    ("client", lambda case, number: case.pad.visible(number)),
    ("client", lambda case, number: case.pad.client_state(number)),
    ("client", lambda case, number: case.pad.mask(number, 1)),
    ("type", lambda case, number: case.client.mask(number)),
    ("word", lambda case, number: case.client.mask(1, number)),
    ("type", lambda case, number: case.pad.codes(number)),
    ("type", lambda case, number: case.pad.state(number)),
    ("code", lambda case, number: case.pad.axis(number)),
    ("slot", lambda case, number: case.pad.slot_value(number, 0x35)),
    ("code", lambda case, number: case.pad.slot_value(0, number)),
    ("line", lambda case, number: case.record.load(number, b"")),
    ("line", lambda case, number: case.record.line(number)),
    ("line", lambda case, number: case.record.events(number)),
    *((field, lambda case, number, field=field: Device.of(Description(**{field: number})))
      for field in ("slots", "hint", "log", "realtime", "boottime")),
    ("micros", lambda case, number: Device.of(Description(filters=[Filter.bounce("KEY_A", number)]))),
    ("code", lambda case, number: Filter.eat(1, number)),
    ("type", lambda case, number: Description(types=[number]).raw()),
    ("code", lambda case, number: Description(codes=[(1, number)]).raw()),
    ("minimum", lambda case, number: Description(axes={"ABS_X": Axis(minimum=number)}).raw()),
    ("number", lambda case, number: case.record.device(number)),
    ("code", lambda case, number: inputplay.name_of(1, number)),
]


class Numbers(unittest.TestCase):
    """A number that its C type does not have is refused by its name, and nothing is entered."""

    def setUp(self):
        self.pad, self.record = Device(PAD), Record(STREAM)
        self.addCleanup(self.pad.close)
        self.addCleanup(self.record.close)
        self.client, self.reader = self.pad.open(), self.pad.reader()
        self.before = len(self.pad.history())

    def test_a_number_out_of_its_range(self):
        for place, (name, call) in enumerate(WIDE):
            for number in (2**64, -(2**31) - 1):
                said = f"^{name} is {number}, and goes from -?[0-9]+ to [0-9]+$"
                with self.subTest(name, place=place, number=number), self.assertRaisesRegex(OverflowError, said):
                    call(self, number)
        self.assertEqual(self.before, len(self.pad.history()))

    def test_a_number_that_is_one_too_many(self):
        for name, number, call in (
            ("value", 2**31, lambda: self.pad.inject("KEY_A", 2**31)),
            ("type", 2**16, lambda: self.pad.inject(2**16, 30, 1)),
            ("code", -1, lambda: self.pad.inject(1, -1, 1)),
            ("now", -1, lambda: self.pad.inject("KEY_A", 1, now=-1)),
            ("count", -1, lambda: self.pad.feedback(-1)),
        ):
            with self.subTest(name), self.assertRaisesRegex(OverflowError, f"^{name} is {number}, "):
                call()
        self.assertEqual(self.before, len(self.pad.history()))

    def test_what_is_no_number_or_no_field(self):
        for call in (
            lambda: self.pad.inject("KEY_A", 1.5), lambda: self.pad.inject("KEY_A", "1"),
            lambda: self.pad.step(Steps.CLOSE, cilent=0),
        ):
            with self.assertRaises(TypeError):
                call()
        with self.assertRaises(ValueError):
            self.pad.frame(("KEY_A", 1), ("KEY_NONE_SUCH", 1))
        self.assertEqual(self.before, len(self.pad.history()))


class Names(unittest.TestCase):
    def test_a_code_has_its_name(self):
        self.assertEqual((Type.EV_KEY, 30), inputplay.code_of("KEY_A"))
        self.assertEqual("ABS_MT_SLOT", inputplay.name_of(3, 0x2F))
        self.assertIsNone(inputplay.name_of(3, 0x3F))
        for name in ("KEY_NONE_SUCH", "", "EV_KEY", "KEY_MAX", "INPUT_PROP_DIRECT", "KEY_\N{SNOWMAN}", "#"):
            with self.subTest(name), self.assertRaises(ValueError):
                inputplay.code_of(name)

    def test_second_names_and_all_numbers(self):
        for name, code, first in (
            ("BTN_A", 0x130, "BTN_SOUTH"), ("BTN_GAMEPAD", 0x130, "BTN_SOUTH"),
            ("BTN_MOUSE", 0x110, "BTN_LEFT"), ("BTN_MISC", 0x100, "BTN_0"),
            ("KEY_SCREENLOCK", 152, "KEY_COFFEE"), ("KEY_OK", 0x160, "KEY_OK"),
            ("BTN_TRIGGER_HAPPY40", 0x2E7, "BTN_TRIGGER_HAPPY40"),
            ("KEY_BRIGHTNESS_MAX", 0x251, "KEY_BRIGHTNESS_MAX"),
        ):
            with self.subTest(name):
                self.assertEqual((Type.EV_KEY, code), inputplay.code_of(name))
                self.assertEqual(first, inputplay.name_of(Type.EV_KEY, code))
        self.assertEqual("SW_MACHINE_COVER", inputplay.name_of(Type.EV_SW, 16))
        for name, number in (("EV_FF", 0x15), ("KEY_CNT", 768), ("INPUT_PROP_BUTTONPAD", 2), ("ABS_MAX", 63)):
            self.assertEqual(number, inputplay.number_of(name))
        with self.assertRaises(ValueError):
            inputplay.number_of("NONE_SUCH")

    def test_types_have_the_header_s_numbers(self):
        for kind in Type:
            self.assertEqual(kind, inputplay.number_of(kind.name))


class LibraryNames(unittest.TestCase):
    def test_the_library_s_names_are_first_names(self):
        out, count, named = (ctypes.c_uint8 * 64)(), ctypes.c_size_t(), 0
        for kind in Type:
            for code in range(768):
                if library.inputplay_name_of(kind, code, out, len(out), ctypes.byref(count)) == Status.OK:
                    named += 1
                    self.assertEqual(bytes(out[: count.value]).decode(), inputplay.name_of(kind, code))
        self.assertEqual(272, named)


class Devices(unittest.TestCase):
    def setUp(self):
        self.pad = Device(PAD)
        self.addCleanup(self.pad.close)

    def test_a_client_reads_what_was_injected(self):
        client = self.pad.open()
        self.assertEqual([], client.read())
        self.assertEqual(2, self.pad.frame(("KEY_A", 1), now=9))
        events = client.read()
        self.assertEqual([Event(1, 30, 1, 9, 2), Event(0, 0, 0, 9, 2)], events)
        self.assertEqual("<KEY_A 1 at 9>", repr(events[0]))
        self.assertEqual({30}, client.keys())
        self.assertEqual((3, 0, 255), client.axis("ABS_X")[:3])

    def test_a_grab_is_refused_while_another_has_it(self):
        one, other = self.pad.open(), self.pad.open()
        one.grab()
        with self.assertRaises(StepRefused) as refused:
            other.grab()
        self.assertEqual(Why.BUSY, refused.exception.why)
        one.ungrab()
        other.grab()
        other.revoke()
        with self.assertRaises(StepRefused) as refused:
            other.read()
        self.assertEqual(Why.NO_DEVICE, refused.exception.why)

    def test_names_and_numbers_are_taken_alike(self):
        client = self.pad.open()
        self.pad.inject("EV_KEY", "KEY_A", 1)
        self.pad.inject(1, 30, 0)
        self.pad.inject(Type.EV_ABS, "ABS_X", 4)
        self.pad.frame()
        self.assertEqual(["KEY_A", "KEY_A", "ABS_X", "SYN_REPORT"], [event.name for event in client.read()])
        for event in (("EV_ABS", "KEY_A", 1), ("EV_NONE", "KEY_A", 1), ("KEY_A", 3, 1), ("EV_MAX", 3, 1)):
            with self.subTest(event), self.assertRaises(ValueError):
                self.pad.inject(*event)

    def test_a_history_is_full_at_its_limit(self):
        for _ in range(700):
            self.pad.inject("KEY_A", 1)
        with self.assertRaises(StepRefused) as refused:
            self.pad.inject("KEY_A", 1)
        self.assertEqual((Why.LOG_FULL, 700), (refused.exception.why, refused.exception.at))

    def test_many_events_are_injected_in_order(self):
        client = self.pad.open()
        self.assertEqual(2, self.pad.inject_all([(1, 30, 1, 7), (0, 0, 0, 8)]))
        self.assertEqual([Event(1, 30, 1, 8, 2), Event(0, 0, 0, 8, 2)], client.read())
        with self.assertRaises(inputplay.CallRefused):
            self.pad.inject_all([(1, 30, 0, 9)] * 5000 + [(0, 0, 0, 2**63)])
        self.assertEqual(696, self.pad.inject_all((1, 30, i % 2, 9) for i in range(5000)))

    def test_an_owner_takes_what_was_written(self):
        with Device(JOYSTICK) as pad:
            client = pad.open()
            pad.must(inputplay.Steps.WRITE, client=client.number, type=Type.EV_LED, code=1, value=1, now=3)
            self.assertEqual([], pad.feedback(0))
            self.assertEqual([Event(Type.EV_LED, 1, 1)], pad.feedback())
            self.assertEqual([], pad.feedback())

    def test_its_history_is_what_it_accepted(self):
        self.pad.inject("KEY_A", 1, now=9)
        self.assertEqual([], self.pad.open().read())
        steps = inputplay.Steps
        self.assertEqual([steps.INJECT, steps.OPEN], [step.step for step in self.pad.history()])
        self.assertEqual([(1, 30, 1, 9)], [(s.type, s.code, s.value, s.now) for s in self.pad.history()[:1]])
        self.assertEqual([steps.OPEN], [step.step for step in self.pad.history(1)])
        self.assertEqual([], self.pad.history(2))
        with self.assertRaises(inputplay.CallRefused):
            self.pad.history(3)

    def test_what_is_closed_is_refused(self):
        with Device(PAD) as pad:
            reader = pad.reader()
        pad.close()
        self.assertTrue(pad.closed)
        for call in (pad.open, reader.next, reader.force_sync, pad.frame):
            with self.subTest(call), self.assertRaises(inputplay.CallRefused) as refused:
                call()
            self.assertEqual(Status.BAD_HANDLE, refused.exception.status)


class Queries(unittest.TestCase):
    """What a device tells without a step."""

    def setUp(self):
        self.pad, self.keyboard = Device(PAD), Device(REPEATING)
        self.addCleanup(self.pad.close)
        self.addCleanup(self.keyboard.close)

    def test_what_a_client_could_read(self):
        one, other = self.pad.open(), self.pad.open()
        self.assertEqual([], self.pad.readable())
        self.pad.inject("KEY_A", 1)
        self.assertEqual((0, 0), (one.visible, other.visible))
        self.pad.frame(("ABS_X", 9))
        self.assertEqual((3, 3, [0, 1]), (one.visible, self.pad.visible(1), self.pad.readable()))
        one.read(2)
        self.assertEqual((1, 3, [0, 1]), (one.visible, other.visible, self.pad.readable()))
        one.read()
        self.assertEqual([1], self.pad.readable())
        other.close()
        self.assertEqual([], self.pad.readable())
        with self.assertRaises(KeyError) as refused:
            self.pad.visible(1)
        self.assertEqual((1,), refused.exception.args)

    def test_nothing_is_entered_and_no_event_goes(self):
        client = self.pad.open()
        self.pad.frame(("KEY_A", 1), ("ABS_MT_SLOT", 1), ("ABS_MT_TRACKING_ID", 8))
        before, waiting = len(self.pad.history()), client.visible
        self.assertEqual({30}, self.pad.state("EV_KEY"))
        self.assertEqual([-1, 8], [self.pad.slot_value(slot, "ABS_MT_TRACKING_ID") for slot in (0, 1)])
        self.assertEqual((1, 0, 1), self.pad.axis("ABS_MT_SLOT")[:3])
        self.assertEqual((before, waiting), (len(self.pad.history()), client.visible))

    def test_how_a_client_stands(self):
        client, other = self.pad.open(), self.pad.open()
        self.assertEqual((Clock.REALTIME, False, False), client.state)
        self.pad.must(Steps.CLOCK, client=0, clock=Clock.BOOTTIME)
        client.grab()
        self.assertEqual((Clock.BOOTTIME, False, True), client.state)
        client.revoke()
        self.assertEqual((Clock.BOOTTIME, True, False), self.pad.client_state(0))
        self.assertEqual((Clock.REALTIME, False, False), other.state)
        client.close()
        for call in (lambda: client.state, lambda: client.visible, lambda: client.mask("EV_KEY")):
            with self.assertRaises(KeyError):
                call()

    def test_a_mask_is_what_was_set(self):
        client, full = self.pad.open(), 2**64 - 1
        self.assertEqual([full] * 3, [client.mask("EV_SYN"), client.mask("EV_KEY", 11), self.pad.mask(0, "EV_SND")])
        self.pad.must(Steps.MASK, client=0, type=Type.EV_KEY, code=11, bits=5)
        self.assertEqual([full, 5], [client.mask("EV_KEY", word) for word in (10, 11)])
        for asked in (("EV_KEY", 12), ("EV_SYN", 1), ("EV_REP", 0), (6, 0)):
            with self.subTest(asked), self.assertRaises(KeyError):
                client.mask(*asked)

    def test_what_is_supported_and_what_is_on(self):
        self.assertEqual({0, 1, 3}, self.pad.types())
        self.assertEqual({Type.EV_SYN, Type.EV_KEY, Type.EV_SW, Type.EV_REP}, self.keyboard.types())
        self.assertEqual({30, 0xC2}, self.keyboard.codes("EV_KEY"))
        self.assertEqual({0, 0x2F, 0x35, 0x39}, self.pad.codes(Type.EV_ABS))
        self.assertEqual(set(), self.pad.codes("EV_LED"))
        self.keyboard.frame(("KEY_F24", 1), ("SW_LID", 1))
        self.assertEqual(({0xC2}, {0}), (self.keyboard.state("EV_KEY"), self.keyboard.state("EV_SW")))
        self.assertEqual(set(), self.keyboard.state("EV_LED"))
        for kind in ("EV_ABS", "EV_SYN", 0x14):
            with self.subTest(kind), self.assertRaises(KeyError):
                self.keyboard.state(kind)
        with self.assertRaises(ValueError):
            self.keyboard.codes("EV_NONE")

    def test_an_axis_and_a_slot(self):
        self.pad.frame(("ABS_X", 200), ("ABS_MT_POSITION_X", 5))
        self.assertEqual((200, 0, 255, 0, 0, 0), self.pad.axis("ABS_X"))
        self.assertEqual((0, 0, 99, 0, 0, 0), self.pad.axis("ABS_MT_POSITION_X"))
        self.assertEqual(Axis(), self.pad.axis("ABS_Y"))
        self.assertEqual(5, self.pad.slot_value(0, "ABS_MT_POSITION_X"))
        for asked in ((2, "ABS_MT_POSITION_X"), (0, "ABS_X"), (0, "ABS_MT_SLOT")):
            with self.subTest(asked), self.assertRaises(KeyError):
                self.pad.slot_value(*asked)
        with self.assertRaises(KeyError):
            self.pad.axis(0x40)

    def test_the_numbers_of_a_description(self):
        self.assertEqual((2, 16, 700, 128, 0, 0), self.pad.limits())
        self.assertEqual((0, 64, 100, 512, 0, 500), self.keyboard.limits())

    def test_when_a_key_repeats(self):
        keyboard = self.keyboard
        self.assertEqual((250, 33, 0, None), keyboard.repeat())
        keyboard.frame(("KEY_A", 1), now=1000)
        due = keyboard.repeat().due
        self.assertEqual((250, 33, 30, 251000), keyboard.repeat())
        client = keyboard.open()
        keyboard.must(Steps.TICK, now=due - 1)
        self.assertEqual((0, due), (client.visible, keyboard.repeat().due))
        keyboard.must(Steps.TICK, now=due)
        self.assertEqual((2, due + 33000), (client.visible, keyboard.repeat().due))
        keyboard.frame(("EV_REP", "REP_PERIOD", 10), ("KEY_A", 0), now=due + 1)
        self.assertEqual((250, 10, 30, None), keyboard.repeat())

    def test_what_is_closed_is_refused(self):
        client = self.pad.open()
        self.pad.close()
        for call in (
            self.pad.readable, self.pad.limits, self.pad.repeat, self.pad.types, lambda: self.pad.state("EV_KEY"),
            lambda: self.pad.axis(0), lambda: self.pad.slot_value(0, 0x35), lambda: client.state,
            lambda: client.visible, lambda: client.mask(1),
        ):
            with self.assertRaises(inputplay.CallRefused) as refused:
                call()
            self.assertEqual(Status.BAD_HANDLE, refused.exception.status)


class Descriptions(unittest.TestCase):
    """A device without a text."""

    def test_it_is_the_device_of_the_same_text(self):
        described = Description(
            codes=["KEY_A", "KEY_F24", ("EV_SW", 0)], types=["EV_REP"], hint=64, boottime=500, log=100,
        )
        with Device.of(described) as one, Device(REPEATING) as other:
            self.assertEqual(other.limits(), one.limits())
            self.assertEqual([other.codes(kind) for kind in Type], [one.codes(kind) for kind in Type])
            for keyboard in (one, other):
                keyboard.frame(("KEY_A", 1), now=9)
            self.assertEqual(other.repeat(), one.repeat())

    def test_axes_slots_and_filters(self):
        axes = {"ABS_X": Axis(3, 0, 255, 4, 5, 6), 0x35: Axis(maximum=99)}
        filters = [Filter.eat("KEY_A"), Filter.norepeat(), Filter.chord("KEY_B", "KEY_C"), Filter.bounce("KEY_D", 5000)]
        keys = ["KEY_A", "KEY_B", "KEY_C", "KEY_D"]
        with Device.of(Description(codes=keys, axes=axes, slots=2, filters=filters, log=60, realtime=7)) as pad:
            self.assertEqual(axes["ABS_X"], pad.axis("ABS_X"))
            self.assertEqual([{0, 0x2F, 0x35, 0x39}, 2, 60, 7], [pad.codes("EV_ABS"), *pad.limits()[:3:2], pad.limits().realtime])
            self.assertEqual((0, 0, 99, 0, 0, 0), pad.axis("ABS_MT_POSITION_X"))
            client = pad.open()
            pad.frame(("KEY_A", 1), ("KEY_B", 1))
            pad.frame(("KEY_C", 1))
            pad.frame(("KEY_D", 1), ("KEY_D", 0), now=9)
            pad.frame(("KEY_D", 1), now=5008)
            self.assertEqual(["KEY_B", "KEY_D", "KEY_D"], [event.name for event in client.read() if not event.is_report])

    def test_what_no_device_has(self):
        for description, cause in (
            (Description(codes=[("EV_KEY", 0)]), Cause.BAD_CODE),
            (Description(axes={"ABS_X": Axis(fuzz=-1)}), Cause.BAD_AXIS),
            (Description(slots=257), Cause.BAD_SLOTS), (Description(hint=1), Cause.BAD_HINT),
            (Description(log=2**32 - 1), Cause.BAD_LOG), (Description(boottime=2**64 - 1), Cause.BAD_OFFSET),
            (Description(filters=[Filter.norepeat()] * 9), Cause.BAD_FILTER),
        ):
            with self.subTest(cause), self.assertRaises(RefusedDescription) as refused:
                Device.of(description)
            self.assertEqual(cause, refused.exception.cause)
        self.assertEqual("bad-filter", str(refused.exception))

    def test_what_is_no_description(self):
        for description, error in (
            (Description(codes=["KEY_NONE_SUCH"]), ValueError), (Description(types=["EV_NONE"]), ValueError),
            (Description(codes=["ABS_X"]), ValueError), (Description(codes=[(0x15, 80)]), ValueError),
            (Description(codes=[("EV_KEY", 768)]), OverflowError), (Description(axes={64: Axis()}), OverflowError),
            (Description(types=[64]), OverflowError), (Description(axes={"KEY_A": Axis()}), ValueError),
        ):
            with self.subTest(description), self.assertRaises(error):
                Device.of(description)


class Threads(unittest.TestCase):
    def test_four_threads_share_a_device_under_a_lock(self):
        pad, lock, came = Device(PAD), threading.Lock(), []
        self.addCleanup(pad.close)

        def work():
            with lock:
                client = pad.open()
            for i in range(40):
                with lock:
                    pad.frame(("KEY_A", i % 2), ("ABS_X", len(came)))
                    came.append(client.visible)
                    client.read()

        threads = [threading.Thread(target=work) for _ in range(4)]
        for thread in threads:
            thread.start()
        for thread in threads:
            thread.join()
        self.assertEqual(160, len(came))
        # (the axis and the report of its own frame are there, and what the others sent)
        self.assertTrue(all(count >= 2 for count in came), came)
        steps = [step.step for step in pad.history()]
        self.assertEqual([4, 480, 160], [steps.count(step) for step in (Steps.OPEN, Steps.INJECT, Steps.READ)])

    def test_a_device_is_closed_on_another_thread(self):
        pad = Device(PAD)
        thread = threading.Thread(target=pad.close)
        thread.start()
        thread.join()
        self.assertTrue(pad.closed)


class Readers(unittest.TestCase):
    def setUp(self):
        self.pad = Device(PAD)
        self.addCleanup(self.pad.close)
        self.reader = self.pad.reader()

    def test_it_synchronises_after_a_loss(self):
        for i in range(301):
            self.pad.frame(("KEY_A", (i + 1) % 2))
        answer, event = self.reader.next()
        self.assertEqual((Answer.DROPPED, True, Phase.NEEDED), (answer, event.is_dropped, self.reader.phase))
        self.assertEqual(["KEY_A", "SYN_REPORT"], [event.name for event in self.reader])
        self.assertEqual((1, Phase.PLAIN), (self.reader["KEY_A"], self.reader.phase))

    def test_it_keeps_slots(self):
        self.pad.frame(("ABS_MT_SLOT", 1), ("ABS_MT_TRACKING_ID", 8), ("ABS_MT_POSITION_X", 5))
        list(self.reader)
        self.assertEqual(1, self.reader.slot)
        self.assertEqual([-1, 8], [self.reader.slot_value(slot, "ABS_MT_TRACKING_ID") for slot in (0, 1)])
        self.assertEqual(5, self.reader.slot_value(1, "ABS_MT_POSITION_X"))
        for key in ((2, "ABS_MT_POSITION_X"), (0, "ABS_X")):
            with self.subTest(key), self.assertRaises(KeyError):
                self.reader.slot_value(*key)
        with self.assertRaises(KeyError):
            self.reader["REL_X"]

    def test_it_tells_its_calls(self):
        steps = inputplay.Steps
        queries = [steps.OPEN, steps.GET_KEYS, steps.GET_AXIS, steps.SYNC_SLOTS]
        self.assertEqual(queries, self.reader.calls())
        self.pad.frame(("KEY_A", 1))
        self.reader.next()
        self.assertEqual([steps.READ], self.reader.calls())

    def test_it_is_told_to_synchronise(self):
        self.reader.force_sync()
        self.assertEqual(Phase.NEEDED, self.reader.phase)
        self.assertEqual([], list(self.reader))


class Joysticks(unittest.TestCase):
    def test_it_hands_out_buttons_and_axes(self):
        with Device(JOYSTICK) as pad:
            joystick = pad.joystick()
            self.assertEqual([(0, 0, 129, 0), (0, 3, 130, 0)], list(joystick))
            place = pad.frame(("BTN_SOUTH", 1), ("ABS_X", 9), now=5000)
            self.assertEqual((JoyAnswer.RECORD, (5, 1, 1, 0), 0), joystick.read())
            self.assertEqual((JoyAnswer.RECORD, (5, 9, 2, 0), 0), joystick.read())
            self.assertEqual((JoyAnswer.FRAME, None, place), joystick.read())
            self.assertEqual((JoyAnswer.AGAIN, None, 0), joystick.read())
            self.assertEqual(({0}, 9), (joystick.buttons, joystick.axes[0]))


class Records(unittest.TestCase):
    def test_a_stream_is_given(self):
        record = Record(STREAM)
        self.addCleanup(record.close)
        self.assertEqual({0: "keys"}, record.streams())
        with self.assertRaises(inputplay.CallRefused) as refused:
            record.load(0, bytes(15))
        self.assertEqual(Status.BAD_STREAM, refused.exception.status)
        record.load(0, bytes.fromhex("0100000020a1070001001e0001000000"))
        with record.device() as pad:
            self.assertEqual(0, pad.inject("KEY_A", 1))

    def test_its_devices_and_actors(self):
        with Record(LINES) as record:
            self.assertEqual(["pad", "lamp"], record.devices)
            named = [("s", Role.SOURCE, 0), ("t", Role.TAP, 0), ("c", Role.CLIENT, 1), ("j", Role.JOYSTICK, 1), ("o", Role.OWNER, 1)]
            self.assertEqual([Actor(*each) for each in named], record.actors)

    def test_its_lines(self):
        with Record(LINES) as record:
            said = [(line.actor, line.command, line.count) for line in record.lines]
            commands = Command
            self.assertEqual([
                (1, commands.OPEN, 0), (0, commands.EVENT, 0), (0, commands.EVENT, 0), (1, commands.READ, 16),
                (1, commands.MASK, 0), (1, commands.CLOCK, 0), (1, commands.SET_AXIS, 0), (2, commands.OPEN, 0),
                (2, commands.NEXT, 3), (2, commands.FOLLOW, 0), (3, commands.READ, 9), (4, commands.FEEDBACK, 4),
                (0, commands.STREAM, 0),
            ], said)
            steps = [line.step for line in record.lines]
            self.assertEqual([8, 9, 11, 12], [place for place, step in enumerate(steps) if step is None])
            event, mask, clock, axis = steps[1], steps[4], steps[5], steps[6]
            self.assertEqual((Steps.INJECT, 1, 30, 1, 5), (event.step, event.type, event.code, event.value, event.now))
            self.assertEqual((Steps.MASK, 1, 3, 0xFF), (mask.step, mask.type, mask.code, mask.bits))
            self.assertEqual((Steps.CLOCK, Clock.BOOTTIME, 7), (clock.step, clock.clock, clock.now))
            self.assertEqual((Steps.SET_AXIS, 0, 1, 6), (axis.step, axis.code, axis.info.value, axis.info.resolution))
            self.assertEqual((Steps.READ, 16), (steps[3].step, steps[3].count))
            with self.assertRaises(KeyError):
                record.line(13)

    def test_its_events(self):
        with Record(STREAM) as record, record.device() as pad:
            self.assertEqual([], record.events(0))
            record.load(0, bytes.fromhex("0100000020a1070001001e0001000000" + "02000000" + 24 * "0"))
            events = record.events(0)
            self.assertEqual([(1, 30, 1, 1500000), (0, 0, 0, 2000000)], events)
            client = pad.open()
            self.assertEqual(2, pad.inject_all(events))
            self.assertEqual(["KEY_A", "SYN_REPORT"], [event.name for event in client.read()])
            with self.assertRaises(KeyError):
                record.events(1)

    def test_a_record_is_made_line_by_line(self):
        """What a tap reads is what its lines say, made step by step."""
        with Record(LINES) as record, record.device() as pad:
            came, client = [], 0
            for line in record.lines:
                if line.step is None or record.actors[line.actor].device != 0:
                    continue
                step = line.step
                if record.actors[line.actor].role == Role.TAP:
                    step.client = client
                fields = {name: getattr(step, name) for name, *_ in step._fields_ if name != "info"}
                axis = [getattr(step.info, name) for name in Axis._fields]
                reply = pad.step(**fields, axis=axis)
                client = reply.client if reply.reply == inputplay.Replies.OPENED else client
                came += [event.name for event in reply.events]
            self.assertEqual(["KEY_A", "SYN_REPORT"], came)
            self.assertEqual((1, -2, 3, 4, 5, 6), pad.axis("ABS_X"))

    def test_a_record_is_played(self):
        with Record(STREAM) as record:
            self.assertEqual("device pad steps 0\nsource s calls 0 stop finished\n", record.play())
            record.load(0, bytes.fromhex("0100000020a1070001001e0001000000"))
            self.assertEqual("device pad steps 1\nsource s calls 1 stop finished\n", record.play())
            step = "step 0 inject 1500000 EV_KEY KEY_A 1\n"
            with_steps = f"device pad steps 1\n{step}source s calls 1 stop finished\n"
            self.assertEqual(with_steps, record.play(history=True))
            self.assertTrue(record.migrate().startswith("inputrecord 2\n"))
            self.assertEqual(with_steps, record.play(True))
        with self.assertRaises(inputplay.CallRefused) as refused:
            record.play()
        self.assertEqual(Status.BAD_HANDLE, refused.exception.status)

    def test_a_record_is_migrated(self):
        with Record(PAD) as record:
            text = record.migrate()
        self.assertTrue(text.startswith("inputrecord 2\ndevice pad\n"), text)
        with Record(text) as again:
            self.assertEqual(text, again.migrate())

    def test_a_text_that_is_none_is_told(self):
        for text, line, cause in (("", 1, Cause.BAD_HEADER), (PAD + "do s jump\n", 9, Cause.BAD_COMMAND)):
            for make in (Record, Device):
                with self.subTest(text=text, make=make), self.assertRaises(RefusedRecord) as refused:
                    make(text)
                self.assertEqual((line, cause), (refused.exception.line, refused.exception.cause))
        self.assertEqual("line 9: bad-command", str(refused.exception))
        with self.assertRaises(inputplay.CallRefused):
            Device(PAD, 1)


if __name__ == "__main__":
    unittest.main()
