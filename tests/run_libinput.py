"""libinput's own tools on played devices, which find them by udev's data: umockdev shows it."""

from typing import List

from tests.run_cases import EXAMPLES, RunCase, needs, sent, variables
from tests.run_readers import AT_ONCE, NODE, STEPS

from tests.playing import said

PACKAGE = "libinput-tools"
# libinput tells times from its own start on.
TIMES = rb"\+ *[0-9.]+s"


class Libinput(RunCase):
    def setUp(self) -> None:
        super().setUp()
        needs(self, "umockdev-run", "umockdev")

    def debug_events(self, *words: str) -> List[str]:
        return [needs(self, "libinput-debug-events", PACKAGE), "--show-keycodes", *words, "--device", NODE]

    def test_list_devices(self) -> None:
        words = [needs(self, "libinput", PACKAGE), "list-devices"]
        done = self.twice(["--frames", "1", self.records / "touchpad.rec"], words)
        self.says(done, "^Device: +ETPS/2 Elantech Touchpad", 1)
        self.says(done, "^Size: +98x61mm", 1)

    def test_keyboard(self) -> None:
        record = self.records / "keyboard.rec"
        done = self.twice([*STEPS, "int", record], self.debug_events(), but=TIMES)
        # (libinput leaves autorepeats out, and the release of a key that it did not see go down)
        keys = sent(record, r" EV_KEY \S+ [01]$") - 1
        self.says(done, r"KEYBOARD_KEY .*(pressed|released)", keys)

    def test_mouse(self) -> None:
        record = self.records / "mouse.rec"
        done = self.twice([*STEPS, "int", record], self.debug_events(), but=TIMES)
        self.says(done, "POINTER_BUTTON", sent(record, " EV_KEY "))
        self.assertGreater(done.count("POINTER_MOTION"), 40, self.shown(done))

    def test_touchpad(self) -> None:
        """At the record's times. (Its gestures wait by timers, so that two runs need not say the same.)
        Contacts begin behind the open: libinput leaves out those that were there before."""
        words = ["--end", "int", self.records / "touchpad.rec"]
        done = self.ran(words, self.debug_events())
        self.assertGreater(done.count("POINTER_MOTION|GESTURE"), 20, self.shown(done))

    def test_lid(self) -> None:
        done = self.twice([*STEPS, "int", self.records / "lid.rec"], self.debug_events(), but=TIMES)
        self.assertGreater(done.count("SWITCH_TOGGLE"), 10, self.shown(done))

    def test_a_loss(self) -> None:
        program = self.debug_events("--verbose")
        done = self.twice([*AT_ONCE, "int", self.records / "keyboard.rec"], program, but=TIMES)
        self.says(done, "SYN_DROPPED event", 1)

    def test_record(self) -> None:
        """What libinput records is what the record sends."""
        record = self.records / "mouse.rec"
        words = [needs(self, "libinput-record", PACKAGE), "--show-keycodes", NODE]
        done = self.ran([*STEPS, "int", record], words)
        path = self.folder / "again.yml"
        path.write_bytes(done.text)
        again = self.built.record("again.rec", path).read_text().splitlines()
        self.assertEqual(sent(record), sum(" event " in line for line in again), self.shown(done))

    def test_a_key_sticks(self) -> None:
        """The example's desktop is libinput: the key sticks in it, and the tools tell why."""
        history = self.folder / "history.rec"
        words = [*STEPS[2:], "int", "--as", "desktop", EXAMPLES / "stuck_key.rec"]
        self.twice(words, self.debug_events(), but=TIMES)
        done = self.ran(["--history", history, *words], self.debug_events())
        self.says(done, r"KEY_LEFTCTRL \(29\) pressed", 1)
        self.says(done, r"KEY_LEFTCTRL \(29\) released", 0)
        told = said("tools/stuck", history, env=variables(self.built)).text
        self.assertIn("KEY_LEFTCTRL: down for it, up on the device\n", told)
        self.assertIn("grab of remapper", told)
