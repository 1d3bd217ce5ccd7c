"""A remapper between a played keyboard and a reader: keys go through it to a device that it makes."""

from tests.run_cases import Done, RunCase, needs, needs_module, sent

from tests.playing import TOP

# The reader begins when the remapper's device is there.
REMAPPER = TOP / "tests" / "run_uinput" / "remapper.py"
READER = "until [ -e /dev/input/event1 ]; do sleep 0.05; done; evtest /dev/input/event1"


class Remapper(RunCase):
    def setUp(self) -> None:
        super().setUp()
        needs(self, "evtest", "evtest")

    def read_behind(self, script: str, *options: str) -> Done:
        """What evtest reads of the made device, while a script runs."""
        words = ["--as", "reader", "--frames", "1", *options, "--clock", "record", "--end", "term"]
        return self.ran([*words, self.records / "keyboard.rec"], ["sh", "-c", f"{script} & {READER}; wait"])

    def test_python(self) -> None:
        python = needs_module(self, "evdev", "python3-evdev")
        # (the remapper opens the keyboard, and looks at both devices for its own; then evtest opens that one)
        done = self.read_behind(f"{python} {REMAPPER} /dev/input/event0", "--clients", "4")
        keys = sent(self.records / "keyboard.rec", " EV_KEY KEY_(A|B) [01]$")
        self.says(done, r"\(KEY_B\), value [01]$", keys)
        self.says(done, r"\(KEY_A\), value", 0)

    def test_interception(self) -> None:
        for program in ("interception", "uinput"):
            needs(self, program, "interception-tools")
        needs(self, "caps2esc", "interception-caps2esc")
        # (the programs behind the first one wait at a pipe, and ask for nothing)
        options, node = ("--patience", "50", "--clients", "3"), "/dev/input/event0"
        done = self.read_behind(f"interception -g {node} | caps2esc | uinput -d {node}", *options)
        self.says(done, r"\(KEY_CAPSLOCK\), value", 0)
        keys = sent(self.records / "keyboard.rec", " EV_KEY KEY_CAPSLOCK 1$")
        self.says(done, r"\(KEY_ESC\), value 1$", keys)
