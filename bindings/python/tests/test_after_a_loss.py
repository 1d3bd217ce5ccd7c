"""A page for pytest: does a program know its keys after events were lost?

    pip install bindings/python pytest
    INPUTPLAY_LIBRARY=out/library/libinputplay.so pytest bindings/python/tests

`keyboard` is a device that is made of a record. A program is what is handed its events. `NaiveProgram` ignores SYN_DROPPED, as
many programs do, and its test fails for that reason, and for no other; `Program` is what to write in its place.
"""

import inputplay
import pytest

KEYBOARD = """inputrecord 1
device kbd
hint 8
cap EV_KEY KEY_A
cap EV_KEY KEY_B
log 10000
source usb
"""


class NaiveProgram:
    """It takes each key event, and looks at nothing else."""

    def __init__(self, device):
        self.client, self.down = device.open(), set()

    def take(self, event):
        if event.type == inputplay.Type.EV_KEY:
            (self.down.add if event.value else self.down.discard)(event.name)

    def follow(self):
        while True:
            events = self.client.read(16)
            if not events:
                return
            self.take_all(events)

    def take_all(self, events):
        for event in events:
            self.take(event)


class Program(NaiveProgram):
    """It drops what comes up to the next SYN_REPORT behind a SYN_DROPPED, and then asks for the keys. What it had read
    before it asked is older than they are, and is dropped too."""

    drops = False

    def take_all(self, events):
        for event in events:
            if event.is_dropped:
                self.drops = True
            elif not self.drops:
                self.take(event)
            elif event.is_report:
                self.drops = False
                self.down = {inputplay.name_of(inputplay.Type.EV_KEY, code) for code in self.client.keys()}
                return


@pytest.fixture
def keyboard():
    with inputplay.Device(KEYBOARD) as device:
        yield device


def flood(device, program):
    """A key goes down and is read; it goes up while more comes than the ring holds."""
    device.frame(("KEY_A", 1))
    program.follow()
    device.frame(("KEY_A", 0))
    for i in range(200):
        device.frame(("KEY_B", (i + 1) % 2))
    program.follow()


def test_a_right_program_knows_its_keys(keyboard):
    program = Program(keyboard)
    flood(keyboard, program)
    assert program.down == set()


@pytest.mark.xfail(strict=True, reason="it ignores SYN_DROPPED, so KEY_A stays down")
def test_a_naive_program_knows_its_keys(keyboard):
    program = NaiveProgram(keyboard)
    flood(keyboard, program)
    assert program.down == set()


def test_the_reader_of_the_library_knows_its_keys(keyboard):
    reader = keyboard.reader()
    flood(keyboard, Program(keyboard))
    assert any(event.is_dropped for event in reader)
    assert reader["KEY_A"] == 0
