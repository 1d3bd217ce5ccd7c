"""An input device, its reader and whole records, in memory.

    import inputplay

    with inputplay.Device(TEXT) as pad:
        reader = pad.reader()
        pad.frame(("KEY_A", 1))
        print(list(reader), reader["KEY_A"])

A `Device` answers as evdev does: `open` gives a `Client`, which reads what a program would read. What it has, and what
waits for a client, is told without a step, as by `state` and `visible`. Its `Reader` keeps a state and synchronises after a
loss, as libevdev does, and its `Joystick` hands out numbered buttons and axes, as the kernel's joydev does. A `Record` names
the files of its streams, is played, which gives its report, and is written in the newest version. The rules are in the
project's docs/RULES.md and docs/READER.md, and that the library keeps them is proved; this package is tested, and not
proved.
"""

from ._codes import Type, code_of, name_of, number_of
from ._description import Description, Filter, Filters
from ._device import Answer, Client, Device, JoyAnswer, JoyRecord, Joystick, Phase, Reader, Replies, Reply, Steps
from ._errors import (
    CallRefused, Cause, InputplayError, RefusedDescription, RefusedRecord, Status, StepRefused, Why,
)
from ._event import Event
from ._queries import Axis, ClientState, Clock, Limits, Repeat
from ._record import Actor, Command, Line, Record, Role

__version__ = "1.0.0"
__all__ = [
    "Actor", "Answer", "Axis", "CallRefused", "Cause", "Client", "ClientState", "Clock", "Command", "Description",
    "Device", "Event", "Filter", "Filters", "InputplayError", "JoyAnswer", "JoyRecord", "Joystick", "Limits", "Line",
    "Phase", "Reader", "Record", "RefusedDescription", "RefusedRecord", "Repeat", "Replies", "Reply", "Role",
    "Status", "StepRefused", "Steps", "Type", "Why", "code_of", "name_of", "number_of",
]
