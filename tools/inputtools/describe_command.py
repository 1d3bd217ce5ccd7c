"""Writes the lines of a record that describe a device, from what a usual tool tells of it."""

from typing import List

from inputtools import files
from inputtools.command import Result, Words, Wrong
from inputtools.description import comments, description_lines, name_of, state_lines
from inputtools.evtest import WHY_GRABBED
from inputtools.identity import moment_of
from inputtools.jsonlines import description_line
from inputtools.source import shown

HELP = """Writes the lines of a record that describe a device: device, hint, slots, type, cap and axis.

FILE is one of these, and which one is seen by its content:
  - what evtest prints (timeout 1 evtest /dev/input/event5 > FILE)
  - what evemu-describe or evemu-record write
  - a recording of libinput record
  - /proc/bus/input/devices, or udevadm info -a /dev/input/event5, which tell no ranges of axes and no slots
  - the lines of a record

The hint is the kernel's own estimate of the events of a frame. Fuzz is written as 0, since a kernel has
applied it to each capture already. Comments behind the line `device` tell who it is: its name, phys, uniq,
ids and properties, as far as FILE does, and what the clock showed when a capture began. Others tell what was
left out: force feedback, codes that no record has. Comments `# state TYPE CODE VALUE` tell what was on, which
`tools/record` reads. """

STATUSES = """Status 0: it was written. 2: wrong words, or a file that describes no device. 4: standard output failed. 130:
stopped from the keyboard."""


def command(arguments: List[str]) -> Result:
    words = Words(prog="describe", description=HELP, epilog=STATUSES)
    words.add_argument("file", metavar="FILE", help="one of these; - is standard input")
    words.add_argument("--raw", action="store_true", help="keep the device's fuzz")
    words.add_argument("--name", metavar="NAME", help="the device's name in the record; else made of its own")
    words.add_argument("--device", metavar="N", help="of several the N-th, from 1, or the one of this name")
    words.add_argument("--json", action="store_true", help="write one JSON object a line (docs/JSON.md)")
    asked = words.parse_args(arguments)
    recording = files.read(asked.file, asked.device)
    device = recording.device
    if device is None:
        raise Wrong(f"{shown(asked.file)}: it has events and no description of a device")
    device.identity.began = moment_of(event.time for event in recording.events) or device.identity.began
    lines = comments(device, asked.raw) + description_lines(device, name_of(device, asked.name), asked.raw)
    lines += state_lines(device)
    if asked.json:
        lines = list(map(description_line, lines))
    text = "".join(line.encode("ascii", "backslashreplace").decode() + "\n" for line in lines)
    return Result(text, [WHY_GRABBED] if recording.was_grabbed else [])
