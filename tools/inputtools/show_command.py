"""Shows a played record as a timeline in text."""

import shutil
from typing import List

from inputtools.command import Result, Words
from inputtools.endings import cuts_of
from inputtools.narrowing import Scope, add_client, narrow
from inputtools.played import play
from inputtools.program import CUT, find_player
from inputtools.show import device_lines, json_lines
from inputtools.source import Given

HELP = """Shows a played record as a timeline: a row for each frame that a source sent, on the left, and for
each thing that a reader did or was handed, on the right.

Before each row stand the record's time in seconds, the gap since the time before, and the place in the
device's history. Events that a reader was handed have the place of their frame behind them, so a frame is
found on both sides. A row "parts" stands at the place since which a belief is not the device's state, with
what kept the event, and a row "meets" where both agree again. Answers that a reader asks for are counted
alone."""

STATUSES = """Status 0: it was shown. 2: wrong words, or a record that cannot be played. 4: standard output
failed. 6: it was shown, of a play that was cut. 130: stopped from the keyboard."""


def command(arguments: List[str]) -> Result:
    words = Words(prog="show", description=HELP, epilog=STATUSES)
    words.add_argument("file", metavar="FILE", help="a record; - is standard input")
    add_client(words)
    words.add_argument("--json", action="store_true", help="write one JSON object a line (docs/JSON.md)")
    asked = words.parse_args(arguments)
    devices = narrow(play(Given(asked.file), find_player()), Scope(asked.client))
    width = shutil.get_terminal_size((110, 24)).columns
    lines = (json_lines(device) if asked.json else device_lines(device, width) for device in devices)
    cuts = cuts_of(devices)
    return Result("".join(line + "\n" for group in lines for line in group), cuts, CUT if cuts else 0)
