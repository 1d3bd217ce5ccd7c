"""Shrinks a record for which a command ends with a certain status."""

import shlex
from typing import List

from inputtools.command import STOPPED, Result, Words, Wrong, counted
from inputtools.shrinking import shrink
from inputtools.source import Given, read_text

HELP = """Writes the shortest record that it finds for which COMMAND still ends with the same status as for
RECORD. Whole frames are left out first, with what the readers do behind them, then single lines. The events
of streams are put into the record, so that they can be left out too.

COMMAND is run once for each try. `{}` in its words is the record that is tried; where no word has it, the
record stands behind the last one. The record has the same name, in a folder of its own that has the files of
its streams and of its expected reports too. What the command prints is looked at for the text of --says
alone.

So this finds the few lines that a failure needs:

    tools/shrink sticks.rec --says 'grab of remapper' -- tools/stuck > short.rec

A line `#=`, which says what is expected, is never left out. Where COMMAND is tools/check the same
expectations fail, at whatever places. Any other command that ends with the same status for another reason is
believed: name what it has to say by --says, or let it answer one question alone. A command of several steps
is `sh -c '..' sh {}`.

A stop from the keyboard writes the shortest record that was found until then."""

STATUSES = """Status 0: the record was written. 2: wrong words, a file that cannot be read, or a command that
cannot be run or does not end with the same status twice. 4: standard output failed. 130: stopped from the
keyboard; the shortest record until then was written, where the command had run on the whole one."""


def command(arguments: List[str]) -> Result:
    usage = "%(prog)s [--says TEXT] [--seconds N] RECORD -- COMMAND .."
    words = Words(prog="shrink", usage=usage, description=HELP, epilog=STATUSES)
    words.add_argument("record", metavar="RECORD", help="a record; - is standard input")
    words.add_argument("--seconds", type=float, default=60, help="a run that takes longer has no status (60)")
    words.add_argument("--says", metavar="TEXT", help="what the command prints has to have this text too")
    own = arguments
    behind: List[str] = []
    if "--" in arguments:
        middle = arguments.index("--")
        own, behind = arguments[:middle], arguments[middle + 1 :]
    asked = words.parse_args(own)
    if not behind:
        raise Wrong("no command stands behind --")
    if not 0 < asked.seconds < 1e6:
        raise Wrong("--seconds wants a number above 0")
    given = Given(asked.record)
    text = read_text(given.path)
    short = shrink(given, text, behind, asked.seconds, asked.says)
    ends = "does not end" if short.status is None else f"ends with status {short.status}"
    left, all_lines = len(short.text.splitlines()), counted(len(text.splitlines()), "line")
    are = "is" if left == 1 else "are"
    note = f"{left} of {all_lines} {are} left, for which {shlex.join(behind)} {ends}"
    note += f"; {counted(short.runs, 'run')}"
    if short.is_stopped:
        return Result(short.text, [f"stopped: this is the shortest until now: {note}"], STOPPED)
    return Result(short.text, [note])
