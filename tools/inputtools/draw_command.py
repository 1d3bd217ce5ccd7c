"""Draws a played record as one page."""

import os
from typing import List, Optional

from inputtools.command import Result, Words, Wrong, number
from inputtools.endings import cuts_of
from inputtools.export_command import refuse_own_file
from inputtools.page import page, svg, why_nothing
from inputtools.played import play
from inputtools.program import CUT, find_player
from inputtools.source import Given, write_bytes
from inputtools.wall import add_wall, wall

HELP = """Writes a page that shows a played record, to be looked at in a browser. On top one sentence says
who ends apart from the device, in what, since when and why, or what is held on the device, and leads there.
Below it are lanes for each source, for the device's frames, keys, axes and contacts, and for each client,
with its reads, losses, grabs and synchronisations. What parts or is held at the end comes first, each
client's row below the device's row of the thing; rows beyond 60 are behind a button. The page needs no other
file and no net.

Of a long history the page has a picture of the whole, and pictures of the ranges in which something parts,
meets, is held, is grabbed or is lost, each with what happens in it; --from and --to draw any other range.

What a mark or bar stands for is shown under the pointer, where it is touched, and by the arrow keys."""

STATUSES = """Status 0: it was written. 2: wrong words, a record that cannot be played, or nothing to draw in
the range. 4: standard output failed. 6: it was written, of a play that was cut. 130: stopped from the
keyboard."""

GREATEST_PLACE = 8388608


def place(text: Optional[str]) -> Optional[int]:
    """A place, or None where none was given."""
    if text is None:
        return None
    if not text.isascii() or not text.isdigit():
        raise Wrong(f"{text} is no place: it is a number, as reports have it behind `step`")
    return number(text, 0, GREATEST_PLACE, "the place")


def command(arguments: List[str]) -> Result:
    words = Words(prog="draw", description=HELP, epilog=STATUSES)
    words.add_argument("file", metavar="FILE", help="a record; - is standard input")
    words.add_argument("--from", dest="first", metavar="PLACE", help="begin at this place of the history")
    words.add_argument("--to", dest="last", metavar="PLACE", help="end with this place")
    words.add_argument("--svg", action="store_true", help="the first device's picture alone, as SVG")
    add_wall(words)
    words.add_argument("--output", metavar="PAGE", help="write to this file, and to stdout nothing")
    asked = words.parse_args(arguments)
    refuse_own_file(asked.file, asked.output)
    first, last = place(asked.first), place(asked.last)
    if first is not None and last is not None and last < first:
        raise Wrong(f"--to {last} is before --from {first}")
    wall.ask(asked.wall)
    given = Given(asked.file)
    devices = play(given, find_player())
    if not devices:
        raise Wrong(f"{given.name}: the record has no device to draw")
    drawn = devices[:1] if asked.svg else devices
    if first and all(len(played.report.history) <= first for played in drawn):
        raise Wrong(f"--from {first}: {why_nothing(drawn[0], first)}")
    name = os.path.basename(given.name)
    text = svg(devices[0], first, last) if asked.svg else page(name, devices, first, last)
    if asked.output is not None:
        write_bytes(asked.output, text.encode("ascii"))
        text = ""
    cuts = cuts_of(drawn)
    return Result(text, cuts, CUT if cuts else 0)
