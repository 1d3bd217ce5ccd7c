"""Says of a record where a client's belief is not the device's state, and why."""

from typing import List

from inputtools.command import Result, Words
from inputtools.jsonlines import line_of, stuck_lines
from inputtools.narrowing import Scope, add_client, narrow
from inputtools.played import cut_of, play
from inputtools.program import CUT, find_player
from inputtools.report import CUT_HELP, cut_text
from inputtools.source import Given
from inputtools.summary import ends_apart, summary_lines
from inputtools.stuck_text import device_lines
from inputtools.wall import add_wall, wall

HELP = """Says of a record where a client's belief is not the device's state, since which place, and what
kept the event.

Each client's belief is compared with the device's own state at each report that the client was handed (with
the state at the end of that report's frame), each time that it found nothing more to read, and at the end.
Of a joystick it is the picture that its records make, and of an owner what it was told of what was sent to
its device. The device's state is what the program tells: the history is played a second time, with nobody
there but a client that reads every frame, and without the device's filters.

Of each thing in which both differ it writes the values at first, the place since which they differ, what
kept the event from the client, where that was seen, and how they met again. Places are those of the
device's history, as in the report, each with its time in the record. The last lines are the device's state
at the end, and what is held on the device itself: a key that went down or a slot that was touched, with no
release behind."""

STATUSES = """Status 0: it was compared, whether or not something differs. Status 1: with --fail, a client,
tap, joystick or owner ends apart from its device. Status 2: the record cannot be played, or what is computed
here is not what the program tells. Status 4: standard output failed. Status 6: it was compared, and the play
was cut, since a history was full: the first line says where. Status 130: stopped from the keyboard."""


def command(arguments: List[str]) -> Result:
    words = Words(prog="stuck", description=HELP, epilog=STATUSES)
    words.add_argument("file", metavar="FILE", help="a record; - is standard input")
    words.add_argument("--fail", action="store_true", help="end in status 1 where a client ends apart")
    words.add_argument("--summary", action="store_true", help="write a count by cause and key first")
    add_wall(words)
    words.add_argument("--json", action="store_true", help="write one JSON object a line (docs/JSON.md)")
    add_client(words)
    words.add_argument("--thing", action="append", default=[], metavar="NAME",
                       help="this key, switch, light or axis alone: KEY_A, ABS_X, 'slot 0 ABS_MT_POSITION_X'")
    words.add_argument("--end", action="store_true", help="what is so at the end alone")
    asked = words.parse_args(arguments)
    only = Scope(asked.client, asked.thing, asked.end)
    wall.ask(asked.wall, asked.json)
    devices = narrow(play(Given(asked.file), find_player()), only)
    cut = cut_of(devices)
    if asked.json:
        asked_for = line_of("only", clients=only.readers, things=only.things, end=only.is_end)
        lines = ([] if only.is_all else [asked_for]) + stuck_lines(devices)
    else:
        lines = [f"the play was cut: {cut_text(cut)}; {CUT_HELP}"] if cut else []
        lines += wall.heading() + ([] if only.is_all else [only.text()])
        lines += summary_lines(devices) if asked.summary else []
        lines += [line for device in devices for line in device_lines(device)]
    status = CUT if cut else int(asked.fail and bool(ends_apart(devices)))
    return Result("".join(line + "\n" for line in lines), [], status)
