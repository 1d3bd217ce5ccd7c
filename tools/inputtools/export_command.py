"""Writes what a record has in the forms of other tools."""

import argparse
import os
import sys
from typing import List, Optional, Tuple, Union

from inputtools.command import Result, Words, Wrong
from inputtools.exporting import Source, evemu_text, raw_bytes
from inputtools.program import CUT, PLAYED, find_player
from inputtools.refusal_hints import refusal_text
from inputtools.report import CUT_HELP, Part, Report, cut_text
from inputtools.source import Given, read_text, write_bytes
from inputtools.umockdev import umockdev_text

HELP = """Writes the events of a record for other tools, to stdout or to a file.

--evemu writes the device and all events of its sources, as evemu-record does: for evemu-device and
evemu-play, and as the events of umockdev-run --evemu-events. Nothing is played for that. The events are those
that the sources send, before filters; times are the record's moments. A description by evemu cannot tell
which keys are down: a record that tools/record wrote sends them in its first frame.

--raw CLIENT plays the record and writes what this client or tap read, SYN_DROPPED among it: the bytes that
`read` of /dev/input/event5 gives, 24 for an event, or 16 with --16 as on a 32-bit machine. So one's own code
can read them in the place of the node. What a reader made up itself is no part of it. Times are those of the
client's clock.

--umockdev writes who the devices are and what they have, for `umockdev-run -d`: names, ids, properties and
udev's ID_INPUT_..; programs that look for devices by udev find them so. It has no events. Fuzz and ranges are
no part.

tools/record makes a record of either of the first two again: of the second with the device's description
beside it."""

STATUSES = """Status 0: it was written. 2: wrong words, or a record that cannot be exported or played. 4:
standard output failed. 6: what --raw had played until a history was full was written. 130: stopped from the
keyboard."""


def written(path: Optional[str], data: Union[str, bytes], notes: List[str]) -> Result:
    """Has data written to a file, or to stdout."""
    if path is not None:
        write_bytes(path, data if isinstance(data, bytes) else data.encode("ascii", "backslashreplace"))
        return Result(notes=notes)
    if isinstance(data, bytes) and sys.stdout is not None and sys.stdout.isatty():
        raise Wrong("the bytes are not written to a terminal: name a file with --output")
    return Result(data, notes)


def read_by(given: Given, name: str, size: int) -> Tuple[bytes, Optional[Part]]:
    """What a client of a record read, as bytes, and who stopped since a history was full, if anybody did."""
    text = read_text(given.path)
    status, written = find_player().play(given.path, given.folder)
    if status not in PLAYED:
        raise Wrong(f"{given.name}: {refusal_text(text, written, status, given.folder)}")
    report = Report(written)
    parts = report.parts
    readers = [part.name for part in parts.values() if part.role in ("client", "tap")]
    if name not in readers:
        listed = f"there are {', '.join(readers)}" if readers else "it has none"
        raise Wrong(f"{given.name}: no client or tap is named {name}; {listed}")
    return raw_bytes(parts[name], size), report.cut


def refuse_own_file(path: str, output: Optional[str]) -> None:
    if output and os.path.exists(output) and os.path.exists(path) and os.path.samefile(path, output):
        raise Wrong(f"the output {output} would be written over the record")


def exported_devices(asked: argparse.Namespace, given: Given) -> Result:
    """Writes the devices for umockdev."""
    if asked.is_16 or asked.device is not None:
        raise Wrong("--umockdev has all devices, and goes with --output alone")
    try:
        text = umockdev_text(read_text(given.path))
    except Wrong as wrong:
        raise Wrong(f"{given.name}: {wrong}") from None
    if not text:
        raise Wrong(f"{given.name}: it has no device")
    return written(asked.output, text, [])


def command(arguments: List[str]) -> Result:
    words = Words(prog="export", description=HELP, epilog=STATUSES)
    words.add_argument("record", metavar="RECORD", help="a record; - is standard input")
    forms = words.add_mutually_exclusive_group(required=True)
    forms.add_argument("--evemu", action="store_true",
                       help="the device and its sources' events, as evemu has them")
    forms.add_argument("--umockdev", action="store_true", help="all devices, as umockdev-run -d takes them")
    forms.add_argument("--raw", metavar="CLIENT", help="what this client or tap read, as bytes")
    words.add_argument("--16", dest="is_16", action="store_true", help="--raw: 16 bytes an event")
    words.add_argument("--device", metavar="N",
                       help="--evemu: of several devices the N-th, from 1, or the one of this name")
    words.add_argument("--output", metavar="FILE", help="write to FILE")
    asked = words.parse_args(arguments)
    refuse_own_file(asked.record, asked.output)
    given = Given(asked.record)
    if asked.umockdev:
        return exported_devices(asked, given)
    if asked.evemu:
        if asked.is_16:
            raise Wrong("--16 goes with --raw")
        source = Source(given, read_text(given.path), asked.device)
        if not source.events:
            source.notes.append("the device's sources send no event")
        return written(asked.output, evemu_text(source), source.notes)
    if asked.device is not None:
        raise Wrong("--device goes with --evemu: the client tells the device")
    data, cut = read_by(given, asked.raw, 16 if asked.is_16 else 24)
    notes = [f"the play was cut: {cut_text(cut)}; {CUT_HELP}"] if cut else []
    result = written(asked.output, data, notes + ([] if data else [f"{asked.raw} read no event"]))
    return result._replace(status=CUT if cut else 0)
