"""Writes a whole record: a device, its driver that sends what a capture has, and readers that follow."""

import argparse
import os
from typing import Callable, List, Union

from inputtools import files
from inputtools.command import Result, Words, Wrong
from inputtools.description import name_of
from inputtools.evtest import WHY_GRABBED
from inputtools.identifying import identify
from inputtools.merge_devices import MergedRecord, merge_devices, recordings_of
from inputtools.readers import FORM, Reader, micros_of, readers_of
from inputtools.recording import Recording
from inputtools.source import shown, write_bytes
from inputtools.verifying import verify
from inputtools.writing import Options, Record, Window, record_of

HELP = f"""Writes a whole record of a device and of a capture of its events, to be played.

DESCRIPTION is anything that `tools/describe` reads. CAPTURE is one of these, as its content tells:
  - a raw capture of 24 or 16 bytes a record (cat /dev/input/event5 > CAPTURE)
  - what evemu-record writes
  - a recording of libinput record, with --show-keycodes for a keyboard
  - what evtest prints
Where one file has both, it is enough. One of both may be -, which is standard input.

Times are told from the first event on. What was down, on or touching when the capture began is set in a
frame before the readers open: it follows from the description and from the first event on each thing.
Repeats of keys stand as they were captured. What the record cannot have of the capture is said on standard
error. Behind a loss (SYN_DROPPED) events may name no slot: they are taken for the likeliest one, and a note
and a comment of the record say which events and which slot. With --strict nothing is written then.

--from and --to take a part of the capture; what was down before it is set as at a begin. Times stay those
of the whole capture. --all-devices takes all devices of the files, which are of one clock: of one recording of
libinput record, or of several files of evtest. Each has its own readers then, `reader-1`, `reader-2`.

Readers: {FORM}
  joy       read as a joystick
  every=N   follow behind each N-th frame, not behind each
  slow      follow at the end alone
  open=S    open at S seconds, not at the start
  grab      grab the device; grab=1.5 from 1.5 seconds on, grab=1.5-3.2 until 3.2 seconds
  revoke=S  be revoked at S seconds, and read no more
  mask=..   get these types and codes alone: mask=EV_KEY, mask=REL_X,REL_Y, mask=EV_KEY/656
"""

Make = Callable[[], Union[Record, MergedRecord]]

STATUSES = """Status 0: it was written. 1: with --verify, not each event came as it was captured; with
--strict, a slot would be guessed. 2: wrong words, or a file of which no record can be made. 4: standard
output failed. 130: stopped from the keyboard."""


def command(arguments: List[str]) -> Result:
    asked = words_of().parse_args(arguments)
    paths = [asked.description, *asked.more]
    if len(paths) > 2 and not asked.all_devices:
        raise Wrong(f"unrecognized arguments: {' '.join(paths[2:])}")
    asked.capture = paths[1] if paths[1:] else None
    window = window_of(asked)
    options = Options(window, asked.stream, asked.hidden_keys, asked.hide_keys)
    check_stream(asked, readers_of(asked.reader))
    make = all_devices(asked, paths, options) if asked.all_devices else one_device(asked, options)
    try:
        record = make()
        text = record.text()
        stream = record.stream_bytes() if asked.stream and isinstance(record, Record) else b""
    except Wrong as wrong:
        raise Wrong(f"{shown(asked.capture or asked.description)}: {wrong}") from None
    notes, status = list(record.notes), 0
    records = record.records if isinstance(record, MergedRecord) else [record]
    if asked.strict and any(each.guesses() for each in records):
        return Result(notes=[*notes, "nothing is written, since a slot is a guess (--strict)"], status=1)
    if asked.verify:
        for each in records:
            is_right, said = verify(each)
            notes.append(said)
            status = status if is_right else 1
    if asked.stream:
        write_bytes(asked.stream, stream)
    return Result(text, notes, status)


def words_of() -> Words:
    words = Words(prog="record", description=HELP, epilog=STATUSES)
    words.add_argument("description", metavar="DESCRIPTION")
    words.add_argument("more", metavar="CAPTURE", nargs="*", help="one; with --all-devices any number of files")
    words.add_argument("--reader", metavar="READER", action="append", help="a reader, as above; or several")
    words.add_argument("--from", dest="begin", metavar="S", help="begin at S seconds of the capture")
    words.add_argument("--to", dest="end", metavar="S", help="end at S seconds of the capture")
    words.add_argument("--name", metavar="NAME", help="the device's name in the record; else made of its own")
    words.add_argument("--device", metavar="N", help="of several the N-th, from 1, or the one of this name")
    words.add_argument("--identity", metavar="FILE",
                       help="take name, phys, uniq, ids and properties from this description too")
    words.add_argument("--all-devices", action="store_true", help="all devices of the files, in one record")
    words.add_argument("--stream", metavar="FILE", help="write the events to FILE, which the record names")
    words.add_argument("--16", dest="is_16", action="store_true", help="CAPTURE is raw, of 16 bytes a record")
    words.add_argument("--hidden-keys", action="store_true", help="take the KEY_A of keys that were hidden")
    words.add_argument("--hide-keys", action="store_true",
                       help="rename keys one to one, but for modifiers, and leave scan codes out")
    words.add_argument("--strict", action="store_true", help="write nothing where a slot would be guessed")
    words.add_argument("--verify", action="store_true",
                       help="play it, and say how many events came as captured; status 1 where not all did")
    return words


def window_of(asked: argparse.Namespace) -> Window:
    """The part of the capture that is asked for."""
    begin = micros_of(asked.begin) if asked.begin is not None else None
    end = micros_of(asked.end) if asked.end is not None else None
    if begin is not None and end is not None and end < begin:
        raise Wrong(f"--to {asked.end} is before --from {asked.begin}")
    return Window(begin, end)


def one_device(asked: argparse.Namespace, options: Options) -> Make:
    """What makes the record of one device, which was read."""
    recording = read_both(asked)
    assert recording.device is not None
    if asked.identity:
        identify(recording.device, asked.identity)
    name = name_of(recording.device, asked.name)
    return lambda: record_of(recording, name, readers_of(asked.reader), options)


def all_devices(asked: argparse.Namespace, paths: List[str], options: Options) -> Make:
    """What makes the record of all devices of the files, which were read."""
    for word, is_there in (("--name", asked.name), ("--device", asked.device), ("--stream", asked.stream),
                           ("--16", asked.is_16), ("--identity", asked.identity)):
        if is_there:
            raise Wrong(f"{word} is of one device, and --all-devices of several")
    recordings = recordings_of(paths)
    return lambda: merge_devices(recordings, asked.reader, options)


def read_both(asked: argparse.Namespace) -> Recording:
    """The recording of CAPTURE, with the device of DESCRIPTION."""
    described = files.read(asked.description, asked.device, 16 if asked.is_16 and not asked.capture else None)
    captured = described
    if asked.capture:
        captured = files.read(asked.capture, asked.device, 16 if asked.is_16 else None)
    if described.device is None:
        raise Wrong(f"{shown(asked.description)}: it has events and no description of a device")
    if not captured.events:
        why = f": {WHY_GRABBED}" if captured.was_grabbed else ""
        raise Wrong(f"{shown(asked.capture or asked.description)}: it has no events{why}")
    captured.device = described.device
    if asked.capture:
        captured.device.identity.began = None
    return captured


def check_stream(asked: argparse.Namespace, readers: List[Reader]) -> None:
    """A stream's name is a word of the record, and names none of the files that are read. It is one line, in
    which no reader can do anything."""
    path = asked.stream
    if path is None:
        return
    timed = next((reader for reader in readers if reader.does_at_times()), None)
    if timed:
        raise Wrong(f"a stream is one line of a record: {timed.name} can do nothing at a time in it")
    if not path.isascii() or not path.isprintable() or path.split() != [path]:
        raise Wrong(f'the stream "{path}" cannot stand in a record: its name is no single word')
    for other in (name for name in (asked.description, asked.capture) if name):
        if os.path.exists(path) and os.path.exists(other) and os.path.samefile(path, other):
            raise Wrong(f"the stream {path} would be written over {other}")


