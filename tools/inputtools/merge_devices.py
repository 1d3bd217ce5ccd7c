"""Several devices that were captured by one clock, as one record."""

import heapq
from typing import Iterator, List, Optional, Tuple

from inputtools import files
from inputtools.command import Wrong
from inputtools.description import name_of
from inputtools.readers import DRIVER, Acts, Reader, readers_of
from inputtools.recording import Recording
from inputtools.writing import Options, Record, Written, record_of, text_of

MOST_DEVICES = 8

# The forms whose times are one clock's over several devices, and that of one file alone.
ONE_CLOCK, ONE_CLOCK_IN_A_FILE = "evtest", "libinput record"


class MergedRecord:
    """The records of several devices, each with its own driver and readers, as one record."""

    def __init__(self, records: List[Record]) -> None:
        self.records = records
        self.notes = [f"{record.name}: {note}" for record in records for note in record.notes]

    def lines(self) -> Iterator[str]:
        """Frames stand in the order of their times, and at one time in that of the devices."""
        acts = Acts([reader for record in self.records for reader in record.readers])
        yield f"inputrecord {max(record.version() for record in self.records)}"
        for record in self.records:
            yield from record.device_lines()
        for record in self.records:
            yield from record.start_lines()
        yield from acts.opening_lines()
        yield "# The captures."
        for frame, record in self.frames():
            yield from acts.lines_before(frame.time)
            yield from record.lines_of_frame(frame)
        yield from acts.lines_before()
        for record in self.records:
            for reader in record.readers:
                yield from reader.lines_at_the_end()

    def frames(self) -> Iterator[Tuple[Written, Record]]:
        """All frames by time, each with its record. (Those of one device keep their order.)"""
        ways = [in_order(number, record) for number, record in enumerate(self.records)]
        return ((frame, self.records[number]) for _, number, _, frame in heapq.merge(*ways))

    def text(self) -> str:
        return text_of(self.lines())


def in_order(number: int, record: Record) -> Iterator[Tuple[int, int, int, Written]]:
    """The frames of a device by times that do not go back: (time, device, number of the frame, frame)."""
    time = 0
    for index, frame in enumerate(record.frames):
        time = max(time, frame.time)
        yield time, number, index, frame


def recordings_of(paths: List[str]) -> List[Recording]:
    """The recordings of all files that have a device and its events; all by one clock."""
    found = [(path, each) for path in paths for each in files.read_all(path)]
    for path, recording in found:
        if recording.device is None or not recording.events:
            raise Wrong(f"{path}: it has a device without events, or events without a device")
        form = recording.device.form
        if form != ONE_CLOCK and (form != ONE_CLOCK_IN_A_FILE or len(paths) > 1):
            raise Wrong(f"{path}: the times of {form} are no clock that several devices have; "
                        "give one recording of libinput record, or several of evtest")
    if len(found) > MOST_DEVICES:
        raise Wrong(f"{len(found)} devices: a record has at most {MOST_DEVICES}: "
                    "give fewer files, or one of them by --device")
    return [recording for _, recording in found]


def unlike(names: List[str]) -> List[str]:
    """Names of devices, those that were there already with a number after."""
    made = []
    for name in names:
        number, other = 2, name
        while other in made:
            number, other = number + 1, f"{name[:29]}-{number}"
        made.append(other)
    return made


def readers_of_device(texts: Optional[List[str]], number: int) -> List[Reader]:
    """A device's own readers: the name of each has the device's number after it."""
    parts = [text.partition(":") for text in texts or ["reader"]]
    return readers_of([f"{name}-{number}{colon}{options}" for name, colon, options in parts])


def merge_devices(recordings: List[Recording], texts: Optional[List[str]], options: Options) -> MergedRecord:
    """The record of several devices."""
    base = min(event.time for recording in recordings for event in recording.events)
    names = unlike([name_of(recording.device) for recording in recordings if recording.device])
    records = []
    for number, (recording, name) in enumerate(zip(recordings, names), 1):
        readers, driver = readers_of_device(texts, number), f"{DRIVER}-{number}"
        records.append(record_of(recording, name, readers, options, base, driver))
    return MergedRecord(records)
