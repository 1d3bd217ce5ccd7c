"""Plays a record that was made, with one reader that follows after each frame, and says how many events of the
capture it took as they were captured."""

import copy
import os
import tempfile
from difflib import SequenceMatcher
from typing import Hashable, List, Sequence, Tuple

from inputtools.capture import seconds
from inputtools.command import Wrong, counted
from inputtools.comparing import pairs_of
from inputtools.names import code_text, kind_text
from inputtools.program import PLAYED, find_player
from inputtools.readers import Reader
from inputtools.recording import Event
from inputtools.report import Report, Took
from inputtools.refusal_hints import refusal_text
from inputtools.writing import Record, text_of

NAME = "verify"

# An event that the reader took: its time, type, code and value.
Taken = Tuple[int, str, str, int]


def verifying(record: Record) -> str:
    """The same record with that reader alone."""
    other = copy.copy(record)
    other.readers, other.stream = [Reader(NAME)], None
    return text_of(other.lines())


def taken_by(text: str) -> List[Taken]:
    """What the reader took: (time, type, code, value)."""
    with tempfile.TemporaryDirectory() as folder:
        path = os.path.join(folder, "verify.rec")
        with open(path, "w", encoding="ascii", newline="") as file:
            file.write(text)
        status, written = find_player().play(path, folder)
    if status not in PLAYED:
        raise Wrong(f"the record is not played: {refusal_text(text, written, status, folder)}")
    return [(entry.time, *entry.event) for entry in Report(written).parts[NAME].all_of(Took)]


def as_report(event: Event, ahead: int) -> Taken:
    """An event as a reader takes it whose clock is so far ahead of the moments."""
    return event.time + ahead, kind_text(event.kind), code_text(event.kind, event.code), event.value


def verify(record: Record) -> Tuple[bool, str]:
    """Whether each event came as it was captured, and what is said of it.

    Each event that comes is among those of the record, in their order; those that the record has for a loss
    were not captured, and are not counted. Times are told from the first event on.
    """
    events = [(event, frame.was_captured) for frame in record.frames for event in frame.all_events()]
    came = taken_by(verifying(record))
    found = found_in_order([as_report(event, realtime_of(record)) for event, _ in events], came)
    captured = [(event, is_there) for (event, was_captured), is_there in zip(events, found) if was_captured]
    missed, count = [event for event, is_there in captured if not is_there], len(captured)
    said = f"{count - len(missed)} of {counted(count, 'event')} as captured"
    if missed:
        said += f"; the first that is not is {missed[0].text()} at {seconds(missed[0].time)}"
    more = len(came) - sum(found)
    if more:
        said += f"; {counted(more, 'event')} came that {'was' if more == 1 else 'were'} not captured"
    return not missed and not more, f"{record.name}: {said}"


def found_in_order(wanted: Sequence[Hashable], came: Sequence[Hashable]) -> List[bool]:
    """Of each event that is wanted, whether it came: as many as can be found in one order."""
    pairs, is_whole = pairs_of(wanted, came)
    found = {index for index, _ in pairs}
    if not is_whole:
        blocks = SequenceMatcher(None, wanted, came, autojunk=False).get_matching_blocks()
        found = {index for block in blocks for index in range(block.a, block.a + block.size)}
    return [index in found for index in range(len(wanted))]


def realtime_of(record: Record) -> int:
    """How far the reader's clock is ahead of the moments."""
    lines = [line.split() for line in record.device.other_lines]
    return next((int(words[2], 0) for words in lines if words[:2] == ["clock", "realtime"]), 0)
