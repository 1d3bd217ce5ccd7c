"""Writes a whole record: a device and its driver, what was on at the start, readers, and the capture."""

import copy
import struct
from dataclasses import dataclass
from datetime import timedelta
from typing import Iterable, Iterator, List, NamedTuple, Optional, Set

from inputtools.capture import Capture, seconds
from inputtools.command import Wrong, counted
from inputtools.description import comments, description_lines, hint_of, slots_of, version_of
from inputtools.evtest import WHY_GRABBED
from inputtools.identity import REALTIME, moment_of
from inputtools.likely_slot import Guess, guess_of
from inputtools.names import ABS, SYN, TRACKING_ID
from inputtools.progress import progress
from inputtools.readers import DRIVER, Acts, Reader
from inputtools.recording import Device, Event, Frame, Recording
from inputtools.renamed import hide_keys
from inputtools.initial_state import State, events_between, state_before, state_described

GREATEST_TEXT = 16 * 1024 * 1024
DEFAULT_LOG, GREATEST_LOG = 1048576, 8388608
LOSS_COMMENT = "# Events were lost here. This frame was not captured; it has what they must have changed."
SHORTER = "take a part with --from and --to"
STREAM_RECORD = struct.Struct("<QQHHi")


@dataclass
class Written:
    """A frame as the record has it. One that stands for a loss was not captured. A guess is told before."""

    time: int
    events: List[Event]
    report: int
    was_captured: bool = True
    guess: Optional[Guess] = None

    def comments(self) -> List[str]:
        lines = [] if self.was_captured else [LOSS_COMMENT]
        return lines + ([f"# {self.guess.text()}."] if self.guess else [])

    def all_events(self) -> List[Event]:
        return self.events + [Event(self.time, SYN, 0, self.report)]


class Options(NamedTuple):
    """What is asked for of a record."""

    window: "Window"
    stream: Optional[str] = None
    hidden_keys: bool = False
    hide_keys: bool = False


class Window:
    """Which part of a capture is taken: the frames from a time to another, both among them, in microseconds
    from its first event on. None is no bound."""

    def __init__(self, begin: Optional[int] = None, end: Optional[int] = None) -> None:
        self.begin, self.end = begin or 0, end

    def has(self, time: int) -> bool:
        return self.begin <= time and (self.end is None or time <= self.end)

    def refuse_none(self, frames: List[Written], capture: Capture) -> None:
        """Refuses to go on where no frame of the capture is in this part."""
        if not frames:
            last = seconds(capture.frames[-1].time)
            end = "its end" if self.end is None else seconds(self.end)
            raise Wrong(f"no frame is between {seconds(self.begin)} and {end}; the last one is at {last}")


class Record:
    """A record of a device and of a capture of it, or of a part of that."""

    def __init__(self, device: Device, name: str, capture: Capture, readers: List[Reader],
                 stream: Optional[str] = None, window: Optional[Window] = None, driver: str = DRIVER) -> None:
        self.device, self.name, self.readers, self.stream = copy.deepcopy(device), name, readers, stream
        self.window, self.driver = window or Window(), driver
        self.notes = list(capture.notes)
        self.guess: Optional[Guess] = None
        self.raise_hint(capture)
        self.find_start(capture)
        self.raise_log()
        self.note_small_rings()

    def raise_hint(self, capture: Capture) -> None:
        needed, reckoned = capture.needed_hint(), hint_of(self.device)
        self.hint_comment = []
        if needed > reckoned:
            self.hint_comment = [f"# hint {reckoned} is less than the {needed - 1} events of a frame need"]
            self.device.hint = needed

    def find_start(self, capture: Capture) -> None:
        """The state before the first frame that is taken, and the frames, with one more at each loss."""
        slots, ids = slots_of(self.device), ids_of(capture.frames)
        known = state_described(self.device, slots)
        parts = parts_between_losses(capture.frames)
        state = state_before(known, parts[0], ids)
        self.frames: List[Written] = []
        self.before = state.copy()
        unpassed: List[Event] = []
        for part in parts:
            if part is not parts[0]:
                state = self.add_what_was_lost(state, part, ids)
            for frame in part:
                left_out = [event for event in frame.events if not state.take(event)]
                self.add(Written(frame.time, frame.events, frame.report or 0), state)
                unpassed += left_out if self.window.has(frame.time) else []
        self.window.refuse_none(self.frames, capture)
        self.set_start(slots)
        self.note_unpassed(unpassed)
        self.notes += self.guess_notes()

    def add(self, frame: Written, state: State) -> None:
        """Takes a frame, or the state after one that comes before the part that is taken."""
        if self.window.has(frame.time):
            self.frames.append(frame)
            frame.guess, self.guess = self.guess, None
        elif not self.frames:
            self.before = state.copy()

    def set_start(self, slots: int) -> None:
        """The events that lead from a fresh device to the state before the first frame."""
        fresh = State(slots, self.device.axes)
        fresh.values = dict(self.before.values)
        for code, axis in self.device.axes.items():
            axis.value = self.before.values.get(code, axis.value)
        self.start = events_between(fresh, self.before)

    def add_what_was_lost(self, state: State, part: List[Frame], ids: Set[int]) -> State:
        guess, known, time = guess_of(state, part), state.copy(), part[0].lost or 0
        if guess:
            known.slot = guess.slot
            self.guess = None if guess.is_certain else guess
        after = state_before(known, part, ids)
        events = [Event(time, *event) for event in events_between(state, after)]
        if events:
            self.add(Written(time, events, 0, was_captured=False), after)
        return after

    def guesses(self) -> List[Guess]:
        """The slots that are guessed, each before the frame from which on it counts."""
        return [frame.guess for frame in self.frames if frame.guess]

    def guess_notes(self) -> List[str]:
        """What is said of the slots that are guessed."""
        said = [f"behind the loss at {seconds(guess.lost)} {guess.text()}" for guess in self.guesses()]
        more = f"; and so at {counted(len(said) - 1, 'place')} more" if said[1:] else ""
        return [said[0] + more] if said else []

    def note_unpassed(self, unpassed: List[Event]) -> None:
        if unpassed:
            first = f"{unpassed[0].text()} at {seconds(unpassed[0].time)}"
            why = "the capture lost events before it, or hides keys"
            if len(unpassed) == 1:
                self.notes.append(f"1 event changes nothing and is not passed, {first}: {why}")
            else:
                self.notes.append(f"{len(unpassed)} events change nothing and are not passed, the first being "
                                  f"{first}: {why}")

    def note_small_rings(self) -> None:
        places = 64
        while places < 8 * hint_of(self.device):
            places *= 2
        count = sum(len(frame.all_events()) for frame in self.frames)
        if self.stream and count >= places:
            self.notes.append(f"the stream has {count} events, and a ring holds {places - 1}: some are lost")

    def raise_log(self) -> None:
        """A history has more steps than the default limit only where very many readers follow."""
        events = sum(len(frame.all_events()) for frame in self.frames)
        steps = len(self.start) + events + len(self.readers) * (len(self.frames) + events // 64 + 100)
        is_given = any(line.startswith("log ") for line in self.device.other_lines)
        if steps > DEFAULT_LOG and not is_given:
            self.device.other_lines.append(f"log {GREATEST_LOG}")

    def lines(self) -> Iterator[str]:
        yield f"inputrecord {self.version()}"
        yield from self.device_lines()
        acts = Acts(self.readers)
        yield from self.start_lines()
        yield from acts.opening_lines()
        yield "# The capture."
        yield from self.stream_lines() if self.stream else self.frame_lines(acts)
        yield from acts.lines_before()
        for reader in self.readers:
            yield from reader.lines_at_the_end()

    def version(self) -> int:
        return 2 if any(reader.is_joy for reader in self.readers) else version_of(self.device)

    def device_lines(self) -> Iterator[str]:
        """The description and the actors."""
        yield from comments(self.device) + self.hint_comment
        yield from description_lines(self.device, self.name)
        yield f"source {self.driver}"
        yield from (f"{reader.role()} {reader.name}" for reader in self.readers)

    def start_lines(self) -> Iterator[str]:
        if self.start:
            yield "# What was on, down or there when the capture began."
            begin = self.window.begin
            yield from self.event_lines([Event(begin, *event) for event in self.start + [(SYN, 0, 0)]])

    def frame_lines(self, acts: Acts) -> Iterator[str]:
        for frame in self.frames:
            yield from acts.lines_before(frame.time)
            yield from self.lines_of_frame(frame)

    def lines_of_frame(self, frame: Written) -> Iterator[str]:
        """A frame, and what the readers do after it."""
        yield from frame.comments()
        yield from self.event_lines(frame.all_events())
        for reader in self.readers:
            yield from reader.lines_behind_a_frame()

    def stream_lines(self) -> Iterator[str]:
        yield from (f"# {guess.text()}." for guess in self.guesses())
        yield f"do {self.driver} stream {self.stream}"
        for reader in self.readers:
            reader.unread = 1

    def event_lines(self, events: Iterable[Event]) -> List[str]:
        return [f"do {self.driver} event {event.time} {event.text()}" for event in events]

    def text(self) -> str:
        return text_of(self.lines())

    def stream_bytes(self) -> bytes:
        events = [event for frame in self.frames for event in frame.all_events()]
        if len(events) * STREAM_RECORD.size > GREATEST_TEXT:
            raise Wrong(f"the stream would have more than {GREATEST_TEXT} bytes: {SHORTER}")
        return b"".join(STREAM_RECORD.pack(*divmod(event.time, 1000000), *event[1:]) for event in events)


def text_of(lines: Iterable[str]) -> str:
    """The text of a record's lines."""
    parts, size = [], 0
    for line in lines:
        line = line.encode("ascii", "backslashreplace").decode() + "\n"
        size += len(line)
        if size > GREATEST_TEXT:
            raise Wrong(f"the record would have more than {GREATEST_TEXT} bytes: {SHORTER}, fewer readers, "
                        "or have the events written to a file by --stream")
        parts.append(line)
    return "".join(parts)


def ids_of(frames: List[Frame]) -> Set[int]:
    events = (event for frame in frames for event in frame.events)
    return {event.value for event in events if (event.kind, event.code) == (ABS, TRACKING_ID)}


def parts_between_losses(frames: List[Frame]) -> List[List[Frame]]:
    """The frames, parted before each that stands after a loss."""
    parts: List[List[Frame]] = [[]]
    for frame in frames:
        if frame.lost is not None and parts[-1]:
            parts.append([])
        parts[-1].append(frame)
    return parts


def record_of(recording: Recording, name: str, readers: List[Reader], options: Options,
              base: Optional[int] = None, driver: str = DRIVER) -> Record:
    """The record of a recording's device and its events. `options` are what was asked for of it."""
    progress.tell(f"the record of {name} is made, of {len(recording.events)} events")
    assert recording.device is not None
    device = copy.deepcopy(recording.device)
    least = min(event.time for event in recording.events) if base is None else base
    began = device.identity.began
    device.identity.began = moment_of([least])
    if began and least < REALTIME.start:
        device.identity.began = began + timedelta(microseconds=least)
    capture = Capture(recording, device, options.hidden_keys, base)
    if options.hide_keys:
        hide_keys(device, capture)
    record = Record(device, name, capture, readers, options.stream, options.window, driver)
    record.notes += [WHY_GRABBED] if recording.was_grabbed else []
    return record
