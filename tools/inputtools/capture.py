"""A capture made ready for a record: its frames, timed from the first event on, and what to say of it."""

from typing import List, Optional

from inputtools.command import Wrong, counted
from inputtools.description import GREATEST_HINT, GREATEST_SLOTS, estimate, hint_of
from inputtools.names import ABS, KEY, MSC, REP, SLOT, SYN, code_text, is_in_a_record, kernel_kind_text
from inputtools.recording import SYN_REPORT, Device, Event, Recording, frames_of

MSC_SCAN, REPEAT = 4, 2
LATEST = 9000000000000000


def seconds(micros: int) -> str:
    return f"{micros // 1000000}.{micros % 1000000:06d} s"


class Capture:
    """The frames of a recording, for a device, and notes on what the record cannot have of it."""

    def __init__(self, recording: Recording, device: Device, takes_hidden_keys: bool = False,
                 base: Optional[int] = None) -> None:
        self.notes: List[str] = []
        self.refuse_hidden_keys(recording, takes_hidden_keys)
        self.note_empty_frames(recording.events)
        events = self.without_what_a_record_lacks(self.from_the_first_on(recording.events, base))
        self.find_slots(device, events)
        if takes_hidden_keys and recording.hides_keys:
            device.add(KEY, {event.code for event in events if event.kind == KEY})
        refuse_other_device(device, events)
        self.frames, unfinished, lost_at_end = frames_of(events)
        if not self.frames:
            raise Wrong("it has no whole frame: no SYN_REPORT stands behind an event")
        self.find_reports(device)
        self.note_losses(lost_at_end)
        if unfinished or recording.ends_in_a_line:
            last = "its last event is" if unfinished == 1 else f"its last {unfinished} events are"
            self.notes.append(f"the capture ends within a frame; {last} left out")

    def refuse_hidden_keys(self, recording: Recording, takes_hidden_keys: bool) -> None:
        if recording.hides_keys and not takes_hidden_keys:
            raise Wrong("libinput record hid most keys as KEY_A: record with --show-keycodes, or take them "
                        "with --hidden-keys")
        if recording.hides_keys:
            self.notes.append("libinput record hid most keys as KEY_A, and their scan codes as 30")
        elif recording.hides_scan_codes:
            self.notes.append("libinput record hid the scan codes: each MSC_SCAN is 30")

    def from_the_first_on(self, events: List[Event], base: Optional[int] = None) -> List[Event]:
        """The events with times from `base` on, or from their own least one."""
        least = min(event.time for event in events)
        base = least if base is None else base
        if least != events[0].time:
            back = seconds(events[0].time - least)
            self.notes.append(f"times go back by {back} behind the first event; they are told from the least")
        if max(event.time for event in events) - base > LATEST:
            raise Wrong(f"it lasts longer than a record can: {LATEST} us: is a time in it wrong?")
        return [Event(time - base, kind, code, value) for time, kind, code, value in events]

    def without_what_a_record_lacks(self, events: List[Event]) -> List[Event]:
        kept = [event for event in events if is_in_a_record(event.kind, event.code)]
        if len(kept) < len(events):
            lacking = sorted({event[1:3] for event in events} - {event[1:3] for event in kept})
            names = [f"{kernel_kind_text(kind)} {code_text(kind, code)}" for kind, code in lacking[:4]]
            names += [".."] if len(lacking) > 4 else []
            count = len(events) - len(kept)
            are = "1 event is" if count == 1 else f"{count} events are"
            self.notes.append(f"{are} left out, since a record has no {', '.join(names)}")
        return kept

    def note_empty_frames(self, events: List[Event]) -> None:
        """(the report that stands behind a SYN_DROPPED belongs to it)"""
        reports = [(event.kind, event.code) == (SYN, SYN_REPORT) for event in events]
        empty = sum(map(lambda one, other: one and other, [True, *reports], reports))
        if empty:
            are = "1 report is" if empty == 1 else f"{empty} reports are"
            self.notes.append(f"{are} left out, before which no event stands in its frame")

    def find_slots(self, device: Device, events: List[Event]) -> None:
        """A capture that names slots is of a device with two or more: where none are told, the named ones."""
        named = [event.value for event in events if (event.kind, event.code) == (ABS, SLOT)]
        if not named or SLOT not in device.axes:
            return
        if max(named) >= GREATEST_SLOTS:
            raise Wrong(f"an event is in slot {max(named)}, and a record has at most {GREATEST_SLOTS} slots: "
                        "is it a raw capture of another size (--16)?")
        if not device.has_ranges:
            device.slots = max(max(named) + 1, 2)
        elif not device.slot_count() and device.slots is None:
            device.slots = device.axes[SLOT].maximum + 1
        if not 0 <= min(named) <= max(named) < device.slot_count():
            raise Wrong(f"its slots are {min(named)} to {max(named)}, and the description has "
                        f"{counted(device.slot_count(), 'slot')}: is it another device's?")

    def find_reports(self, device: Device) -> None:
        """Gives each SYN_REPORT whose value the form does not tell the one that it must have had.

        The kernel writes 1 where it repeats a key itself, and where it cuts a frame since as many events as
        it reckons with are there. It repeats keys of a device with EV_REP alone, and a repeat after its
        scan code is the keyboard's own.
        """
        longest = max(len(frame.events) for frame in self.frames)
        hint = min(hint_of(device), estimate(device))
        cut = (hint, hint + 1) if longest in (hint, hint + 1) else ()
        for frame in self.frames:
            if frame.report is None:
                is_repeat = REP in device.codes and is_repeat_of_the_kernel(frame.events)
                frame.report = int(is_repeat or len(frame.events) in cut)

    def needed_hint(self) -> int:
        """More events than the longest frame has that was not cut: a frame as long as the hint is cut."""
        longest = max((len(frame.events) for frame in self.frames if frame.report == 0), default=0)
        if longest >= GREATEST_HINT:
            raise Wrong(f"a frame has {longest} events, and a record's frames at most {GREATEST_HINT - 1}: "
                        "are reports (SYN_REPORT) missing in it?")
        return longest + 1

    def note_losses(self, lost_at_end: Optional[int]) -> None:
        times = [frame.lost for frame in self.frames if frame.lost is not None]
        times += [lost_at_end] if lost_at_end is not None else []
        if times:
            more = f" and at {counted(len(times) - 1, 'place')} more" if len(times) > 1 else ""
            self.notes.append(f"the capture lost events at {seconds(times[0])}{more} (SYN_DROPPED); what "
                              f"they changed, as far as the events behind them tell, is set there")


def is_repeat_of_the_kernel(events: List[Event]) -> bool:
    index = next((i for i, event in enumerate(events) if event.kind == KEY and event.value == REPEAT), None)
    if index is None:
        return False
    before = events[index - 1] if index else None
    return before is None or (before.kind, before.code) != (MSC, MSC_SCAN)


def refuse_other_device(device: Device, events: List[Event]) -> None:
    own = [event for event in events if event.kind != SYN]
    others = [event for event in own if not device.has(event.kind, event.code)]
    if others:
        first, asks = others[0], "is it another device's?"
        if len(others) < len(own):
            asks = f"{len(others)} of {len(own)} events are of such: are two devices in one capture?"
        raise Wrong(f"an event of it, {first.text()} at {seconds(first.time)}, is of a code "
                    f"that the description lacks: {asks}")
