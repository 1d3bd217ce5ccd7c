"""Keys renamed one to one, so that a record does not tell what was typed.

The k-th key that the capture tells of becomes the k-th key of the device. So holds, repeats and chords stay as
they were. Modifiers and locks stay, and so do buttons; scan codes are left out, which would tell the keys.
"""

from typing import Dict

from inputtools.capture import Capture
from inputtools.command import Wrong, counted
from inputtools.names import KEY, MSC
from inputtools.recording import Device, Event, Frame

# MSC_RAW and MSC_SCAN, each of which tells a scan code.
SCAN_CODES = (3, 4)

# Control, shift, alt and meta of both sides, and the three locks.
KEPT = {29, 42, 54, 56, 58, 69, 70, 97, 100, 125, 126}
FIRST_BUTTON = 0x100


def is_renamed(code: int) -> bool:
    return 0 < code < FIRST_BUTTON and code not in KEPT


def names_of(device: Device, capture: Capture) -> Dict[int, int]:
    """What each renamed key becomes."""
    told = sorted(code for code in device.on[KEY] if is_renamed(code))
    told += [event.code for frame in capture.frames for event in frame.events if event.kind == KEY]
    told = [code for code in dict.fromkeys(told) if is_renamed(code)]
    return dict(zip(told, sorted(code for code in device.codes.get(KEY, ()) if is_renamed(code))))


def hide_keys(device: Device, capture: Capture) -> None:
    """Renames the keys of a capture, and of what was down when its device was described."""
    names, dropped, frames, lost = names_of(device, capture), 0, [], None
    for frame in capture.frames:
        events = [renamed(event, names) for event in frame.events if not is_scan_code(event)]
        dropped += len(frame.events) - len(events)
        # (a loss before a frame that has scan codes alone stands before the next one)
        lost = frame.lost if lost is None else lost
        if events:
            frames.append(Frame(frame.time, events, frame.report, lost))
            lost = None
    if not frames:
        raise Wrong("it has scan codes alone")
    capture.frames = frames
    device.on[KEY] = {names.get(code, code) for code in device.on[KEY]}
    capture.notes.append(f"{counted(len(names), 'key')} renamed one to one, modifiers kept; "
                         f"{counted(dropped, 'scan code')} left out")


def is_scan_code(event: Event) -> bool:
    return event.kind == MSC and event.code in SCAN_CODES


def renamed(event: Event, names: Dict[int, int]) -> Event:
    if event.kind != KEY:
        return event
    return event._replace(code=names.get(event.code, event.code))
