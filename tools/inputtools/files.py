"""Reads a description or a capture, in whichever of the known forms it is, and chooses one of its devices."""

import re
from typing import Callable, List, Optional, Tuple, TypeVar

from inputtools import evemu, evtest, kinds, libinput, procfs, raw, record, source, udevadm
from inputtools.command import Wrong
from inputtools.progress import progress
from inputtools.recording import Recording, index_of

# The first that recognises a text reads it.
FORMS: List[Tuple[Callable[[str], object], Callable[[str], List[Recording]]]] = [
    (evemu.KNOWN_BY.search, evemu.parse),
    (libinput.KNOWN_BY.search, libinput.parse),
    (procfs.KNOWN_BY.search, procfs.parse),
    (udevadm.KNOWN_BY.search, udevadm.parse),
    (record.is_record, record.parse),
    (evtest.KNOWN_BY.search, evtest.parse),
]
KNOWN = ("evtest's output, an evemu file, a recording of libinput, /proc/bus/input/devices, udevadm info, "
         "a record's lines")
GREATEST_SIZE = 1 << 28

Read = TypeVar("Read")


def read_bytes(path: str) -> bytes:
    data = source.read_bytes(path, GREATEST_SIZE + 1)
    if len(data) > GREATEST_SIZE:
        helps = "take a part of it, as by head -c or head -n"
        raise Wrong(f"{source.shown(path)}: more than {GREATEST_SIZE} bytes: {helps}")
    return data


def recordings_of(data: bytes, raw_size: Optional[int] = None) -> List[Recording]:
    if not data:
        raise Wrong("the file is empty")
    refuse_other_kinds(data)
    if raw_size or raw.is_raw(data):
        return raw.parse(data, raw_size)
    text = data.decode("utf-8-sig", "replace").replace("\r\n", "\n").replace("\r", "\n")
    text = re.sub(r"^\^C", "", text, flags=re.MULTILINE)  # what a terminal shows where a tool is stopped
    for recognises, parse in FORMS:
        if recognises(text):
            recordings = parse(text)
            if not recordings:
                raise Wrong("it has no device and no event")
            return recordings
    raise Wrong(f"not in a form that is known here ({KNOWN}, a raw capture)")


def refuse_other_kinds(data: bytes) -> None:
    """Refuses what neither describes a device nor is a capture: a packed file, a picture, a page."""
    start = data[:512].lstrip(b"\xef\xbb\xbf \t\r\n").lower()
    for magic, said in kinds.MAGICS:
        if start.startswith(magic.lower()):
            raise Wrong(said.replace(", and no record", ", and no capture"))
    said_of_text = kinds.said_of_text(data)
    if said_of_text:
        raise Wrong(said_of_text)


def read(path: str, chosen: Optional[str] = None, raw_size: Optional[int] = None) -> Recording:
    """The recording of a file, the chosen one where it has several."""
    progress.tell(f"{source.shown(path)} is read")
    return told_of(path, lambda: choose(recordings_of(read_bytes(path), raw_size), chosen))


def read_all(path: str) -> List[Recording]:
    """All recordings of a file."""
    progress.tell(f"{source.shown(path)} is read")
    return told_of(path, lambda: recordings_of(read_bytes(path)))


def told_of(path: str, reads: Callable[[], Read]) -> Read:
    """What is read of a file. What is wrong with it is told with its name."""
    try:
        return reads()
    except Wrong as wrong:
        text = str(wrong)
        name = source.shown(path)
        raise Wrong(text if text.startswith((f"{name}: ", source.NAME)) else f"{name}: {text}") from None


def choose(recordings: List[Recording], chosen: Optional[str]) -> Recording:
    """The one recording, or that whose number, from 1, or whose name is chosen."""
    if len(recordings) == 1:
        return recordings[0]
    names = [recording.device.name if recording.device else "" for recording in recordings]
    return recordings[index_of(names, chosen, '"')]
