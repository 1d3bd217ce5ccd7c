"""The count that `tools/stuck --summary` writes first: the divergences by their causes and keys; and who ends
apart from its device, in what, since when and why."""

from collections import Counter
from typing import Iterable, List, Sequence, Tuple

from inputtools.command import counted
from inputtools.endings import endings_of, readers_of
from inputtools.played import PlayedDevice, Reader

CAUSES = {
    "grab": "a grab of another",
    "filter": "a filter of the device",
    "mask": "its own mask",
    "loss": "a loss (SYN_DROPPED)",
    "discard": "its own discard",
    "not-read": "not read yet",
    "closed": "it closed the device",
    "revoked": "it was revoked",
    "never-opened": "it had not opened the device",
    "opened-later": "it opened the device later, and did not ask",
    "opened-anew": "it opened the device anew, and left its events unread",
    "not-asked": "it did not ask at its start",
    "asked-later": "it asked behind the frame of the report",
    "slot": "the slot that it takes for the current one",
    "described": "an axis that was described anew",
    "open-frame": "a frame that has not ended",
    "startup": "a startup that was not read to its end",
    "start-refused": "a start that was refused",
    "owner-lost": "lost before the owner asked",
    "owner-waits": "the owner has not asked since",
    "cut": "the play was cut",
    "unknown": "nothing that is known here",
}


def ends_apart(devices: Sequence[PlayedDevice]) -> List[Reader]:
    """The readers that end apart from their device."""
    return [reader for reader in readers_of(devices) if reader.at_end]


def most_first(names: Iterable[str]) -> List[Tuple[str, int]]:
    """How often each name comes, the most frequent first."""
    return Counter(sorted(names)).most_common()


def summary_lines(devices: Sequence[PlayedDevice]) -> List[str]:
    """The lines of the count."""
    readers = readers_of(devices)
    divergences = [divergence for reader in readers for divergence in reader.divergences]
    apart = f"{len(ends_apart(devices))} of {counted(len(readers), 'reader')}"
    lines = [f"summary: {apart} apart from the device at the end"]
    for kind, count in most_first(each.cause.kind for each in divergences):
        things = most_first(each.thing.text() for each in divergences if each.cause.kind == kind)
        told = ", ".join(f"{name} {often}" for name, often in things)
        lines.append(f"  {CAUSES[kind]}: {counted(count, 'parting')}: {told}")
    return lines + [f"  {ending.text}" for ending in endings_of(devices)]
