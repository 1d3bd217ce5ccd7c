"""What a history says of a device's clients: when each was opened, closed and revoked, its grabs, masks and
clocks."""

import bisect
from collections import defaultdict
from typing import DefaultDict, Dict, List, NamedTuple, Optional, Tuple

from inputtools.names import TYPES, number_of_code
from inputtools.report import Step

ALL_BITS = 2**64 - 1
STEPS = frozenset(("grab", "ungrab", "close", "revoke", "mask", "clock"))


class Grab(NamedTuple):
    """A grab: its client, the place from which it held, and the place where it ended, or None."""

    client: int
    begin: int
    end: Optional[int] = None


class Mask(NamedTuple):
    """A step that sets a word of a mask: its place, the type, the word's number, and its bits."""

    place: int
    kind: str
    word: int
    bits: int


class MaskSpan(NamedTuple):
    """From which place to which a mask leaves anything of a type out; None where that did not end."""

    kind: str
    begin: int
    end: Optional[int] = None


class Handles:
    """The clients of a device, by their numbers."""

    def __init__(self, history: List[Step]) -> None:
        self.closes: Dict[int, int] = {}
        self.revokes: Dict[int, int] = {}
        self.grabs: List[Grab] = []
        self.grab_begins: List[int] = []
        self.masks: DefaultDict[int, List[Mask]] = defaultdict(list)
        self.clocks: Dict[int, str] = {}
        self.clock_changes: DefaultDict[int, List[int]] = defaultdict(list)
        for place, step in enumerate(history):
            if step.name in STEPS:
                self.add(place, step)

    def add(self, place: int, step: Step) -> None:
        client = step.client
        if step.name == "grab":
            self.grabs.append(Grab(client, place))
            self.grab_begins.append(place)
        elif step.name == "mask":
            word, bits = step.rest.split(" ")[2:]
            self.masks[client].append(Mask(place, step.code, int(word), int(bits, 16)))
        elif step.name == "clock":
            # (a client starts on the realtime clock)
            if self.clocks.get(client, "realtime") != step.code:
                self.clocks[client] = step.code
                self.clock_changes[client].append(place)
        else:
            ends: Dict[int, int] = {"close": self.closes, "revoke": self.revokes}.get(step.name, {})
            ends.setdefault(client, place)
            if self.grabs and self.grabs[-1].client == client and self.grabs[-1].end is None:
                self.grabs[-1] = self.grabs[-1]._replace(end=place)

    def grab_at(self, place: int) -> Optional[Grab]:
        """The grab that was held when the step at a place was made, or None. One holds at a time."""
        index = bisect.bisect_left(self.grab_begins, place) - 1
        grab = self.grabs[index] if index >= 0 else None
        return None if grab is None or (grab.end is not None and place >= grab.end) else grab

    def grab_of_another(self, client: int, place: int) -> Optional[Grab]:
        """The grab that another client held when the step at a place was made, or None."""
        grab = self.grab_at(place)
        return grab if grab is not None and grab.client != client else None

    def mask_at(self, client: int, place: int, kind: str, code: str) -> Optional[MaskSpan]:
        """The client's mask that leaves an event out at a place, or None."""
        number = TYPES[kind]
        for mask, bit in (("EV_SYN", number), (kind, number_of_code(number, code) or 0)):
            steps = [step for step in self.masks[client] if (step.kind, step.word) == (mask, bit // 64)]
            for span in masked_spans(steps, 1 << bit % 64):
                if span.begin < place and (span.end is None or place < span.end):
                    return span
        return None

    def spans_of_masks(self, client: int) -> List[MaskSpan]:
        """The client's masks that leave anything out."""
        words: DefaultDict[Tuple[str, int], List[Mask]] = defaultdict(list)
        for mask in self.masks[client]:
            words[mask.kind, mask.word].append(mask)
        return [span for steps in words.values() for span in masked_spans(steps, ALL_BITS)]


def masked_spans(steps: List[Mask], bits: int) -> List[MaskSpan]:
    """Where any of some bits of a word of a mask was cleared. The mask of EV_SYN is that of the types."""
    spans: List[MaskSpan] = []
    for step in steps:
        is_set, is_open = step.bits & bits == bits, bool(spans) and spans[-1].end is None
        if is_set and is_open:
            spans[-1] = spans[-1]._replace(end=step.place)
        elif not is_set and not is_open:
            spans.append(MaskSpan("types" if step.kind == "EV_SYN" else step.kind, step.place))
    return spans
