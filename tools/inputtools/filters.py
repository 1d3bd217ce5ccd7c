"""Which events of a device's frames its filters ate, by the rules of docs/RULES.md, "Filters".

The device's own state is played without its filters, so its frames have all events that were passed. The
filters are given these frames here, but for those that ended while a client held the grab.
"""

from typing import Callable, Dict, List, Optional, Sequence, Tuple, Union

from inputtools.names import code_text, kind_text, number_of_code, number_of_kind
from inputtools.report import Event

REPEAT = 2


def event_words(kind_word: str, code_word: str) -> Tuple[str, str]:
    """A type and a code as a report writes them, whichever way a record's line has them."""
    kind = number_of_kind(kind_word) or 0
    return kind_text(kind), code_text(kind, number_of_code(kind, code_word) or 0)


class Hold:
    """The holds of one key: a hold is eaten or left whole, as is decided at its press."""

    is_eaten = False

    def eats(self, value: int, is_to_be: bool) -> bool:
        """Takes an event of the key. `is_to_be` says of a press whether its hold is eaten."""
        if value == REPEAT:
            return self.is_eaten
        is_eaten = is_to_be if value else self.is_eaten
        self.is_eaten = bool(value) and is_eaten
        return is_eaten


# Each filter has a text, and takes an event at a moment by `eats`, which says whether it is eaten.


class Eat:
    def __init__(self, kind: str, code: str) -> None:
        self.kind, self.code = event_words(kind, code)
        self.text = f"eat {self.code}"

    def eats(self, event: Event, now: int) -> bool:
        return (event.kind, event.code) == (self.kind, self.code)


class NoRepeat:
    text = "norepeat"

    def eats(self, event: Event, now: int) -> bool:
        return event.kind == "EV_KEY" and event.value == REPEAT


class Chord:
    def __init__(self, first: str, second: str) -> None:
        (_, self.first), (_, self.second) = event_words("EV_KEY", first), event_words("EV_KEY", second)
        self.text = f"chord {self.first} {self.second}"
        self.hold, self.is_first_down = Hold(), False

    def eats(self, event: Event, now: int) -> bool:
        if event.kind != "EV_KEY":
            return False
        if event.code == self.first and event.value != REPEAT:
            self.is_first_down = bool(event.value)
        return event.code == self.second and self.hold.eats(event.value, self.is_first_down)


class Bounce:
    def __init__(self, key: str, micros: str) -> None:
        _, self.key = event_words("EV_KEY", key)
        self.micros = int(micros, 16 if micros.startswith("0x") else 10)
        self.text = f"bounce {self.key} {self.micros}"
        self.hold = Hold()
        self.released: Optional[int] = None

    def eats(self, event: Event, now: int) -> bool:
        if (event.kind, event.code) != ("EV_KEY", self.key):
            return False
        is_soon = self.released is not None and self.released <= now < self.released + self.micros
        is_eaten = self.hold.eats(event.value, is_soon)
        if event.value == 0 and not is_eaten:
            self.released = now
        return is_eaten


Filter = Union[Eat, NoRepeat, Chord, Bounce]
FORMS: Dict[str, Callable[..., Filter]] = {"eat": Eat, "norepeat": NoRepeat, "chord": Chord, "bounce": Bounce}


def filters_of(lines: Sequence[str]) -> List[Filter]:
    """The filters of a device's lines of description, in order."""
    words = [line.split() for line in lines]
    return [FORMS[form](*rest) for first, form, *rest in (each for each in words if each[0] == "filter")]


def eater(filters: Sequence[Filter], event: Event, now: int) -> Optional[int]:
    """The number of the filter that eats an event, from 1, or None. Each is given what those before left."""
    if event.kind == "EV_SYN":
        return None
    eaters = (number for number, each in enumerate(filters, 1) if each.eats(event, now))
    return next(eaters, None)
