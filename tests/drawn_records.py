"""Records of keyboards that the tests of tools/draw share."""

from typing import Iterable, List, Optional

# 39 keys, as a keyboard has them.
KEYS = "ESC 1 2 3 4 5 6 7 8 9 0 Q W E R T Y U I O P A S D F G H J K L Z X C V B N M SPACE ENTER".split()
# More keys than a picture has rows for.
MORE_KEYS = [*KEYS, *(f"F{number}" for number in range(1, 25)), *"TAB UP DOWN LEFT RIGHT HOME END".split()]


def stroke(key: str, value: int, time: int) -> List[str]:
    """A key goes up or down, and the desktop reads it."""
    events = (f"EV_KEY KEY_{key} {value}", "EV_SYN SYN_REPORT 0")
    return [*(f"do usb event {time} {event}" for event in events), "do desktop follow"]


def typed(keys: Iterable[str], held: Optional[str] = None) -> str:
    """A record in which each key is used once, 50 ms of each 80, and one of them is held to the end."""
    used = list(keys)
    lines = ["inputrecord 1", "device keyboard", *(f"cap EV_KEY KEY_{key}" for key in used)]
    lines += ["source usb", "client desktop", "do desktop open"]
    for time, key in enumerate(used, 1):
        lines += stroke(key, 1, 80000 * time)
        lines += [] if key == held else stroke(key, 0, 80000 * time + 50000)
    return "\n".join(lines) + "\n"
