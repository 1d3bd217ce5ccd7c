"""What can be asked of a device without a step (docs/LIBRARY.md, "Looking at a device"). What is asked in vain is
None."""

from typing import Iterable, List, Optional, Tuple

from second.device import FIRST, MASK_WORDS, SLOT, Device, is_slot_value
from second.names import ABS, SYN

ABS_MAX = 0x3F
CODES = 768

# A client's clock by its number, whether it was revoked, and whether it holds the grab.
Standing = Tuple[int, bool, bool]
# Delay and period in milliseconds, whether the timer is armed, its key, and the moment at which it is due.
Repeat = Tuple[int, int, bool, int, int]

CLOCKS = {"realtime": 0, "monotonic": 1, "boottime": 7}


def number_of(bits: Iterable[int]) -> int:
    """The number whose set bits are these."""
    return sum(1 << bit for bit in set(bits))


def visible(device: Device, client: int) -> Optional[int]:
    """How many events a client could read now, if it is open."""
    found = device.clients.get(client)
    return None if found is None else found.visible()


def readable(device: Device) -> List[int]:
    """The open clients that could read something now."""
    return sorted(number for number, client in device.clients.items() if client.visible())


def standing(device: Device, client: int) -> Optional[Standing]:
    """How an open client stands."""
    found = device.clients.get(client)
    return None if found is None else (CLOCKS[found.clock], found.revoked, device.holder == client)


def mask(device: Device, client: int, kind: int, word: int) -> Optional[int]:
    """A word of a mask of an open client, if there is such a word."""
    found = device.clients.get(client)
    if found is None or word >= MASK_WORDS.get(kind, 0):
        return None
    return number_of(bit for bit in range(64) if (kind, 64 * word + bit) not in found.clear_bits)


def supported(device: Device, kind: int) -> int:
    """The codes of a type that the device supports, as bits; of EV_SYN its types."""
    if kind == SYN:
        return number_of(device.caps.kinds)
    caps = device.caps
    named = {0, 1, *caps.axes, *caps.codes.get(kind, ())}
    return number_of(code for code in named if caps.supports(kind, code))


def on(device: Device, kind: int) -> Optional[int]:
    """The keys, switches, LEDs or sounds that are on, as bits."""
    return number_of(device.on[kind]) if kind in device.on else None


def axis(device: Device, code: int) -> Optional[Tuple[int, ...]]:
    """An axis: its value, and what is said of it; zeros where the device does not have it."""
    if code > ABS_MAX:
        return None
    if not device.caps.supports(ABS, code):
        return (0,) * 6
    value = device.announced if code == SLOT else 0 if is_slot_value(code) else device.axes[code]
    return (value, *device.infos[code][1:])


def slot_value(device: Device, slot: int, code: int) -> Optional[int]:
    """The value of a slot on an axis of slots."""
    if slot >= device.caps.slots or not is_slot_value(code):
        return None
    return int(device.cells[slot][code - FIRST])


def limits(device: Device) -> Tuple[int, ...]:
    """Slots, hint, log, the places of a ring, and how far the realtime and the boottime clock are ahead."""
    caps = device.caps
    return caps.slots, caps.hint, caps.log, caps.ring(), caps.offsets["realtime"], caps.offsets["boottime"]


def repeat(device: Device) -> Repeat:
    """The autorepeat: its settings, and its timer."""
    delay, period = device.repeat
    return delay, period, device.due is not None, device.repeat_key, device.due or 0
