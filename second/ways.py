"""Ways of the kernel, libevdev, joydev and uinput that are not those of the rules: a switch each.

All are off where a record is played by the rules. docs/KERNEL.md has a row for each, which says what it does.
"""

from dataclasses import dataclass, fields, replace
from typing import Iterable, Tuple


@dataclass(frozen=True)
class Ways:
    # The kernel's core and evdev: second/kernel.py
    estimated_hint: bool = False
    any_number_of_clients: bool = False
    sums_of_32_bits: bool = False
    kept_time: bool = False
    stamped_time: bool = False
    coarse_timer: bool = False
    lifted_pressure: bool = False
    console: bool = False
    any_mask: bool = False
    any_axis: bool = False
    slots_alone: bool = False
    # libevdev: second/libevdev.py
    single_ids: bool = False
    long_reads: bool = False
    split_losses: bool = False
    forgotten_values: bool = False
    counted_buttons: bool = False
    stale_view: bool = False
    forced_reads: bool = False
    pressing_repeats: bool = False
    reserved_axis: bool = False
    # joydev: second/joydev.py
    joydev_ring: bool = False
    joydev_numbers: bool = False
    joydev_values: bool = False
    joydev_nodes: bool = False
    # uinput: second/kernel.py
    ring_of_16: bool = False
    toggled_outputs: bool = False
    refused_devices: bool = False

    def on(self) -> Tuple[str, ...]:
        """The names of those that are on."""
        return tuple(name for name in NAMES if getattr(self, name))

    def without(self, *names: str) -> "Ways":
        return replace(self, **{name: False for name in names})


NAMES = tuple(field.name for field in fields(Ways))
RULES = Ways()


def ways_of(names: Iterable[str]) -> Ways:
    return replace(RULES, **{name: True for name in names})


ALL = ways_of(NAMES)
