"""Who a device is: its name, where it is plugged in, its serial number, its ids and its properties; and when
the capture of it began.

A record keeps this in comments right behind the line of the device, each on a line of its own:

    # name: Logitech USB Keyboard
    # phys: usb-0000:00:14.0-3/input0
    # uniq: 00:1f:20:5b:33:c9
    # id: 0003 046d c31c 0110
    # properties: INPUT_PROP_POINTER INPUT_PROP_BUTTONPAD
    # began: 2025-11-27T15:04:07.366340+01:00

The four words of `id` are the bus, the vendor, the product and the version, in hexadecimal. `began` is
what the clock showed at the moment 0, with its zone. What a device does not tell has no line.
"""

import re
from dataclasses import dataclass, field
from datetime import datetime, timedelta, timezone
from typing import Dict, Iterable, List, NamedTuple, Optional

from inputtools.names import PROPERTIES

FORM = re.compile(r"[ \t]*#[ \t]*(name|phys|uniq|id|properties|began):[ \t]*([^\r\n]*)")
DEVICE = re.compile(r"[ \t]*u?device[ \t]")
FOUR_NUMBERS = re.compile(r"[0-9a-fA-F]{1,4}(?:[ \t]+[0-9a-fA-F]{1,4}){3}[ \t]*")
PREFIX = "INPUT_PROP_"
EPOCH = datetime(1970, 1, 1, tzinfo=timezone.utc)
# Times since 1970 are in here, in microseconds, and those since a machine was started are not.
REALTIME = range(10**15, 7 * 10**15)
# (a record's moments go on for 285 years)
YEARS = range(1970, 9000)


class Ids(NamedTuple):
    """The numbers by which a device is known."""

    bus: int
    vendor: int
    product: int
    version: int


@dataclass
class Identity:
    """Who a device is. What is not known of it is empty, or None."""

    name: str = ""
    phys: str = ""
    uniq: str = ""
    ids: Optional[Ids] = None
    properties: List[int] = field(default_factory=list)
    began: Optional[datetime] = None

    def lines(self) -> List[str]:
        """The comments that stand behind the device's line."""
        texts: Dict[str, str] = {"name": self.name, "phys": self.phys, "uniq": self.uniq}
        if self.ids:
            texts["id"] = " ".join(f"{number:04x}" for number in self.ids)
        texts["properties"] = " ".join(property_names(self.properties))
        texts["began"] = self.began.isoformat(timespec="microseconds") if self.began else ""
        return [f"# {word}: {text}" for word, text in texts.items() if text]

    def take(self, line: str) -> bool:
        """Takes a comment that says something of the device; False where the line is no such comment."""
        found = FORM.fullmatch(line.rstrip("\r\n"))
        if not found:
            return False
        word, text = found.groups()
        if word == "id":
            self.ids = ids_of(text)
        elif word == "properties":
            self.properties = properties_of(text.split())
        elif word == "began":
            self.began = moment_told(text)
        else:
            setattr(self, word, text)
        return True


def ids_of(text: str) -> Optional[Ids]:
    """The ids of four hexadecimal words, or None where they are no such words."""
    if not FOUR_NUMBERS.fullmatch(text):
        return None
    return Ids(*(int(word, 16) for word in text.split()))


def moment_told(text: str) -> Optional[datetime]:
    """The moment of a comment, or None where it is none with a zone."""
    try:
        moment = datetime.fromisoformat(text.strip())
    except ValueError:
        return None
    return moment if moment.tzinfo and moment.year in YEARS else None


def moment_of(times: Iterable[int]) -> Optional[datetime]:
    """What the clock showed at the least of a capture's times, in the zone of this machine; None where they
    are not of the realtime clock."""
    least = min(times, default=0)
    return (EPOCH + timedelta(microseconds=least)).astimezone() if least in REALTIME else None


def is_property_named(number: int) -> bool:
    return number < len(PROPERTIES)


def property_names(numbers: Iterable[int]) -> List[str]:
    """The names of those properties that have one."""
    return [PREFIX + PROPERTIES[number] for number in sorted(set(numbers)) if is_property_named(number)]


def properties_of(names: Iterable[str]) -> List[int]:
    """The numbers of those properties whose names are known."""
    known = {PREFIX + name: number for number, name in enumerate(PROPERTIES)}
    return sorted({known[name] for name in names if name in known})


def identities_of(text: str) -> List[Identity]:
    """Who the devices of a record are, in the record's order."""
    found: List[Identity] = []
    is_behind_a_device = False
    for line in text.split("\n"):
        if DEVICE.match(line):
            found.append(Identity())
            is_behind_a_device = True
        elif not line.lstrip(" \t").startswith("#"):
            is_behind_a_device = False
        elif is_behind_a_device:
            found[-1].take(line)
    return found
