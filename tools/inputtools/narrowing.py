"""Narrows what is said of a played record to what was asked for: some readers or things, or the end alone."""

import difflib
from dataclasses import dataclass
from typing import Iterable, Iterator, List, Sequence, Set, Tuple, TypeVar

from inputtools.belief import SLOT, Thing
from inputtools.command import Words, Wrong
from inputtools.divergences import Divergence
from inputtools.names import CODES, REP, code_text
from inputtools.played import PlayedDevice, Reader
from inputtools.report import ViewLine

# Lines of a state that tell something where nothing stands behind their first word.
TELLS_NONE = ("keys", "switches", "leds")

Kind = TypeVar("Kind", bound=Reader)


@dataclass(frozen=True)
class Scope:
    """The names of readers and of things, all where there is none, and whether the end alone is asked for."""

    readers: Sequence[str] = ()
    things: Sequence[str] = ()
    is_end: bool = False

    @property
    def is_all(self) -> bool:
        return not (self.readers or self.things or self.is_end)

    def has(self, *names: str) -> bool:
        """Is this thing, by one of its names, among those that were asked for?"""
        return not self.things or any(name in self.things for name in names)

    def has_thing(self, thing: Thing) -> bool:
        return self.has(thing.text(), thing.code)

    def wanted(self, divergences: Iterable[Divergence]) -> List[Divergence]:
        return [each for each in divergences if self.has_thing(each.thing)]

    def text(self) -> str:
        """The line that says what was asked for."""
        words = [f"client {', '.join(self.readers)}"] if self.readers else []
        words += [f"thing {', '.join(self.things)}"] if self.things else []
        return "only: " + "; ".join(words + ["what is so at the end"] * self.is_end)


def add_client(words: Words) -> None:
    words.add_argument("--client", action="append", default=[], metavar="NAME",
                       help="this client, tap, joystick or owner alone (several times: these)")


@dataclass(frozen=True)
class Told:
    """A word of a line of the state at the end, and the names of what it tells of."""

    word: str
    names: Tuple[str, ...]


def told_in(line: ViewLine) -> Iterator[Told]:
    slot = f"slot {line.words[1]} " if line.name == "slot" else ""
    for word in line.words[2 if slot else 1 :]:
        name = SLOT if line.name == "current" else word.split("=")[0]
        yield Told(word, (name, slot + name))


def names_in(device: PlayedDevice) -> Iterator[str]:
    """The names of all things of a device."""
    for kind, codes in device.state.description.codes.items():
        yield from CODES[REP] if kind == REP else (code_text(kind, code) for code in codes)
    for line in device.state.view:
        yield from (name for told in told_in(line) for name in told.names)
    for reader in device.readers():
        yield from (each.thing.code for each in reader.divergences)


def check_names(given: Sequence[str], known: Set[str], what: str) -> None:
    """Refuses a name that nothing has, with the nearest one."""
    for name in given:
        near = difflib.get_close_matches(name, sorted(known), 1, 0)
        if name not in known:
            raise Wrong(f"no {what} is named {name}" + (f"; the nearest is {near[0]}" if near else ""))


def narrowed_line(line: ViewLine, scope: Scope) -> ViewLine:
    """A line of the state at the end with the things alone that were asked for."""
    told = list(told_in(line))
    kept = [each.word for each in told if scope.has(*each.names)]
    words = (*line.words[: len(line.words) - len(told)], *kept) if kept or line.name in TELLS_NONE else ()
    return ViewLine(line.number, " ".join(words), words)


def chosen(readers: List[Kind], scope: Scope) -> List[Kind]:
    return [reader for reader in readers if not scope.readers or reader.name in scope.readers]


def narrow_device(device: PlayedDevice, scope: Scope) -> None:
    device.clients, device.joysticks = chosen(device.clients, scope), chosen(device.joysticks, scope)
    device.owners = chosen(device.owners, scope)
    for reader in device.readers():
        reader.at_end = scope.wanted(reader.at_end)
        reader.divergences = reader.at_end if scope.is_end else scope.wanted(reader.divergences)
    if scope.things:
        state = device.state
        state.view = [line for line in (narrowed_line(each, scope) for each in state.view) if line.words]
        state.end = {thing: value for thing, value in state.end.items() if scope.has_thing(thing)}
        state.changes = {thing: changes for thing, changes in state.changes.items() if scope.has_thing(thing)}


def narrow(devices: Sequence[PlayedDevice], scope: Scope) -> List[PlayedDevice]:
    """The devices that have what was asked for, each with that alone."""
    readers = {reader.name for device in devices for reader in device.readers()}
    check_names(scope.readers, readers, "client, tap, joystick or owner")
    things = {name for device in devices for name in names_in(device)}
    check_names(scope.things, things, "thing of the record")
    for device in devices:
        narrow_device(device, scope)
    return [device for device in devices if device.readers() or not scope.readers]
