"""An order that is shown is played again, as the record that it is, by the program where it is built,
else by the second program. `tools/stuck` judges that play: it says why a thing is as it is, or that it
is not so."""

from __future__ import annotations

import os
import tempfile
from typing import NamedTuple, Optional, Sequence, Tuple

from inputtools.checking import outcomes_of
from inputtools.explored_ends import Thing
from inputtools.divergences import Divergence
from inputtools.joysticks import JoyWalk
from inputtools.owners import Owner
from inputtools.played import Reader, play
from inputtools.program import BuiltProgram, Ended, Player, SecondProgram, find_player
from inputtools.report import Call, Entry
from inputtools.source import Given
from second.outcome import outcome


class SecondInProcess(SecondProgram):
    """The second program, which plays in this process."""

    def play(self, path: Optional[str], folder: str, flags: Sequence[str] = (), what: Optional[str] = None) -> Ended:
        status, text = outcome(path or "", "--history" in flags, folder)
        return Ended(status, text.decode("ascii", "replace"))


def player_of_orders() -> Player:
    """The built program where there is one, else the second program."""
    player = find_player()
    return player if isinstance(player, BuiltProgram) else SecondInProcess()


class Judged(NamedTuple):
    """What a play says of a thing: whether it has it, the kind of its cause and the cause in words."""

    is_so: bool
    cause: Optional[str] = None
    text: Optional[str] = None


def judge(text: str, thing: Thing, player: Player) -> Judged:
    """Plays the record of an order, and looks for a thing that the order is to have."""
    if thing.kind == "waits":
        return Judged(True)
    with tempfile.TemporaryDirectory(prefix="explore") as folder:
        path = os.path.join(folder, "order.rec")
        with open(path, "w", encoding="latin-1", newline="") as file:
            file.write(text)
        if thing.kind == "missed":
            (result,) = outcomes_of(path, player)
            return Judged(not result.is_held, None, result.came)
        devices = play(Given(path), player)
    readers = [reader for device in devices for reader in device.readers() if reader.name == thing.actor]
    return judged_by(readers[0], thing)


def judged_by(reader: Reader, thing: Thing) -> Judged:
    """What is told of a reader that has such a thing."""
    if thing.kind in ("apart", "open-frame"):
        return judged_divergence(reader.at_end, thing, (thing.believed, thing.present))
    if thing.kind == "moment":
        return judged_divergence(reader.divergences, thing, None)
    if thing.kind == "lost":
        return Judged(has_lost(reader))
    if thing.kind == "refused":
        return Judged(any(is_refusal(entry, thing) for entry in reader.part.sight))
    return Judged(reader.part.end.is_full)


def has_lost(reader: Reader) -> bool:
    if isinstance(reader, Owner):
        return bool(reader.lost)
    return bool(reader.walk.losses or (isinstance(reader.walk, JoyWalk) and reader.walk.synchronised))


def judged_divergence(found: Sequence[Divergence], thing: Thing, values: Optional[Tuple[int, int]]) -> Judged:
    for each in found:
        if each.thing == thing.what and values in (None, (each.believed, each.present)):
            return Judged(True, each.cause.kind, each.cause.text)
    return Judged(False)


def is_refusal(entry: Entry, thing: Thing) -> bool:
    if not isinstance(entry, Call) or not entry.reply.is_refused:
        return False
    return entry.step.name == thing.what and entry.reply.words[-1] == thing.why
