"""The lines that tell where clients' beliefs and their device part: what `tools/stuck` prints."""

from itertools import groupby
from typing import List, Sequence, Tuple

from inputtools.belief import Thing
from inputtools.command import counted
from inputtools.devicestate import Sent
from inputtools.divergences import Divergence, Point
from inputtools.joysticks import JoyWalk
from inputtools.owners import Owner
from inputtools.places import Places
from inputtools.played import Client, PlayedDevice, Reader
from inputtools.still_down import still_down_of

MOST_SHOWN = 4

# How a belief comes to be the device's state again, where the device does not come back to it.
MET = {"asked": "it asked at", "event": "it took the event of"}


def points_text(points: Sequence[Point], at: Places) -> str:
    """Where a divergence was seen."""
    reports, agains = ([point.place for point in points if point.kind == kind and point.place is not None]
                       for kind in ("report", "again"))
    texts = [at.several("the report of place", "the reports of places", reports)] if reports else []
    if agains:
        texts.append(at.several("nothing left to read at place", "nothing left to read at places", agains))
    if points[-1].kind == "end":
        texts.append("the end")
    return "; ".join(texts)


def met_text(divergences: Sequence[Divergence], at: Places) -> str:
    """How belief and device met again."""
    places = sorted({divergence.met_at for divergence in divergences if divergence.met_at is not None})
    if not places:
        return "the device came back to it"
    ends = f"places {at.bare(places[0])} to {at.bare(places[-1])}"
    where = ends if len(places) > 1 else at.text(places[0])
    return f"{MET.get(str(divergences[0].met_by), 'the device came back to it at')} {where}"


def group_of(divergence: Divergence) -> Tuple[int, int, str, List[int], str]:
    """What divergences that are written together have in common."""
    since = -1 if divergence.since is None else divergence.since
    points = [point.entry for point in divergence.points]
    return points[0], since, divergence.cause.text, points, str(divergence.met_by)


def name_of(reader: Reader, thing: Thing) -> str:
    """A thing's name; of a joystick with its number."""
    if isinstance(reader, Owner) or not isinstance(reader.walk, JoyWalk):
        return thing.text()
    walk = reader.walk
    if thing in walk.buttons:
        return f"{thing.text()} (button {walk.buttons.index(thing)})"
    return f"{thing.text()} (axis {walk.axes.index(thing)})"


def divergence_lines(reader: Reader, divergences: Sequence[Divergence], at: Places) -> List[str]:
    """The lines on things that parted together."""
    first = divergences[0]
    lines = []
    for each in divergences:
        values = f"{each.believed_text} for it, {each.present_text} on the device"
        lines.append(f"  {name_of(reader, each.thing)}: {values}")
    lines.append(f"    {at.since(first.since)}: {first.cause.text}")
    lines.append(f"    seen at: {points_text(first.points, at)}")
    return lines + ([f"    until {met_text(divergences, at)}"] if first.met_by else [])


def all_divergence_lines(reader: Reader, at: Places) -> List[str]:
    lines = []
    for _, divergences in groupby(sorted(reader.divergences, key=group_of), group_of):
        lines += divergence_lines(reader, list(divergences), at)
    return lines


def loss_lines(client: Client, at: Places) -> List[str]:
    """The losses that a client read, which part no belief where it asked at once."""
    losses = client.walk.losses
    if losses:
        return ["  it lost events: " + at.several("SYN_DROPPED of place", "SYN_DROPPED of places", losses)]
    if isinstance(client.walk, JoyWalk) and client.walk.synchronised:
        return ["  it synchronised anew: " + at.several("at place", "at places", client.walk.synchronised)]
    return []


def end_text(reader: Reader) -> str:
    """Whether a belief is the device's state at the end."""
    things = [divergence.thing for divergence in reader.at_end]
    if not things:
        return "as the device"
    what = name_of(reader, things[0]) if len(things) == 1 else f"{len(things)} things"
    return f"not as the device in {what}"


def client_lines(client: Client, at: Places) -> List[str]:
    """The lines on one client, tap or joystick."""
    lines = [f"{client.role} {client.name}"]
    if not client.walk.clients:
        return lines + ["  it never opened the device"]
    lines += loss_lines(client, at) + all_divergence_lines(client, at)
    return lines + [f"  at the end: {end_text(client)}"]


# Owners


def sent_text(sent: Sequence[Sent], at: Places) -> str:
    """Events that were sent, each with the place of its step: the first three and the last of many."""
    shown = [f"{each.event.code} {each.event.value} of {at.text(each.place)}" for each in sent]
    return ", ".join(shown if len(shown) <= MOST_SHOWN else [*shown[:3], f".. {shown[-1]}"])


def owner_lines(owner: Owner, at: Places) -> List[str]:
    """What an owner was told of what was sent to its device."""
    told = owner.told()
    calls = counted(len(owner.calls), "call")
    lines = [f"owner {owner.name}", f"  it was told {counted(len(told), 'event')} by {calls}"]
    lines[-1] += f": {sent_text(told, at)}" if told else ""
    left = ((owner.lost, "lost, since 15 wait at most"), (owner.waiting, "not taken at the end"))
    for sent, became in left:
        lines += [f"  {became}: {counted(len(sent), 'event')}: {sent_text(sent, at)}"] if sent else []
    return lines + all_divergence_lines(owner, at) + [f"  at the end: {end_text(owner)}"]


# Devices


def device_lines(device: PlayedDevice) -> List[str]:
    at = device.state.at
    lines = [f"device {device.name} steps {device.report.steps}"]
    for reader in device.readers():
        lines += owner_lines(reader, at) if isinstance(reader, Owner) else client_lines(reader, at)
    lines += ["the device at the end"] + ["  " + line.text for line in device.state.view]
    return lines + [f"  {held.text(at)}" for held in still_down_of(device.state)]
