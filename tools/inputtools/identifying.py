"""Has a device be who another description says that it is: evtest tells no phys and no uniq, and
/proc/bus/input/devices does."""

from typing import List

from inputtools import files
from inputtools.command import Wrong
from inputtools.description import identity_of
from inputtools.identity import Identity
from inputtools.recording import Device
from inputtools.source import shown


def chosen(device: Device, others: List[Device], path: str) -> Identity:
    """Who that one of the others is that has the device's name, or the only one."""
    name = identity_of(device).name
    found = [identity_of(other) for other in others]
    same = [identity for identity in found if identity.name == name] or found
    if len(same) != 1:
        listed = ", ".join(f'"{identity.name}"' for identity in found) or "none"
        raise Wrong(f'{shown(path)}: no one device "{name}"; there are {listed}')
    return same[0]


def identify(device: Device, path: str) -> None:
    """Takes over what the file tells of who the device is."""
    others = [recording.device for recording in files.read_all(path) if recording.device]
    told = chosen(device, others, path)
    known = identity_of(device)
    device.identity = Identity(
        told.name or known.name, told.phys or known.phys, told.uniq or known.uniq, told.ids or known.ids,
        told.properties or known.properties,
    )
    device.properties = device.identity.properties
    if device.form != "a record":
        device.name = device.identity.name
