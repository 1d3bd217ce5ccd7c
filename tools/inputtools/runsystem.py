"""What programs look for beside a device's node: /sys, and udev's data of it. `umockdev-run` shows a
program such files."""

from __future__ import annotations

import os
import shutil
from typing import List

from inputtools.command import say
from inputtools.source import read_text, write_bytes
from inputtools.umockdev import umockdev_text

RUNNER, DESCRIPTION = "umockdev-run", "devices.umockdev"
MISSING = f"{RUNNER} is not there (Debian: umockdev), so a program that looks into /sys finds no device"

# (umockdev-run ends in the number of a signal that ended its program; a shell's status tells both apart)
AS_A_SHELL = ["sh", "-c", '"$@"; exit $?', "sh"]


def with_system_files(program: List[str], record: str, folder: str, first: int) -> List[str]:
    """The words by which a program is started so that it finds what the system would have of the record's
    devices.

    `folder` is the run's, for files that have to be written; `first` is the number of the first node. The
    shim is loaded before what umockdev-run loads: nodes are the shim's, and the rest is umockdev's."""
    if shutil.which(RUNNER) is None:
        say("run", MISSING)
        return program
    path = os.path.join(folder, DESCRIPTION)
    write_bytes(path, umockdev_text(read_text(record), first).encode())
    return [RUNNER, "-d", path, "--", *AS_A_SHELL, *program]
