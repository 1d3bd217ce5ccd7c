"""Reads the files that a command is given. `-` stands for standard input, which is read once. What is no regular
file, as a pipe, is read to its end first, since the program that plays cannot read it once more."""

import atexit
import os
import re
import shutil
import sys
import tempfile
from typing import Iterable, List

from inputtools.command import Wrong

INPUT = "-"
NAME = "standard input"
# Names of the files that a process has open.
OWN = re.compile("/dev/(std|fd/)|/proc/[^/]+/fd/")

_read: List[bool] = []


def shown(path: str) -> str:
    """A file's name, as it is told to people."""
    return NAME if path == INPUT else path


def fault_text(fault: Exception) -> str:
    return fault.strerror or str(fault) if isinstance(fault, OSError) else str(fault)


def read_bytes(path: str, most: int = -1) -> bytes:
    """The bytes of a file, or of standard input, up to so many."""
    try:
        if path != INPUT:
            with open(path, "rb") as file:
                return file.read(most)
        if sys.stdin is None:
            raise Wrong(f"{NAME} is closed")
        if _read:
            raise Wrong(f"{NAME} can be read once: give one of both as a file")
        _read.append(True)
        return sys.stdin.buffer.read(most)
    except (OSError, ValueError) as fault:
        raise Wrong(f"{shown(path)}: {fault_text(fault)}") from None


def write_bytes(path: str, data: bytes) -> None:
    """Writes a file beside its name, and renames it: whoever reads it has the one before or all of the new
    one. What is no regular file is written to as it is."""
    target, is_file = os.path.realpath(path), os.path.isfile(path) or not os.path.exists(path)
    is_replaced = is_file and not path.startswith(("/dev/", "/proc/"))
    written = f"{target}.{os.getpid()}.new" if is_replaced else path
    try:
        with open(written, "wb") as file:
            file.write(data)
        if is_replaced and os.path.isfile(target):
            shutil.copymode(target, written)
        if is_replaced:
            os.replace(written, target)
    except (OSError, ValueError) as fault:
        raise Wrong(f"{path}: {fault_text(fault)}") from None
    finally:
        if is_replaced and os.path.isfile(written):
            os.remove(written)


def is_stream(path: str) -> bool:
    """Is it a file that can be read once, as standard input, or that another process has not?"""
    is_none = path != INPUT and (os.path.isdir(path) or not os.path.exists(path))
    return not is_none and (not os.path.isfile(path) or bool(OWN.match(os.path.abspath(path))))


def as_file(path: str) -> str:
    """A file that has what is to be read: the file itself, or a copy of what can be read once."""
    if not is_stream(path):
        return path
    data = read_bytes(path)
    folder = tempfile.mkdtemp()
    atexit.register(shutil.rmtree, folder, ignore_errors=True)
    copy = os.path.join(folder, "input.rec")
    with open(copy, "wb") as file:
        file.write(data)
    return copy


def folder_of(path: str) -> str:
    """The folder in which a record is played, which has the files of its `stream` lines: for standard input
    or a pipe the present one."""
    return os.getcwd() if is_stream(path) else os.path.dirname(os.path.abspath(path))


def paths_of(paths: Iterable[str]) -> List[str]:
    """The files that are named, and the records of folders."""
    found: List[str] = []
    for path in paths:
        found += records_of(path) if os.path.isdir(path) else [path]
    return found


def records_of(folder: str) -> List[str]:
    try:
        names = sorted(name for name in os.listdir(folder) if name.endswith(".rec"))
    except OSError as fault:
        raise Wrong(f"{folder}: {fault_text(fault)}") from None
    if not names:
        raise Wrong(f"{folder}: the folder has no record (*.rec)")
    return [os.path.join(folder, name) for name in names]


class Given:
    """A record that a command is given: the name by which it is told, the folder that has the files which it
    names, and the file that has it."""

    def __init__(self, path: str) -> None:
        self.name, self.folder, self.path = shown(path), folder_of(path), as_file(path)


def read_text(path: str) -> str:
    """The text of a record or a report. A byte that is no text stays one character."""
    return read_bytes(path).decode("latin-1")
