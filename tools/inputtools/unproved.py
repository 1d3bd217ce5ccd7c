"""Plays without proof: what bin/inputplay --unproved does.

A record is played by the second program, which plays on one thread. With any other words the toolchain plays.
"""

import os
import shutil
from typing import List, Optional, Tuple

from inputtools.command import Result, Wrong
from inputtools.program import Player, SecondProgram, Toolchain, has_second
from inputtools.source import INPUT, as_file, folder_of

WITH_VALUE = ("--idle", "--make", "--count")
# The words beside a record with which the second program plays it.
BY_SECOND: Tuple[List[str], ...] = ([], ["--history"])


def file_of(words: List[str]) -> Tuple[Optional[str], List[str]]:
    """The record among the program's words, or None; and the other words."""
    rest: List[str] = []
    files: List[str] = []
    is_behind = waits = False
    for word in words:
        if is_behind or (not word.startswith("--") and not waits):
            files.append(word)
        elif word == "--" and not waits:
            is_behind = True
        else:
            rest.append(word)
            waits = not waits and word in WITH_VALUE
    return (files[0], rest) if len(files) == 1 else (None, list(words))


def player_of(path: Optional[str], flags: List[str]) -> Player:
    """The second program or the toolchain, also where the program is built."""
    if has_second() and path is not None and flags in BY_SECOND:
        return SecondProgram()
    if shutil.which("rt") is None:
        raise Wrong("there is no toolchain (rt) on the path")
    return Toolchain()


def play(words: List[str]) -> Result:
    """Plays without proof."""
    named, flags = file_of(words)
    # (to the program `-` is a file of this name)
    path = named if named in (None, INPUT) else as_file(named or "")
    if path is not None and not os.path.isfile(path):
        raise Wrong(f"{path}: no such file")
    run = player_of(path, flags).start(path, folder_of(named or "record"), flags)
    written = run.whole_output()
    status = run.status()
    run.player.check_begin(written[:64], path or "")
    return Result(written, [], status)
