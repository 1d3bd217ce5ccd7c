"""Ends as `inputplay FILE` does: it writes the report, or why there is none, and ends with the same status.

It takes any bytes for a record, where `second.model` takes the record for one that has a meaning. The names of
streams are those of files beside the record.
"""

import os
from typing import Optional, Tuple

from second.model import report, run
from second.record_text import Refused, is_stream, streams_of_text

INPUT_LIMIT = 16777216


class Ends(Exception):
    """The program ends without a report: with a status, and a line."""

    def __init__(self, status: int, line: str) -> None:
        super().__init__(line)
        self.status, self.line = status, line


def contents(path: str) -> bytes:
    try:
        with open(path, "rb") as file:
            data = file.read(INPUT_LIMIT + 1)
    except OSError:
        raise Ends(3, "read failed") from None
    if len(data) > INPUT_LIMIT:
        raise Ends(7, "input too long")
    return data


def played(path: str, history: bool, folder: str) -> Tuple[int, bytes]:
    """The status and the text of a record that is played, or `Ends` is raised."""
    data = contents(path)
    try:
        for line, file, size in streams_of_text(data):
            if not is_stream(contents(os.path.join(folder, file)), size):
                raise Refused(line, "bad-stream")
    except Refused as refused:
        raise Ends(1, str(refused)) from None
    devices, actors = run(data.decode("latin1"), folder)
    text = "".join(line + "\n" for line in report(devices, actors, history))
    return 6 if any(actor.stop != "finished" for actor in actors) else 0, text.encode()


def outcome(path: str, history: bool = False, folder: Optional[str] = None) -> Tuple[int, bytes]:
    """The status that the program ends with, and all that it writes. The files of streams are those of a folder, or else
    of the record's own."""
    try:
        return played(path, history, folder or os.path.dirname(os.path.abspath(path)))
    except Ends as end:
        return end.status, f"inputplay: {end}\n".encode()
