"""What a program did on the devices of a record, as a record of its own: judged by what the first one
expects, and drawn."""

from __future__ import annotations

import os
import shutil
from typing import List, Optional, Tuple

from inputtools.checking import outcomes_of
from inputtools.command import Wrong
from inputtools.expectations import words_of
from inputtools.page import page
from inputtools.played import play
from inputtools.program import find_player
from inputtools.results import Checked, lines_for_people
from inputtools.source import Given, read_text, write_bytes


def expected_of(text: str, name: str) -> List[Tuple[int, str]]:
    """The lines of a record that expect something of an actor, with their numbers."""
    rows = ((number, line, words_of(line)) for number, line in enumerate(text.split("\n"), 1))
    return [(number, line.strip()) for number, line, words in rows if words and words[0] == name]


class History:
    """What the program did that was an actor of a record, as a record with what the first one expects of
    it."""

    def __init__(self, record: Given, name: Optional[str], path: str) -> None:
        self.record, self.path = record, path
        self.expected = expected_of(read_text(record.path), name) if name else []
        if self.expected:
            first, _, rest = read_text(path).partition("\n")
            with open(path, "w", encoding="utf-8") as file:
                file.write("\n".join([first, *(line for _, line in self.expected), rest]))

    def judged(self) -> Tuple[str, bool]:
        """What is said of the expectations, and whether all of them hold. Nothing is said where there is
        none."""
        if not self.expected:
            return "", True
        try:
            outcomes = outcomes_of(self.path, find_player())
        except Wrong as wrong:
            raise Wrong(f"what {self.record.name} expects cannot be judged: {wrong}") from None
        # (the lines stand behind the first one, in their order)
        numbers = {2 + at: number for at, (number, _) in enumerate(self.expected)}
        for outcome in outcomes:
            outcome.number = numbers.get(outcome.number or 0)
        checked = Checked(self.record.name, outcomes, None, 0.0)
        return lines_for_people([checked]), not checked.failed()

    def draw(self, to: str) -> None:
        """Draws it as one page."""
        devices = play(Given(self.path), find_player())
        write_bytes(to, page(os.path.basename(self.record.name), devices).encode("ascii"))

    def copy(self, to: str) -> None:
        try:
            shutil.copyfile(self.path, to)
        except OSError as fault:
            raise Wrong(f"{to}: {fault.strerror}") from None
