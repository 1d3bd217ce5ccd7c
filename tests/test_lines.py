"""Lines of a record that are just refused, each with its cause, and lines that are just accepted.

The lines are in tests/data/lines.txt.
"""

import re
from typing import Iterator, NamedTuple, Optional

from tests.desk_cases import DATA
from tests.playing import FolderCase, run

from second.outcome import outcome


class Text(NamedTuple):
    """A text, and the cause and the number of the line that is refused, if one is."""

    text: str
    cause: Optional[str]
    number: int = 1


def text_of(lines: str) -> str:
    """The text of lines, as the table writes them."""
    parts = (re.fullmatch(r"(?:(\d+)\*)?(.*)", part) for part in lines.split(" / "))
    found = (line.replace("#", str(number)) if part[1] else line for part in parts if part
             for number in range(int(part[1] or 1))
             for line in (part[2].split("+") if part[1] else [part[2]]))
    return "\n".join(found).encode().decode("unicode_escape")


def texts() -> Iterator[Text]:
    """All texts of the table."""
    front = ""
    for row in (DATA / "lines.txt").read_text().splitlines():
        told, _, rests = row.partition(":")
        if row.startswith("="):
            front = row[2:]
        elif row and not row.startswith("#"):
            cause, _, number = told.partition(" ")
            for rest in rests[1:].split(" | "):
                text = text_of(" / ".join(filter(None, [front, rest])))
                yield Text(text, None if cause == "none" else cause, int(number or text.count("\n") + 1))


class Lines(FolderCase):
    def setUp(self) -> None:
        super().setUp()
        self.write("keys", "")

    def test_a_line_that_is_just_refused_or_accepted(self) -> None:
        """The program plays or rewrites a text, or says why it does neither."""
        for given in texts():
            self.write("f", given.text.encode("latin1"))
            for words in ([], ["--migrate"]):
                with self.subTest(words=words, text=given.text[-60:]):
                    status, text, errors = run([*words, "f"], self.folder)
                    line = f"inputplay: line {given.number}: {given.cause}\n".encode()
                    self.assertEqual(b"", errors)
                    self.assertEqual(given.cause is not None, (status, text) == (1, line), text[:200])
                    self.assertEqual(given.cause is None, status == 0, text[:200])
                    if words and given.cause is None:
                        self.assertTrue(text.startswith(b"inputrecord 2\n"))

    def test_the_second_program_refuses_as_the_first_one(self) -> None:
        for given in texts():
            with self.subTest(text=given.text[-60:]):
                status, text = outcome(str(self.write("f", given.text.encode("latin1"))))
                self.assertEqual(int(given.cause is not None), status)
                if given.cause:
                    self.assertEqual(f"inputplay: line {given.number}: {given.cause}\n".encode(), text)
