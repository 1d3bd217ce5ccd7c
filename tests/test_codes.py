"""The names of event types and codes: each that the program writes and reads, and that there are no others.

`tests/data/codes.txt` has them with their numbers, as the kernel's header has them. It was made from the
header, and not from the program.
"""

from typing import List, NamedTuple

from tests.playing import TOP, FolderCase, run

HEAD = "inputrecord 2\ndevice d\nsource s\n"


class Code(NamedTuple):
    """A code of a type, both by number and by name."""

    kind: int
    kind_name: str
    code: int
    name: str


def codes() -> List[Code]:
    """The codes of the table, each below the line of its type."""
    found, kind_name = [], ""
    for line in (TOP / "tests" / "data" / "codes.txt").read_text().splitlines():
        kind, *words = line.split()
        if len(words) == 1:
            kind_name = words[0]
        else:
            found.append(Code(int(kind), kind_name, int(words[0]), words[1]))
    return found


def event(kind: object, code: object) -> str:
    """A line that injects an event, whose type and code may be any."""
    return f"do s event 0 {kind} {code} 1\n"


class Codes(FolderCase):
    def written(self, lines: List[str]) -> List[str]:
        """The lines of a source as the program writes them, by names where it has them."""
        (self.folder / "f").write_text(HEAD + "".join(lines))
        ran = run(["--migrate", "f"], self.folder)
        self.assertEqual((0, b""), (ran.status, ran.errors), ran.text[:200])
        return [line for line in ran.text.decode().splitlines(keepends=True) if line.startswith("do s event")]

    def test_the_table_is_whole(self) -> None:
        rows = codes()
        self.assertEqual((272, 9), (len(rows), len({row.kind for row in rows})))
        self.assertEqual(len(rows), len({row.name for row in rows}))

    def test_each_name_is_read_as_its_number(self) -> None:
        # A name that were read as another number would be written by that number's name.
        rows = codes()
        named = [event(row.kind_name, row.name) for row in rows]
        self.assertEqual(named, self.written(named))

    def test_each_number_is_written_by_its_name_and_no_other_has_one(self) -> None:
        kinds = {row.kind: row.kind_name for row in codes()}
        names = {(row.kind, row.code): row.name for row in codes()}
        pairs = [(kind, code) for kind in range(32) for code in range(1024)]
        pairs += [(65535, 65535), (1, 65535), (6, 65535)]
        wanted = [event(kinds.get(kind, kind), names.get((kind, code), code)) for kind, code in pairs]
        self.assertEqual(wanted, self.written([event(*pair) for pair in pairs]))
