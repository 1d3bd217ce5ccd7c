"""Each command that docs/STUCK.md, EXPLORE.md and CI.md show writes what the page says; and
tests/drawn_pages.py: the pages of tools/draw in a browser."""

import os
import subprocess
from pathlib import Path
from typing import Iterator, List, Tuple

from tests.desk_cases import DeskCase
from tests.drawn_pages import Drawn as Drawn
from tests.playing import PROGRAM, TOP, needs_program

PROMPT, MORE = "    $ ", "    > "
# How many commands each page shows at least.
PAGES = {"STUCK": 9, "EXPLORE": 9, "CI": 15}


def commands(text: str) -> List[Tuple[str, List[str]]]:
    """The commands of a page, and of each the lines that it shows after it."""
    found: List[Tuple[str, List[str]]] = []
    is_behind_one = False
    for line in text.splitlines():
        is_behind_one = line.startswith(PROMPT) or is_behind_one and line.startswith("    ")
        if line.startswith(PROMPT):
            found.append((line[len(PROMPT) :], []))
        elif is_behind_one and line.startswith(MORE) and not found[-1][1]:
            found[-1] = (found[-1][0] + "\n" + line[len(MORE) :], [])
        elif is_behind_one:
            found[-1][1].append(line[4:])
    return found


def shown(page: Path, least: int, folder: Path) -> Iterator[Tuple[str, List[str]]]:
    """The commands of a page, of which there are so many at least, in a folder that has what they name."""
    for name in ("tools", "tests", "examples", "docs"):
        (folder / name).symlink_to(TOP / name)
    found = commands(page.read_text())
    assert len(found) >= least, f"{page} shows {len(found)} commands"
    return iter(found)


class Pages(DeskCase):
    def test_each_command(self) -> None:
        needs_program(self)
        for name, least in PAGES.items():
            folder = self.folder / name
            folder.mkdir()
            for command, lines in shown(TOP / "docs" / f"{name}.md", least, folder):
                with self.subTest(command):
                    done = subprocess.run(["bash", "-c", command], cwd=folder, capture_output=True, text=True,
                                          env={**os.environ, "INPUTPLAY": PROGRAM, "TZ": "UTC0"}, check=False)
                    self.assertEqual((0, lines), (done.returncode, done.stdout.splitlines()), done.stderr)
