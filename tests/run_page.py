"""docs/RUN.md and README: each command that they show writes what they say."""

import re
import subprocess
from pathlib import Path
from typing import Dict, List, Tuple

from tests.playing import TOP
from tests.run_cases import RunCase, needs, variables
from tests.test_pages import shown

# What a command needs beside the tools, by a word of it, with the package.
PROGRAMS: Dict[str, Tuple[Tuple[str, str], ...]] = {
    "libinput debug-events": (("libinput", "libinput-tools"), ("umockdev-run", "umockdev")),
    "evtest": (("evtest", "evtest"),),
    "pkg-config": (("pkg-config", "pkg-config"), ("sdl2-config", "libsdl2-dev")),
    "./pad": (("sdl2-config", "libsdl2-dev"), ("umockdev-run", "umockdev")),
}
SECONDS = 60
TIME = re.compile(r"\+[0-9]+\.[0-9]{3}s")


def with_single_blanks(lines: List[str]) -> List[str]:
    """Lines whose blanks and tabs are one blank each; a last empty one is left out. libinput tells times from
    its own start on, which differ by run."""
    told = [TIME.sub("+0.000s", " ".join(line.split())) for line in lines]
    return told[:-1] if told[-1:] == [""] else told


class Page(RunCase):
    def is_shown(self, command: str, folder: Path, page: List[str]) -> None:
        """Runs a command in a folder. What it wrote is what the page says."""
        for word, programs in PROGRAMS.items():
            for program, package in programs if word in command else ():
                needs(self, program, package)
        done = subprocess.run(["bash", "-c", command], cwd=folder, env=variables(self.built),
                              capture_output=True, text=True, timeout=SECONDS, check=False)
        came = with_single_blanks(done.stdout.splitlines())
        self.assertEqual((0, with_single_blanks(page)), (done.returncode, came), done.stderr)

    def test_each_command(self) -> None:
        for page, least in ((TOP / "docs" / "RUN.md", 11), (TOP / "README.md", 2)):
            folder = self.folder / page.stem
            folder.mkdir()
            for command, lines in shown(page, least, folder):
                with self.subTest(command):
                    self.is_shown(command, folder, lines)
