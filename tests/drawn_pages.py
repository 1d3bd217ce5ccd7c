"""The pages of tools/draw in Debian's headless Chromium: what their sentence leads to, keys, a tap, the
button, narrow screens and paper. `tests/page_browser.py` looks at them."""

import json
import shutil
import subprocess
from pathlib import Path
from typing import Any, Dict, Iterable, Optional

from tests.desk_cases import DeskCase
from tests.drawn_records import KEYS, MORE_KEYS, typed
from tests.playing import TOP

PYTHON, BROWSER = "/usr/bin/python3", TOP / "tests" / "page_browser.py"
EXAMPLES = sorted((TOP / "examples").glob("*.rec"))
# What the browser is reached by: the program, and the Debian package that has it.
PROGRAMS = (("chromium", "chromium"), ("chromedriver", "chromium-driver"))


def lacking() -> Optional[str]:
    """The Debian package that is not there, or None."""
    for program, package in PROGRAMS:
        if shutil.which(program) is None:
            return package
    if shutil.which(PYTHON) is None:
        return "python3"
    done = subprocess.run([PYTHON, "-c", "import selenium"], capture_output=True, check=False)
    return "python3-selenium" if done.returncode else None


class Drawn(DeskCase):
    def setUp(self) -> None:
        super().setUp()
        package = lacking()
        if package:
            self.skipTest(f"Debian's {package} is not there")

    def looked_at(self, records: Iterable[Path]) -> Dict[str, Any]:
        """What is found on the page of each record, by its name. No page scrolls sideways, none has an error
        in the console, and the whole picture is on the first page of paper."""
        pages = []
        for record in records:
            pages.append(self.folder / f"{record.stem}.html")
            self.tool("draw", "--output", pages[-1], record)
        programs = [str(shutil.which(program)) for program, _ in PROGRAMS]
        words = [PYTHON, str(BROWSER), *programs, *map(str, pages)]
        done = subprocess.run(words, capture_output=True, text=True, timeout=300, check=False)
        self.assertEqual(0, done.returncode, done.stderr[-800:])
        found = {page.stem: each for page, each in zip(pages, json.loads(done.stdout).values())}
        for name, each in found.items():
            with self.subTest(name):
                self.assertEqual({"sideways": {"1280": 0, "390": 0}, "console": [], "paper": True},
                                 {what: each[what] for what in ("sideways", "console", "paper")})
                self.assertTrue(all(each["keys"][:3]) and each["keys"][3] is None, each["keys"])
        return found

    def test_a_held_key(self) -> None:
        """Of 39 keys and of 70 with one that is held the sentence leads to its bar, the arrow keys and a tap
        tell marks, and the button opens all rows."""
        records = [self.file("keys.rec", typed(KEYS, "W")), self.file("more.rec", typed(MORE_KEYS, "W"))]
        found = self.looked_at(records)
        said = "KEY_W: KEY_W down from place 75 (1.04 s) on"
        for each in found.values():
            self.assertEqual({"open": ["d0-0", "d0-told"], "said": said, "seen": True}, each["sentence"])
            press, report = "EV_KEY KEY_ESC 1", "EV_SYN SYN_REPORT 0"
            keys = [f"usb: place 2 (0.08 s): inject {press}", f"usb: place 3 (0.08 s): inject {report}"]
            keys += [f"frames: frame of place 3 (0.08 s): {press}, {report}"]
            self.assertEqual([*keys, None], each["keys"])
            self.assertRegex(each["tapped"], "^desktop: (place 4 .*: read 2|nothing left to read at place 5)")
        self.assertEqual([None, [60, 73]], [each["rows"] for each in found.values()])

    def test_examples(self) -> None:
        """Each sentence leads to a bar that is seen, and tells it. A narrow screen shows it at once."""
        found = self.looked_at(EXAMPLES)
        self.assertIn("grab of remapper", found["keyboard"]["sentence"]["said"])
        for name, each in found.items():
            if "sentence" in each:
                with self.subTest(name):
                    self.assertTrue(each["sentence"]["said"] and each["sentence"]["seen"], each["sentence"])
                    self.assertTrue(each["sight"], "the bar is not on a screen of 390 pixels")
