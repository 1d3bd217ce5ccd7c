"""tools/play has a hint for each cause. What it says is in tests/transcripts/play.txt, play_unbuilt.txt."""

import re
import unittest

from tests.playing import TOP
from inputtools.refusal_hints import REFUSAL_HINTS


class Refused(unittest.TestCase):
    def test_each_cause_has_its_hint(self) -> None:
        table = (TOP / "docs" / "FORMATS.md").read_text().split("### Causes")[1].split("### ")[0]
        rows = re.findall(r"^\| (`[^|]*)", table, re.MULTILINE)
        causes = {cause for row in rows for cause in re.findall("`([^`]+)`", row)}
        self.assertEqual(causes | {"bad-stream"}, set(REFUSAL_HINTS))
