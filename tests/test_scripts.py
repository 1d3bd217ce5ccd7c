"""Each script of bench/ and checks/ has help, and pages have what scripts write into them. How scripts refuse
wrong words is tests/transcripts/scripts.txt."""

import re
import unittest
from typing import Dict, Set

from tests.playing import TOP, said

from checks.pages import marks

# A script, and the page that has what it makes.
PAGES = {"checks/believed": "PROMISES.md", "checks/counts": "TESTING.md", "checks/headline": "PROMISES.md"}


class Scripts(unittest.TestCase):
    def test_pages_have_what_scripts_write(self) -> None:
        for script, page in PAGES.items():
            with self.subTest(script):
                status, text, errors = said(script, "--page")
                self.assertEqual((0, ""), (status, errors))
                begin, end = marks(script)
                wanted = f"\n{begin}\n{text}{end}"
                self.assertIn(wanted, (TOP / "docs" / page).read_text(), f"'{script} --write' writes it anew")
        self.assertEqual(10, said("checks/headline").text.count("```antt\n"))

    def test_help(self) -> None:
        """It has each option that the transcript gives a script, but for the one that no script has."""
        transcript = (TOP / "tests" / "transcripts" / "scripts.txt").read_text()
        options: Dict[str, Set[str]] = {}
        for script, words in re.findall(r"^\$ \./refuse (\S+)(.*)$", transcript, re.M):
            options.setdefault(script, set()).update(re.findall(r"(?<= )--\w+", words))
        self.assertEqual(15, len(options))
        for script in options:
            with self.subTest(script):
                status, text, errors = said(script, "--help")
                self.assertEqual((0, ""), (status, errors))
                self.assertRegex(text, rf"^usage: (\w+/)?{script.split('/')[1]} \[-h\] ")
                lacking = [option for option in options[script] - {"--fast"} if option not in text]
                self.assertEqual([], lacking)
