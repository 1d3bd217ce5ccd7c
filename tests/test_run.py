"""Real programs on played devices: those of this list that are installed, unchanged.

Each is run twice by tools/run with --frames, and both runs write the same. One that is not installed is left
out by its name; docs/RUN.md has the packages. All are skipped, by one line, where the library is not built
(`tools/build --library`) or no C compiler is there; the server and the shim are compiled anew.
"""

import unittest
from typing import Optional

from tests import run_games, run_libinput, run_page, run_readers, run_remapper, run_sway
from tests.run_cases import build, why_not

MODULES = (run_readers, run_libinput, run_games, run_sway, run_remapper, run_page)


class NotBuilt(unittest.TestCase):
    def test_programs_run_on_played_devices(self) -> None:
        self.skipTest(why_not())


def load_tests(loader: unittest.TestLoader, tests: unittest.TestSuite,
               _pattern: Optional[str]) -> unittest.TestSuite:
    if why_not():
        return tests
    build()  # (once, before the tests are shared out)
    suite = unittest.TestSuite()
    for module in MODULES:
        suite.addTests(loader.loadTestsFromModule(module))
    return suite
