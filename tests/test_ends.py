"""A tool that is stopped while it starts. How each tool ends elsewhere is in tests/transcripts/ends.txt."""

import signal
import subprocess
import sys
import unittest
from typing import Tuple

from tests.desk_cases import TOOLS, heed_stops


def started(flags: str, text: str) -> Tuple[int, str, str]:
    """What comes of a text that is run with the folder of the tools as its word."""
    done = subprocess.run([sys.executable, flags, text, TOOLS], capture_output=True, text=True, check=False,
                          preexec_fn=heed_stops)
    return done.returncode, done.stdout, done.stderr


class Started(unittest.TestCase):
    def test_while_a_tool_starts(self) -> None:
        """What the tools share is loaded first, and from then on a stop is told by no traceback."""
        text = "import os, sys; sys.path.insert(0, sys.argv[1]); import inputtools; os.kill(os.getpid(), 2)"
        self.assertEqual((-signal.SIGINT, "", ""), started("-Bc", text))

    def test_what_is_loaded_before_a_stop_is_heeded(self) -> None:
        """Each module that a tool loads itself is loaded after: a stop meanwhile would print a traceback."""
        text = ("import _signal, sys; sys.path.insert(0, sys.argv[1]); hears = _signal.default_int_handler\n"
                "def tell(what, name):\n"
                "    if what == 'import' and _signal.getsignal(2) is hears: print(name[0])\n"
                "sys.addaudithook(tell); import inputtools.compare_command")
        status, loaded, errors = started("-BSc", text)
        self.assertEqual((0, ""), (status, errors))
        self.assertEqual([], [name for name in loaded.split() if not name.startswith("inputtools")])
