"""The checks of this repository: `tests/run`, or `python3 -m unittest` from its top."""

import sys
from pathlib import Path

TOP = Path(__file__).resolve().parent.parent
sys.path[:0] = [str(TOP), str(TOP / "tools"), str(TOP / "checks")]
