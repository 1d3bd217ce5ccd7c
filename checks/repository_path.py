"""Puts the packages of this repository on the path: its top, and those in tools/ and bindings/.

The scripts of this folder import it first: their own folder alone is on the path when they begin.
"""

import sys
from pathlib import Path

TOP = Path(__file__).resolve().parent.parent
sys.path[:0] = [str(TOP), str(TOP / "tools"), str(TOP / "bindings" / "python")]
