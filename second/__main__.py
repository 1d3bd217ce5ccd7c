"""Plays a record as `inputplay FILE` does: `python3 -m second [--history] FILE`, or `python3 FOLDER/second ..`.

It writes the report, or why there is none, and ends with the same status. It takes any bytes for a record. The files
of streams are looked for in the present folder, as the program does.
"""

import sys
from pathlib import Path

if not __package__:
    # (run as a folder: the path begins with the folder itself, in which no package is)
    sys.path[0] = str(Path(__file__).resolve().parent.parent)

from second.outcome import outcome

if __name__ == "__main__":
    status, text = outcome(sys.argv[-1], "--history" in sys.argv[1:-1], ".")
    sys.stdout.buffer.write(text)
    sys.exit(status)
