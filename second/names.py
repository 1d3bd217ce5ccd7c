"""The names of event types and codes, from the table that the tools read too."""

from pathlib import Path
from typing import Dict, Tuple

TABLE = Path(__file__).resolve().parent.parent / "tools" / "inputtools" / "event_codes.txt"
ROWS = [row.split() for row in TABLE.read_text(encoding="ascii").splitlines() if row and row[0] != "#"]

TYPES = {words[1]: int(words[2]) for words in ROWS if words[0] == "type"}
# The greatest code of each type that a device can have.
GREATEST = {int(words[2]): int(words[3], 0) for words in ROWS if words[0] == "type" and len(words) == 4}
CODES: Dict[int, Dict[str, int]] = {}
for _, *words in (row for row in ROWS if row[0] == "codes"):
    for number, name in enumerate(words[3:], int(words[1], 0)):
        CODES.setdefault(TYPES[words[0]], {})[words[2] + name] = number

SYN, KEY, REL, ABS, MSC, SW, LED, SND, REP = TYPES.values()

NAMES = {kind: {number: name for name, number in codes.items()} for kind, codes in CODES.items()}
KINDS = {number: name for name, number in TYPES.items()}


def kind_text(kind: int) -> str:
    return KINDS.get(kind, str(kind))


def code_text(kind: int, code: int) -> str:
    return NAMES.get(kind, {}).get(code, str(code))


def event_text(event: Tuple[int, int, int]) -> str:
    kind, code, value = event
    return f"{kind_text(kind)} {code_text(kind, code)} {value}"
