"""What `tests/run library` last passed over: the sums of all sources that it depends on, and its counts.

The gate builds no archive, so it cannot run these checks itself. It compares the sums, and fails where a source has changed
since. The code of the crates is summed; proofs and definitions make no code.
"""

import hashlib
import json
from pathlib import Path
from typing import Dict, Iterator, List, Set

TOP = Path(__file__).resolve().parents[2]
STAMP = Path(__file__).with_name("passed.json")
LIBRARY = "inp_c"
ENDS = (".c", ".h", ".py", ".rs", ".toml", ".txt")


def crates_below(top: Path, name: str) -> List[str]:
    """A crate and the crates of the repository that it stands on, by name."""
    rows: Dict[str, List[str]] = {}
    for line in (top / "crates.txt").read_text(encoding="utf-8").splitlines():
        front, colon, rest = line.partition("#")[0].partition(":")
        if colon:
            rows[front.split()[0]] = rest.split()
    found: Set[str] = set()
    waiting = [name]
    while waiting:
        crate = waiting.pop()
        if crate in rows and crate not in found:
            found.add(crate)
            waiting += rows[crate]
    return sorted(found)


def files_of(top: Path) -> Iterator[Path]:
    """The sources: of the crates, the header, the packages, and of the checks themselves."""
    for crate in crates_below(top, LIBRARY):
        yield from sorted((top / "crates" / crate / "src").rglob("*.rt"))
    yield top / "include" / "inputplay.h"
    for folder in ("bindings", "examples/c", "tests/library"):
        yield from sorted(path for path in (top / folder).rglob("*") if path.suffix in ENDS and "target" not in path.parts)
    yield top / "tests" / "test_library.py"


def sums(top: Path = TOP) -> Dict[str, str]:
    """The sum of each part: a crate, or the first folder of a path."""
    totals: Dict[str, "hashlib._Hash"] = {}
    for path in files_of(top):
        parts = path.relative_to(top).parts
        name = "/".join(parts[:2]) if parts[0] == "crates" else parts[0]
        total = totals.setdefault(name, hashlib.sha256())
        total.update(f"{'/'.join(parts)}\n".encode() + path.read_bytes())
    return {name: total.hexdigest() for name, total in sorted(totals.items())}


def write(passed: int, told: str, top: Path = TOP, stamp: Path = STAMP) -> None:
    """Keeps that all checks passed over the sources as they are: how many, and what was left out."""
    kept = {"passed": passed, "left out": told, "sums": sums(top)}
    stamp.write_text(json.dumps(kept, indent=1) + "\n", encoding="utf-8")


def changed(top: Path = TOP, stamp: Path = STAMP) -> List[str]:
    """The parts that have changed since the checks passed."""
    kept: Dict[str, str] = json.loads(stamp.read_text(encoding="utf-8"))["sums"] if stamp.is_file() else {}
    now = sums(top)
    return sorted(name for name in {*kept, *now} if kept.get(name) != now.get(name))
