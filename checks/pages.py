"""Writes the part of a page that a script makes: what stands between its two marks."""

import argparse
import sys
from pathlib import Path
from typing import Callable, Iterable, Mapping, Optional, Sequence, Tuple

from checks.trial import TOP, Option, parser_of


def marks(script: str) -> Tuple[str, str]:
    """The lines before and after what a script writes."""
    return (f"<!-- what follows is written by {script} --write -->",
            f"<!-- what was written by {script} ends here -->")


def write(top: Path, page: str, script: str, rows: Iterable[str]) -> None:
    """Puts rows between the marks of a page, in place of what stood there."""
    begin, end = marks(script)
    before, has_begin, rest = (top / page).read_text().partition(begin)
    _, has_end, after = rest.partition(end)
    if not (has_begin and has_end):
        raise ValueError(f"{page} has not both marks of what is written there")
    (top / page).write_text("\n".join([before + begin, *rows, end]) + after)


# What a script makes: what it prints, and what it writes into its page.
Made = Tuple[Sequence[str], Sequence[str]]


def run(script: str, says: Optional[str], page: str, options: Mapping[str, Option],
        made: Callable[[argparse.Namespace], Made]) -> int:
    """Runs a script that makes a part of a page, and gives its status."""
    parser = parser_of(script, says,
                       {**options, "--page": (False, f"prints what it writes into {page}"),
                        "--write": (False, f"writes that into {page}"),
                        "--top": (TOP, "the folder of another repository")})
    words = parser.parse_args()
    try:
        printed, rows = made(words)
        if words.write:
            write(words.top, page, f"checks/{script}", rows)
        else:
            print("\n".join(rows if words.page else printed))
    except (OSError, KeyError, ValueError) as why:
        said = f"{why.filename} is not there" if isinstance(why, FileNotFoundError) else why.args[0]
        print(f"checks/{script}: {said}", file=sys.stderr)
        return 2
    return 0
