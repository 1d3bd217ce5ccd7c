"""Runs the built program with one of its calls of the C library failing, by checks/failing.c."""

import argparse
import os
import subprocess
import tempfile
from pathlib import Path
from typing import Any, Callable, Iterator, List, Mapping, Optional, Sequence, Tuple

from checks.trial import PROGRAM, RECORDS, TOP, Option, Run, parser_of, program_of, run_once

WORD: Mapping[str, Option] = {"--word": ([], "a word before the file, as --word=--history")}
# A run is killed after so many seconds.
SECONDS = 10


def records_of(parser: argparse.ArgumentParser, names: Sequence[str], usual: Sequence[str]) -> List[Path]:
    """The paths of the records that are named, or of the usual ones, or the parser ends the script."""
    paths = [Path(name) for name in names] or [TOP / name for name in usual]
    records = [path.resolve() for path in paths]
    for record in records:
        if not record.is_file():
            parser.error(f"the record {record} is not there")
    return records


class Failing:
    """Runs a program with one of its calls failing. It builds failing.c in a folder."""

    def __init__(self, parser: argparse.ArgumentParser, program: str, folder: str,
                 piece: Optional[int] = None) -> None:
        self.program, self.library, self.tell = program, Path(folder) / "failing.so", Path(folder) / "told"
        self.piece = {"FAILING_PIECE": str(piece)} if piece else {}
        source = TOP / "checks" / "failing.c"
        command = [os.environ.get("CC", "cc"), "-shared", "-fPIC", "-O2", "-o"]
        try:
            subprocess.run([*command, self.library, source], check=True, capture_output=True, text=True)
        except OSError as error:
            parser.error(f"there is no C compiler: {command[0]}: {error.strerror}")
        except subprocess.CalledProcessError as error:
            parser.error(f"{source} does not compile: {error.stderr}")
        if not is_linked_dynamically(program):
            parser.error(f"{program} is not linked dynamically, so no call of its can be made to fail")

    def run(self, kind: str, at: int, how: str, words: Sequence[str], folder: Path,
            **more: Any) -> Tuple[Run, List[str]]:
        """A run in which the call fails, and the words that tell of it; none where there were fewer calls."""
        with open(self.tell, "w+b") as tell:
            failing = {"FAILING": kind, "FAILING_AT": str(at), "FAILING_HOW": how,
                       "FAILING_TELL": str(tell.fileno())}
            env = {**os.environ, **self.piece, **failing, "LD_PRELOAD": str(self.library)}
            run = run_once(self.program, words, folder, SECONDS, env=env, pass_fds=(tell.fileno(),), **more)
            tell.seek(0)
            return run, tell.read().decode("utf-8", "backslashreplace").rstrip("\n").split(maxsplit=2)


def is_linked_dynamically(program: str) -> bool:
    """Whether an ELF file names a loader. Of a script this is not looked at."""
    with open(program, "rb") as file:
        head = file.read(4096)
    if head.startswith(b"#!"):
        return True
    entry, count = int.from_bytes(head[32:40], "little"), int.from_bytes(head[56:58], "little")
    kinds = (head[at : at + 4] for at in range(entry, entry + 56 * count, 56))
    return head.startswith(b"\x7fELF\x02\x01") and (3).to_bytes(4, "little") in kinds


# Makes all runs of a record, and gives of each whether it is right.
Tries = Callable[[Failing, Path, argparse.Namespace], Iterator[bool]]


def run_all(script: str, says: Optional[str], options: Mapping[str, Option], usual: Sequence[str],
            tries: Tries, by_history: bool = False) -> int:
    """Runs a script that has calls fail, and gives its status. Where no call could fail, nothing was shown.
    Runs on threads may be judged by their history."""
    parser = parser_of(script, says, {**PROGRAM, **WORD, **options, **RECORDS})
    words = parser.parse_args()
    if by_history and "--threads" in words.word and "--history" not in words.word:
        parser.error("runs with --threads are checked by their history, so --word=--history is wanted too")
    program, records = program_of(parser, words), records_of(parser, words.record, usual)
    with tempfile.TemporaryDirectory(prefix=script) as folder:
        failing = Failing(parser, program, folder, vars(words).get("piece"))
        runs = [is_right for record in records for is_right in tries(failing, record, words)]
    wrongs = runs.count(False)
    ends = f"{wrongs} that end otherwise" if wrongs else "none that ends otherwise"
    print(f"{len(runs)} runs of {len(records)} records, {ends}" if runs else "no call could be made to fail")
    return 1 if wrongs or not runs else 0
