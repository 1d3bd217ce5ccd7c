"""What checks/kernel does."""

from __future__ import annotations

import argparse
import os
import sys
import time
from pathlib import Path
from typing import Any, Dict, Iterator, List

from inputtools.command import Words, Wrong, counted, ends
from inputtools.program import find_player
from inputtools.progress import progress
from second.record_text import Refused, streams_of_text
from checks.kernels import scripts, wrong
from checks.kernels.judging import ways_of_peers
from checks.kernels.machine import PACKAGES, built_player, cache_folder, check_programs, kernel_of, library_of
from checks.kernels.records import random_record
from checks.kernels.running import Case, Machines, smallest, tally_of
from checks.trial import positive

RECORDS = 1000
SWITCH: Dict[str, Any] = {"action": "store_true"}
KERNEL = (f"a version ({' or '.join(PACKAGES)}), a package's name, its file, or a folder of a kernel's "
          "packages; both versions else")
# So many records that are not explained are told, with the smallest one of each.
MOST_TOLD = 3


def words_of(program: str, text: str) -> argparse.ArgumentParser:
    words = Words(prog=program, description=text)
    number: Dict[str, Any] = {"metavar": "N", "type": positive}
    folder: Dict[str, Any] = {"metavar": "FOLDER", "type": Path}
    file: Dict[str, Any] = {"metavar": "FILE", "type": Path}
    words.add_argument("record", metavar="RECORD", nargs="*", type=Path, help="play these records")
    for option, told, more in (
        ("--kernel", KERNEL, {"metavar": "NAME", "action": "append"}),
        ("--libevdev", "a package of libevdev-dev; the one that is installed else", file),
        ("--records", "play so many random records", number),
        ("--seed", "the number that these are made of (1)", {"metavar": "S", "type": int, "default": 1}),
        ("--scripts", "play the records of tests/kernel/", SWITCH),
        ("--write", "write beside these what each kernel answered", SWITCH),
        ("--wrong", f"try wrong versions of the second program on {wrong.RECORDS} random records", SWITCH),
        ("--jobs", "so many machines at a time (%(default)s)", {**number, "default": os.cpu_count() or 1}),
        ("--cache", "where kernels are kept (%(default)s)", {**folder, "default": cache_folder()}),
        ("--keep", "where the smallest records are kept that are not explained; in the cache else", folder),
    ):
        names = ["-j", option] if option == "--jobs" else [option]
        words.add_argument(*names, help=told, **more)
    return words


def case_of(path: Path) -> Case:
    try:
        data = path.read_bytes()
        streams_of_text(data)
    except OSError as fault:
        raise Wrong(f"{path}: {fault.strerror}") from None
    except Refused as refused:
        raise Wrong(f"{path}: {refused}") from None
    return Case(path.stem, data.decode("latin-1"), str(path.parent))


def cases_of(asked: argparse.Namespace) -> Iterator[Case]:
    is_default = not (asked.record or asked.records or asked.scripts or asked.write)
    yield from (case_of(path) for path in asked.record)
    if asked.scripts or asked.write or is_default:
        yield from (case_of(path) for path in scripts.paths())
    for number in range(asked.records or (RECORDS if is_default else 0)):
        family, text = random_record(asked.seed, number)
        yield Case(f"{asked.seed}-{number}-{family}", text)


def keep_smallest(machines: Machines, case: Case, folder: Path) -> Path:
    folder.mkdir(parents=True, exist_ok=True)
    path = folder / f"{case.name}-{machines.kernel.version}.rec"
    path.write_text(case.text, encoding="latin-1")
    path.write_text(smallest(machines, case.text), encoding="latin-1")
    return path


def play_on(machines: Machines, cases: List[Case], keep: Path) -> bool:
    """Tells what came of the records on one kernel, and whether all is explained."""
    begun = time.monotonic()
    tally = tally_of(machines, cases)
    progress.clear()
    print(f"  {counted(len(cases), 'record')} in {time.monotonic() - begun:.0f} s")
    print("\n".join(tally.lines()), flush=True)
    texts = {case.name: case for case in cases}
    for number, verdict in enumerate(tally.unexplained):
        print(verdict.told())
        if number < MOST_TOLD:
            print("\n".join(verdict.lines))
            print(f"the smallest record: {keep_smallest(machines, texts[verdict.name], keep)}", flush=True)
    return not tally.unexplained


def run(program: str, text: str) -> int:
    asked = words_of(program, text).parse_args()
    if asked.record and not all(path.suffix == ".rec" for path in asked.record):
        raise Wrong("a RECORD is a file NAME.rec")
    cases = [] if asked.wrong else list(cases_of(asked))
    if len({case.name for case in cases}) < len(cases):
        raise Wrong("two records have one name")
    check_programs()
    told, is_right = find_player().told(), True
    library = library_of(asked.libevdev, asked.cache)
    for name in asked.kernel or PACKAGES:
        progress.tell(f"the kernel {name} is fetched and unpacked")
        kernel = kernel_of(name, asked.cache)
        ways = ways_of_peers(kernel.version, library.told)
        machines = Machines(kernel, built_player(asked.cache, library), ways, asked.jobs)
        print(f"kernel {kernel.version} ({kernel.package()}), {library.told}; {told}", flush=True)
        if asked.wrong:
            is_right &= wrong.try_all(machines)
        elif asked.write:
            scripts.write(machines, cases)
        else:
            is_right &= play_on(machines, cases, asked.keep or asked.cache / "unexplained")
    return 0 if is_right else 1


def main(program: str, text: str) -> None:
    sys.dont_write_bytecode = True
    ends(program, lambda: run(program, text))
