"""Plays records on kernels, a boot for each part of them, and counts what came of them."""

from __future__ import annotations

import os
import signal
import tempfile
import threading
from collections import Counter
from concurrent.futures import ProcessPoolExecutor, ThreadPoolExecutor
from dataclasses import dataclass, field
from pathlib import Path
from typing import Counter as Counts
from typing import Dict, Iterable, List, Optional, Sequence, Tuple

from inputtools.program import BuiltProgram, find_player
from inputtools.progress import progress
from inputtools.shrinking import frames_of, text_of
from second.record_text import Refused, streams_of_text
from second.ways import Ways
from checks.kernels.answers import NotPlayed, parts_of, report_of
from checks.kernels.comparable import comparable
from checks.kernels.judging import UNEXPLAINED, Verdict, is_explained, judge, why_not
from checks.kernels.lines import lines_of
from checks.kernels.machine import Kernel, play, stopped_at_fault

MOST_IN_A_BOOT = 250
# Of so many front parts of a record the shortest one is taken that is not explained.
FRONTS = 40


@dataclass(frozen=True)
class Case:
    """A record. The files of its streams are in the folder."""

    name: str
    text: str
    folder: str = "."


@dataclass(frozen=True)
class Machines:
    """What plays records: a kernel, the player in its machine, all their ways, and how many at a time."""

    kernel: Kernel
    player: Path
    ways: Ways
    jobs: int

    def said(self, cases: Sequence[Case]) -> Dict[str, List[str]]:
        """What was said of each record, by its name."""
        size = max(1, min(MOST_IN_A_BOOT, -(-len(cases) // self.jobs)))
        parts = [cases[at : at + size] for at in range(0, len(cases), size)]
        told = Told(self.kernel.version, len(cases))

        def boot(number: int) -> str:
            lines = [line for case in parts[number] for line in lines_of(case.name, case.text, case.folder)]
            return play(self.kernel, self.player, lines, lambda count: told.tell(number, count))

        with ThreadPoolExecutor(self.jobs) as pool, stopped_at_fault():
            texts = list(pool.map(boot, range(len(parts))))
        return {name: lines for text in texts for name, lines in parts_of(text)}

    def verdicts(self, cases: Sequence[Case]) -> List[Verdict]:
        said = self.said(cases)
        progress.tell(f"what {self.kernel.version} answered is sorted")
        work = [(case, said.get(case.name, []), self.ways) for case in cases]
        with ProcessPoolExecutor(self.jobs, initializer=ignore_stops) as pool:
            return list(pool.map(judged, work, chunksize=8))


def ignore_stops() -> None:
    """For a process of a pool, which its parent ends."""
    signal.signal(signal.SIGINT, signal.SIG_IGN)


class Told:
    """How many records the machines of one kernel have played."""

    def __init__(self, version: str, total: int) -> None:
        self.version, self.total = version, total
        self.counts: Counts[int] = Counter()
        self.lock = threading.Lock()

    def tell(self, machine: int, count: int) -> None:
        with self.lock:
            self.counts[machine] = count
            progress.tell(f"kernel {self.version} plays", sum(self.counts.values()), self.total)


def judged(work: Tuple[Case, List[str], Ways]) -> Verdict:
    case, said, ways = work
    return judge(case.name, case.text, said, ways, case.folder, program_report(case))


def program_report(case: Case) -> Optional[List[str]]:
    """The report of the built program, or None where the second one is what plays."""
    player = find_player()
    if not isinstance(player, BuiltProgram):
        return None
    with tempfile.NamedTemporaryFile("w", suffix=".rec") as file:
        file.write(case.text)
        file.flush()
        return player.play(file.name, os.path.abspath(case.folder)).text.splitlines()


@dataclass
class Tally:
    """What came of records on one kernel."""

    kinds: Counts[str] = field(default_factory=Counter)
    ways: Counts[str] = field(default_factory=Counter)
    left_out: Counts[str] = field(default_factory=Counter)
    unexplained: List[Verdict] = field(default_factory=list)

    def add(self, verdict: Verdict) -> None:
        self.kinds[verdict.kind] += 1
        self.ways.update(verdict.ways)
        if verdict.kind == UNEXPLAINED:
            self.unexplained.append(verdict)

    def lines(self) -> List[str]:
        lines = [f"  {count} {kind}" for kind, count in sorted(self.kinds.items())]
        lines += [f"  {count} left out: {why}" for why, count in sorted(self.left_out.items())]
        return lines + [f"    {count} with {way}" for way, count in self.ways.most_common()]


def tally_of(machines: Machines, cases: Sequence[Case]) -> Tally:
    tally = Tally()
    whys = {case.name: why_not(case.text) for case in cases}
    tally.left_out.update(why for why in whys.values() if why)
    for verdict in machines.verdicts([case for case in cases if not whys[case.name]]):
        tally.add(verdict)
    return tally


# The smallest record


def is_record(text: str) -> bool:
    try:
        return bool(text) and not streams_of_text(text.encode("latin-1"))
    except Refused:
        return False


def is_kept(work: Tuple[Case, List[str], Ways]) -> bool:
    """Whether what was said of a record is not explained."""
    case, said, ways = work
    try:
        return not is_explained(comparable(report_of(case.text, said)), case.text, ".", ways)
    except NotPlayed:
        return True


def kept(machines: Machines, texts: Sequence[str]) -> List[bool]:
    """Which of the records are not explained still. All are played in one boot."""
    played = [is_record(text) and not why_not(text) for text in texts]
    cases = [Case(str(number), text) for number, text in enumerate(texts) if played[number]]
    said = machines.said(cases) if cases else {}
    work = [(case, said.get(case.name, []), machines.ways) for case in cases]
    with ProcessPoolExecutor(machines.jobs, initializer=ignore_stops) as pool:
        flags = dict(zip((case.name for case in cases), pool.map(is_kept, work)))
    return [flags.get(str(number), False) for number in range(len(texts))]


def without_chunks(machines: Machines, parts: List[List[str]], size: int) -> List[List[str]]:
    """The parts without as many chunks of a size as can be left out together."""
    starts = range(0, len(parts), size)

    def without(left_out: Sequence[int]) -> List[List[str]]:
        return [part for at, part in enumerate(parts) if at - at % size not in left_out]

    flags = kept(machines, [text_of(without([at])) for at in starts])
    removable = [at for at, flag in zip(starts, flags) if flag]
    while removable and not kept(machines, [text_of(without(removable))])[0]:
        removable = removable[: len(removable) // 2]
    return without(removable)


def front(machines: Machines, lines: List[str]) -> List[str]:
    """The shortest of some front parts that is not explained."""
    ends = sorted({-(-len(lines) * part // FRONTS) for part in range(1, FRONTS + 1)})
    flags = kept(machines, [text_of([lines[:end]]) for end in ends])
    return lines[: min((end for end, flag in zip(ends, flags) if flag), default=len(lines))]


def smallest(machines: Machines, text: str) -> str:
    """A record that is not explained either, of which no frame and then no line can be left out alone."""
    lines = front(machines, text.splitlines())
    for parts_of in (frames_of, lines_alone):
        parts = list(parts_of(lines))
        size, count = -(-len(parts) // 2), 0
        while size and count != len(parts):
            count = len(parts) if size == 1 else 0
            progress.tell(f"{len(parts)} parts are left of a record")
            parts = without_chunks(machines, parts, size)
            size = max(1, size // 2)
        lines = [line for part in parts for line in part]
    return text_of([lines])


def lines_alone(lines: Iterable[str]) -> List[List[str]]:
    return [[line] for line in lines]
