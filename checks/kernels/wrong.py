"""Wrong versions of the second program, each of which has to leave a random record unexplained.

As a program of its own it says of a folder of answers which is the first record that is not explained:
`python3 -m checks.kernels.wrong FOLDER WAY ..`."""

from __future__ import annotations

import json
import shutil
import subprocess
import sys
import tempfile
from concurrent.futures import ThreadPoolExecutor
from dataclasses import dataclass
from pathlib import Path
from typing import Dict, List, Optional, Tuple

from inputtools.command import Wrong
from second.ways import Ways, ways_of
from checks.kernels.answers import report_of
from checks.kernels.comparable import comparable
from checks.kernels.judging import is_explained
from checks.kernels.records import random_record
from checks.kernels.running import Case, Machines

TOP = Path(__file__).resolve().parent.parent.parent
RECORDS, SEED = 300, 41
NONE = "none"
COPIED = ("second", "checks", "tools")


@dataclass(frozen=True)
class Version:
    """One text that is put for another one in a file of second/, where it stands once."""

    name: str
    file: str
    old: str
    new: str


IN_DEVICE: Tuple[Tuple[str, str, str], ...] = (
    ("an autorepeat changes whether a key is down", "passes = value == 2 or self.turn", "passes = self.turn"),
    ("a ring holds one event more", "len(self.queue) == self.places - 1:", "len(self.queue) == self.places:"),
    ("a report may follow a report", "(not self.queue or is_report(self.queue[-1][0])):", "not self.queue:"),
    ("all that is queued is visible", "if is_report(item[0])), default=0)", "), default=0)"),
    ("a query takes the first report away", "kept, alone = [], False", "kept, alone = [], True"),
    ("the same clock loses what is queued", "if client.clock != clock:", "if clock:"),
    ("types are not masked", "return (SYN, kind) not in self.clear_bits and (kind", "return (kind"),
    ("a slot is announced each time", "self.announced = self.staged", "self.announced = -1"),
    ("keys are released from the highest on", "in sorted(self.on[KEY])]", "in sorted(self.on[KEY])[::-1]]"),
    ("a batch has one event more", "len(self.batch) >= self.caps.hint", "len(self.batch) > self.caps.hint"),
    ("a description sets the value to 0", "self.axes[code] = info, info[0]", "self.axes[code] = info, 0"),
    ("a grab works upside down", "client.revoked or self.holder not in", "client.revoked or self.holder in"),
    ("MSC is not sent to the owner", "event[0] in (LED, SND, MSC, REP)", "event[0] in (LED, SND, REP)"),
)
IN_READER: Tuple[Tuple[str, str, str], ...] = (
    ("a synchronisation keeps what was read", "self.queue, self.synthesised, self.phase = [], [], ",
     "self.synthesised, self.phase = [], "),
)
VERSIONS = [Version(name, "device.py", old, new) for name, old, new in IN_DEVICE]
VERSIONS += [Version(name, "reader.py", old, new) for name, old, new in IN_READER]


def first_unexplained(folder: Path, ways: Ways) -> Optional[int]:
    """The number of the first record that is not explained by this second program."""
    answers: List[Dict[str, List[str]]] = json.loads((folder / "answers.json").read_text())
    for number, answer in enumerate(answers):
        if not is_explained(answer["kernel"], "\n".join(answer["record"]), ".", ways):
            return number
    return None


def tree_of(version: Version, folder: Path) -> None:
    """A copy of the repository with this version."""
    for name in COPIED:
        shutil.copytree(TOP / name, folder / name, ignore=shutil.ignore_patterns("__pycache__", "wrong"))
    path = folder / "second" / version.file
    text = path.read_text()
    if text.count(version.old) != 1:
        raise Wrong(f"the text of {version.name!r} stands {text.count(version.old)} times in {version.file}")
    path.write_text(text.replace(version.old, version.new))


def tried(version: Version, answers: Path, ways: Ways) -> Optional[int]:
    with tempfile.TemporaryDirectory(prefix="inputplay-wrong") as name:
        tree_of(version, Path(name))
        path = [name, str(Path(name) / "tools")]
        words = [sys.executable, "-B", "-m", "checks.kernels.wrong", str(answers), *ways.on()]
        done = subprocess.run(words, cwd=name, env={"PYTHONPATH": ":".join(path)}, stdout=subprocess.PIPE,
                              stderr=subprocess.DEVNULL, text=True, check=False)
        if done.returncode:
            raise Wrong(f"the second program in which {version.name} does not run")
        return None if done.stdout == NONE else int(done.stdout)


def try_all(machines: Machines) -> bool:
    """Tells of each version by which record it is told, and whether all are."""
    records = [random_record(SEED, number)[1] for number in range(RECORDS)]
    said = machines.said([Case(str(number), text) for number, text in enumerate(records)])
    kernel = [comparable(report_of(text, said[str(number)])) for number, text in enumerate(records)]
    answers = [{"record": text.splitlines(), "kernel": lines} for text, lines in zip(records, kernel)]
    with tempfile.TemporaryDirectory(prefix="inputplay-answers") as name:
        (Path(name) / "answers.json").write_text(json.dumps(answers))
        with ThreadPoolExecutor(machines.jobs) as pool:
            found = list(pool.map(lambda each: tried(each, Path(name), machines.ways), VERSIONS))
    for version, number in zip(VERSIONS, found):
        print(f"{version.name}: " + (f"record {number} tells it" if number is not None else "NOT TOLD"))
    return None not in found


if __name__ == "__main__":
    told = first_unexplained(Path(sys.argv[1]), ways_of(sys.argv[2:]))
    print(NONE if told is None else told, end="")
