"""The scripted records of tests/kernel/, and what kernels answered on each.

Beside NAME.rec stands NAME.report, what the kernels answered, as it is compared. Where one answered otherwise
there is a file NAME.VERSION.report too. A line `# ways: NAME ..` of the record says with which ways the
second program answers the same; where there is none the program does.
"""

from __future__ import annotations

from pathlib import Path
from typing import Dict, List, Sequence

from second.ways import Ways, ways_of
from checks.kernels.answers import report_of
from checks.kernels.comparable import agreed, comparable
from checks.kernels.lines import is_live
from checks.kernels.running import Case, Machines
from second.model import play

FOLDER = Path(__file__).resolve().parent.parent.parent / "tests" / "kernel"
WAYS = "# ways: "


def paths() -> List[Path]:
    return sorted(FOLDER.glob("*.rec"))


def ways_in(text: str) -> Ways:
    """The ways that a record names."""
    lines = [line[len(WAYS) :] for line in text.splitlines() if line.startswith(WAYS)]
    return ways_of(" ".join(lines).split())


def answers(machines: Machines, cases: Sequence[Case]) -> Dict[str, List[str]]:
    """What a kernel answered on each record, with our times where they agree."""
    said = machines.said(cases)
    found: Dict[str, List[str]] = {}
    for case in cases:
        ours = comparable(play(case.text, case.folder, ways=ways_in(case.text)))
        kernel = comparable(report_of(case.text, said[case.name], case.folder))
        found[case.name] = agreed(kernel, ours, is_live(case.text))
    return found


def write(machines: Machines, cases: Sequence[Case]) -> None:
    """Writes what a kernel answered beside the records: in the file of all kernels where it is the same."""
    for name, lines in answers(machines, cases).items():
        path, text = FOLDER / f"{name}.report", "".join(line + "\n" for line in lines)
        if path.is_file() and path.read_text(encoding="ascii") != text:
            path = FOLDER / f"{name}.{machines.kernel.version}.report"
        path.write_text(text, encoding="ascii")
