"""What the lines of the proofs are: how much they say, how wide they are, and how their equations are used.

A congruence is written out where `ap` or `subst` is given a function of its own, `(λ ..)`. `rw` finds the place by itself.
"""

import re
from pathlib import Path
from typing import Iterable, Iterator, List

# No line of a proof is wider, but one that is a single word.
WIDEST = 110

IMPORT = re.compile(r"(?:pub )?(?:use|mod|open) ")
WORD = r"(?<![\w-]){}(?![\w-])"
WRITTEN_OUT = re.compile(WORD.format("(?:ap|subst)") + r"\s+\(λ")
REWRITE = re.compile(WORD.format("rw"))


class ProofLines:
    """The counts over files of proofs. Lines are those that are no import, no comment and not blank."""

    def __init__(self, paths: Iterable[Path]) -> None:
        self.lines = self.characters = self.written_out = self.rewrites = 0
        self.wide: List[str] = []
        for path in paths:
            for number, line in enumerate(path.read_text().splitlines(), 1):
                if len(line) > WIDEST and " " in line.strip():
                    self.wide.append(f"{path}:{number}")
            lines = list(said(path.read_text()))
            text = "\n".join(lines)
            self.lines += len(lines)
            self.characters += len("".join(text.split()))
            self.written_out += len(WRITTEN_OUT.findall(text))
            self.rewrites += len(REWRITE.findall(text))

    @property
    def rewrites_in_a_thousand(self) -> float:
        """How many times `rw` stands in a thousand lines."""
        return 1000 * self.rewrites / max(self.lines, 1)


def said(text: str) -> Iterator[str]:
    """The lines of a file that are no import, no comment and not blank."""
    in_import = False
    for line in map(str.strip, text.splitlines()):
        if in_import or IMPORT.match(line):
            in_import = line.count("{") > line.count("}") or (in_import and "}" not in line)
        elif line and not line.startswith("--"):
            yield line


def of(top: Path) -> ProofLines:
    """The counts over all proofs of a repository."""
    return ProofLines(sorted(top.glob("crates/*/proofs/**/*.antt")))
