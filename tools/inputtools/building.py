"""Finds the built program of this repository, and builds it where it is not there: proved, without tests and edits
that must fail. Builds the library for C in the same way.

The gate (`rt ci`) proves each crate twice, with its tests and edits. For a program that runs it is enough to build
each library below inp_main once, the lowest first, and then the program; and so with the library for C. They are built
one after the other: where two runs of the toolchain are in one clone, one of them waits for the other. What is proved
is kept in the crates' `out`, so a build that was stopped goes on. What the toolchain prints goes into a log a crate,
and nothing of it to the user.
"""

import os
import re
import shutil
import signal
import subprocess
import sys
import tempfile
import time
from typing import Dict, List, Optional, TextIO

from inputtools.command import Wrong, counted, say
from inputtools.program import BUILT, REPOSITORY, is_program

PROGRAM, LIBRARY = "inp_main", "inp_c"
CRATES = os.path.join(REPOSITORY, "crates")
ARCHIVE = os.path.join(CRATES, LIBRARY, "out", f"lib{LIBRARY}.a")
GATE_COST = os.path.join(REPOSITORY, "bench", "gate_cost")
COST_PAGE = os.path.join(REPOSITORY, "bench", "COST.md")
HEADER = os.path.join(REPOSITORY, "include", "inputplay.h")
ABI = re.compile(r"^#define INPUTPLAY_ABI (\d+)$", re.MULTILINE)
LAST_LINES = 20
EVERY = 0.1

# In what the gate cost: the seconds of a crate's proofs, and what the toolchain's first library took then.
PROOFS = re.compile(r"^\| (\w+) \| (\d+) \| \d+ \| \d+ \| \d+ \|$", re.MULTILINE)
MEASURE = re.compile(r"^The toolchain's first library took ([\d.]+) seconds in the same run\.$", re.MULTILINE)
RECKONED = "some ten minutes on four processors, as is reckoned"


def needed_crates(text: str, program: str = PROGRAM) -> Dict[str, List[str]]:
    """For each crate that the program needs, itself last, those of the repository below it."""
    below: Dict[str, List[str]] = {}
    for line in text.split("\n"):
        name, colon, rest = line.partition("#")[0].partition(":")
        if colon and name.split():
            below[name.split()[0]] = rest.split()
    needed: Dict[str, List[str]] = {}
    waiting = [program]
    while waiting:
        name = waiting.pop()
        if name not in needed and name in below:
            needed[name] = [each for each in below[name] if each in below]
            waiting += needed[name]
    return dict(sorted(needed.items(), key=lambda each: each[0] == program))


def in_order(crates: Dict[str, List[str]]) -> List[str]:
    """The crates, each behind those below it."""
    order: List[str] = []
    while len(order) < len(crates):
        order.append(next(name for name, below in crates.items() if name not in order and set(below) <= set(order)))
    return order


def soname() -> str:
    """The name of the library's shared object, by the version of the interface that the header has."""
    found = ABI.search(read(HEADER))
    if found is None:
        raise Wrong(f"{HEADER} has no INPUTPLAY_ABI")
    return f"libinputplay.so.{found[1]}"


# How long it takes


def read(path: str) -> str:
    """The text of a page, empty where it is not there."""
    try:
        with open(path, encoding="utf-8") as file:
            return file.read()
    except OSError:
        return ""


def measured() -> Optional[float]:
    """What the toolchain's first library takes on this machine in seconds, by bench/gate_cost; None where it cannot be
    told."""
    if not os.access(GATE_COST, os.X_OK):
        return None
    done = subprocess.run([GATE_COST, "true"], stdin=subprocess.DEVNULL, stdout=subprocess.PIPE,
                          stderr=subprocess.DEVNULL, check=False)
    found = MEASURE.search(done.stdout.decode("utf-8", "replace"))
    return float(found[1]) if found else None


def time_text(page: str, crates: List[str], here: Optional[float]) -> str:
    """How long it takes to prove these crates here: as long as the page tells of another run, by how long the
    toolchain's first library took in both."""
    there, seconds = MEASURE.search(page), {name: int(proofs) for name, proofs in PROOFS.findall(page)}
    if here is None or not there or not float(there[1]) or not all(name in seconds for name in crates):
        return RECKONED
    minutes = sum(seconds[name] for name in crates) * here / float(there[1]) / 60
    return f"some {max(round(minutes), 1)} minutes by bench/gate_cost's measure of this machine"


# Building


class Build:
    """A build of crates, each behind those below it: how many are done, and the one that is built, each with its
    log."""

    def __init__(self, crates: List[str], teller: "Teller") -> None:
        self.crates, self.teller = crates, teller
        self.folder = tempfile.mkdtemp(prefix="inputplay-build")

    def run(self) -> None:
        """Builds all, or is refused with the end of the log of the first crate that fails."""
        try:
            for number, name in enumerate(self.crates):
                status = self.build(name, number)
                if status:
                    raise Wrong(f"{name} was not built (rt ended with {status}): {self.last_line(name)}; "
                                f"all that was said is in {self.log(name)}")
        finally:
            self.teller.end()
        shutil.rmtree(self.folder, ignore_errors=True)

    def build(self, name: str, number: int) -> int:
        """Builds a crate; the toolchain's status."""
        # (the program is run once by that, and makes a record of one frame)
        self.teller.tell(number, len(self.crates), name)
        words = ["rt", "run", "--", "--make", "1", "--count", "1"] if name == PROGRAM else ["rt", "lib"]
        with open(self.log(name), "wb") as log:
            process = subprocess.Popen(
                words, cwd=os.path.join(CRATES, name), stdin=subprocess.DEVNULL, stdout=log,
                stderr=subprocess.STDOUT, start_new_session=True,
            )
        try:
            while process.poll() is None:
                self.teller.tell(number, len(self.crates), name)
                time.sleep(EVERY)
        except BaseException:
            stop(process)
            raise
        return process.returncode

    def log(self, name: str) -> str:
        return os.path.join(self.folder, f"{name}.log")

    def last_line(self, name: str) -> str:
        with open(self.log(name), encoding="utf-8", errors="replace") as log:
            lines = [line.strip() for line in log.read().split("\n")[-LAST_LINES:]]
        return next((line for line in reversed(lines) if line), "it said nothing")[:200]


def stop(process: "subprocess.Popen[bytes]") -> None:
    """Ends a process and all that it started."""
    try:
        os.killpg(process.pid, signal.SIGTERM)
    except ProcessLookupError:
        pass
    process.wait()


class Teller:
    """Says how far a build is: on a terminal in one line that is written over, else not at all or a line a crate."""

    def __init__(self, program: str, stream: Optional[TextIO], has_lines: bool = False) -> None:
        self.program, self.stream, self.begun, self.told = program, stream, time.monotonic(), 0.0
        self.has_lines, self.named = has_lines, ""

    def tell(self, done: int, count: int, name: str) -> None:
        minutes, seconds = divmod(int(time.monotonic() - self.begun), 60)
        text = f"{self.program}: {done} of {count} crates are built, {minutes}:{seconds:02d}: {name}"
        if self.stream is not None and self.stream.isatty():
            self.write_over(text)
        elif self.has_lines and name != self.named:
            print(text, file=self.stream, flush=True)
        self.named = name

    def write_over(self, text: str) -> None:
        if time.monotonic() - self.told < 0.5:
            return
        self.told = time.monotonic()
        width = shutil.get_terminal_size().columns - 1
        print(f"\r{text[:width]}\x1b[K", end="", file=self.stream, flush=True)

    def end(self) -> None:
        if self.told:
            print("\r\x1b[K", end="", file=self.stream, flush=True)


def is_wanted(program: str, stream: Optional[TextIO]) -> bool:
    """Asks whether to build, where there is somebody to ask."""
    if sys.stdin is None or stream is None or not (sys.stdin.isatty() and stream.isatty()):
        return True
    print(f"{program}: build it now? [Y/n] ", end="", file=stream, flush=True)
    return sys.stdin.readline().strip().lower() in ("", "y", "yes")


def changed_at(name: str) -> float:
    """When a file of a crate changed last."""
    files = [os.path.join(folder, file) for part in ("src", "specs", "proofs")
             for folder, _, names in os.walk(os.path.join(CRATES, name, part)) for file in names]
    return max(map(os.path.getmtime, files), default=0.0)


def changed_crates(crates: Dict[str, List[str]], since: float) -> List[str]:
    """The crates that changed since then, those that stand on one that did, and the last one."""
    changed: List[str] = []
    for name in in_order(crates):
        if name == LIBRARY or set(crates[name]) & set(changed) or changed_at(name) > since:
            changed.append(name)
    return changed


def build_library(program: str, stream: TextIO) -> None:
    """Proves the crates of the library for C, and makes its archive; `program` is who says so."""
    needed = needed_crates(read(os.path.join(REPOSITORY, "crates.txt")), LIBRARY)
    if not needed:
        raise Wrong(f"crates.txt has no {LIBRARY}, or cannot be read")
    if os.path.isfile(ARCHIVE):
        crates, told = changed_crates(needed, os.path.getmtime(ARCHIVE)), "what changed since the last build"
    else:
        crates = in_order(needed)
        told = f"from nothing in {time_text(read(COST_PAGE), crates, measured())}; what is kept is taken"
    say(program, f"{counted(len(crates), 'crate')} to be proved and built, one after the other: {told}")
    Build(crates, Teller(program, stream, has_lines=True)).run()


def build(program: str, stream: Optional[TextIO]) -> None:
    """Builds the program, proved; `program` is who says so, to the stream."""
    if shutil.which("rt") is None:
        raise Wrong("the program is not built (crates/inp_main/out/inp_main), and there is no toolchain (rt) to build it; "
                    "bin/inputplay --unproved FILE plays without it")
    text = read(os.path.join(REPOSITORY, "crates.txt"))
    if not text:
        raise Wrong("the program is not built, and crates.txt cannot be read")
    crates = in_order(needed_crates(text))
    say(program, f"the program is not built: {len(crates)} crates are proved and built now, without tests, in "
                 f"{time_text(read(COST_PAGE), crates, measured())}; bin/inputplay --unproved FILE plays at once")
    if not is_wanted(program, stream):
        raise Wrong("the program is not built; bin/inputplay --unproved FILE plays without it")
    Build(crates, Teller(program, stream)).run()
    if not is_program(BUILT):
        raise Wrong("the toolchain said that it built the program, and crates/inp_main/out/inp_main is not there")
