"""What the tests of tools/run share: they build the server and the shim, run a program on a record's devices,
and look for what it has to write."""

import atexit
import functools
import os
import re
import shutil
import subprocess
import sys
import tempfile
import unittest
from concurrent.futures import ThreadPoolExecutor
from dataclasses import dataclass
from pathlib import Path
from typing import Dict, List, Mapping, Sequence

from tests.playing import PROGRAM, TOP, FolderCase, differences, needs as needs, said

from inputtools.runbuild import NotBuilt, archive, build_run
from inputtools.running import BUILT_VARIABLE

DATA, EXAMPLES = TOP / "tests" / "data", TOP / "examples"
HERE = TOP / "tests" / "run_programs"
# A program that hangs is a failure.
SECONDS = 25
NOTHING_MORE: Mapping[str, str] = {}
CAPTURES = ("keyboard", "mouse", "touchpad", "lid")


@dataclass(frozen=True)
class Done:
    """How a run of tools/run ended, and what it and the program wrote."""

    status: int
    text: bytes
    errors: str

    def lines(self) -> List[str]:
        return self.text.decode("utf-8", "backslashreplace").splitlines()

    def count(self, pattern: str) -> int:
        return sum(bool(re.search(pattern, line)) for line in self.lines())


class Built:
    """The server and the shim, compiled anew for these tests, and the records that they play."""

    def __init__(self, folder: Path):
        self.folder = folder
        build_run(folder / "built", os.environ.get("CC", "cc"), archive())
        for name in CAPTURES:
            self.record(f"{name}.rec", DATA / f"{name}.evtest", "--identity", DATA / f"{name}.proc")

    def record(self, name: str, *words: object) -> Path:
        path, made = self.folder / name, said("tools/record", *words)
        assert made.status == 0, made.errors
        path.write_text(made.text)
        return path


def why_not() -> str:
    """Why nothing can be built, or ""."""
    compiler = os.environ.get("CC", "cc")
    if shutil.which(compiler) is None:
        return f"{compiler} is not there"
    try:
        archive()
    except NotBuilt:
        return "the library is not built (tools/build --library)"
    return ""


@functools.lru_cache(maxsize=None)
def build() -> Built:
    """Builds all that is needed, once. It goes when the tests end."""
    folder = tempfile.mkdtemp(prefix="inputplay-tests-")
    atexit.register(shutil.rmtree, folder, ignore_errors=True)
    return Built(Path(folder))


def variables(built: Built) -> Dict[str, str]:
    """The variables of a run. Where the built program is not there the tools play by the second one."""
    told = {**os.environ, BUILT_VARIABLE: str(built.folder / "built"), "PYTHONDONTWRITEBYTECODE": "1"}
    if not os.access(PROGRAM, os.X_OK):
        told.pop("INPUTPLAY", None)
    return told


def needs_module(test: unittest.TestCase, module: str, package: str) -> str:
    """A Python that has a module, which may be the system's, or the test is skipped."""
    for python in (sys.executable, "/usr/bin/python3"):
        if said(python, "-c", f"import {module}").status == 0:
            return python
    test.skipTest(f"Python's {module} is not installed (Debian: {package})")


def compiled(test: unittest.TestCase, built: Built, source: str, library: str, package: str) -> Path:
    """A program of tests/run_programs that is linked with a library, or the test is skipped."""
    needs(test, "cc", "gcc")
    libraries = said(needs(test, "pkg-config", "pkg-config"), "--cflags", "--libs", library)
    if libraries.status:
        test.skipTest(f"{library} is not installed (Debian: {package})")
    out = built.folder / Path(source).stem
    if not out.exists():
        flags = ["-O1", "-Wall", "-Wextra", "-Werror", "-o", str(out)]
        subprocess.run(["cc", *flags, str(HERE / source), *libraries.text.split()], check=True)
    return out


class RunCase(FolderCase):
    """A test that runs programs on played devices."""

    def setUp(self) -> None:
        super().setUp()
        self.built = build()
        self.records = self.built.folder

    def ran(self, words: Sequence[object], program: Sequence[object],
            more: Mapping[str, str] = NOTHING_MORE) -> Done:
        """tools/run with these words, and the program behind them. `more` are variables that it gets too."""
        command = [sys.executable, TOP / "tools" / "run", "--timeout", SECONDS, *words, "--", *program]
        done = subprocess.run([str(word) for word in command], env={**variables(self.built), **more},
                              cwd=self.built.folder, stdin=subprocess.DEVNULL, capture_output=True,
                              timeout=2 * SECONDS, check=False)
        return Done(done.returncode, done.stdout, done.stderr.decode("utf-8", "replace"))

    def says(self, done: Done, pattern: str, count: int) -> None:
        """A pattern stands in so many lines of what the program wrote."""
        came = done.count(pattern)
        self.assertEqual(count, came, f"lines with {pattern}:\n{self.shown(done)}")

    def shown(self, done: Done) -> str:
        """The begin of what was written, and what was said on standard error."""
        lines = done.lines()
        more = [f".. {len(lines) - 40} lines more"] if len(lines) > 40 else []
        return "\n".join([f"status {done.status}", *lines[:40], *more, "stderr:", done.errors[-2000:]])

    def twice(self, words: Sequence[object], program: Sequence[object], but: bytes = b"",
              more: Mapping[str, str] = NOTHING_MORE) -> Done:
        """Runs a program twice by frames. Both runs write the same, but for what has the pattern `but`."""
        with ThreadPoolExecutor(2) as pool:
            first, second = pool.map(lambda _: self.ran(words, program, more), range(2))
        texts = [re.sub(but, b"", done.text) if but else done.text for done in (first, second)]
        if texts[0] != texts[1] or first.status != second.status:
            statuses = f"statuses {first.status} {second.status}"
            self.fail(f"two runs differ, {statuses}:\n{differences(*texts)}{first.errors[-1000:]}")
        return first


def sent(record: Path, pattern: str = "") -> int:
    """How many events with a pattern a record's source sends behind its start."""
    text = record.read_text().partition("# The capture.\n")[2]
    return sum(" event " in line and bool(re.search(pattern, line)) for line in text.splitlines())
