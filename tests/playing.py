"""How the checks of this folder run the built program, and tell where something else came than was wanted."""

import difflib
import importlib.util
import os
import shutil
import subprocess
import sys
import tempfile
import unittest
from importlib.machinery import SourceFileLoader
from pathlib import Path
from types import ModuleType
from typing import Any, Iterable, List, NamedTuple, Optional, Union

from tests import TOP as TOP

RECORDS = TOP / "tests" / "records"
EXAMPLES = TOP / "examples"
PROGRAM = os.environ.get("INPUTPLAY") or str(TOP / "crates" / "inp_main" / "out" / "inp_main")

USAGE = (b"usage: inputplay [--threads] [--history] [--idle N] FILE, or inputplay --migrate FILE, "
         b"or inputplay --make NUMBER [--count COUNT]\n")

# No run takes longer than a part of a second; one that hangs is a failure.
SECONDS = 30


def loaded(script: Path) -> ModuleType:
    """A script as a module."""
    loader = SourceFileLoader(f"script_{script.name}", str(script))
    spec = importlib.util.spec_from_loader(loader.name, loader)
    assert spec is not None
    module = importlib.util.module_from_spec(spec)
    sys.modules[loader.name] = module
    loader.exec_module(module)
    return module


class FolderCase(unittest.TestCase):
    """A test that has a folder of its own, `self.folder`, which goes with it."""

    def setUp(self) -> None:
        folder = tempfile.TemporaryDirectory()
        self.addCleanup(folder.cleanup)
        self.folder = Path(folder.name)

    def write(self, name: str, content: Union[str, bytes], mode: int = 0o644) -> Path:
        path = self.folder / name
        path.parent.mkdir(parents=True, exist_ok=True)
        path.write_bytes(content if isinstance(content, bytes) else content.encode())
        path.chmod(mode)
        return path


class Said(NamedTuple):
    status: int
    text: str
    errors: str


def said(script: Union[str, Path], *words: object, **more: Any) -> Said:
    """Runs a script, which may be named by its path from the top, or a program by its name."""
    more = {"timeout": 60, **more}
    command: List[str] = [str(TOP / script if "/" in str(script) else script), *map(str, words)]
    done = subprocess.run(command, capture_output=True, text=True, check=False, **more)
    return Said(done.returncode, done.stdout, done.stderr)


def needs_program(test: Optional[unittest.TestCase] = None) -> None:
    """Leaves out a test that needs the program where it is not there."""
    if not os.access(PROGRAM, os.X_OK):
        raise unittest.SkipTest("the program is not there")


def needs(test: unittest.TestCase, program: str, package: str) -> str:
    """The path of a program, or the test is skipped by its name. One of libinput's own stands in a folder of
    its own."""
    paths = (program, f"/usr/libexec/libinput/{program}", f"/usr/sbin/{program}")
    found = next(filter(None, map(shutil.which, paths)), None)
    if not found:
        test.skipTest(f"{program} is not installed (Debian: {package})")
    return str(found)


class Run(NamedTuple):
    """What a run of the program came to."""

    status: int
    text: bytes
    errors: bytes


def run(words: Iterable[object], folder: Path, **more: Any) -> Run:
    """Runs the program with these words in a folder. Its text is read, unless `stdout` says where it goes."""
    needs_program()
    more = {"stdout": subprocess.PIPE, **more}
    done = subprocess.run([PROGRAM, *map(str, words)], cwd=folder, stdin=subprocess.DEVNULL,
                          stderr=subprocess.PIPE, timeout=SECONDS, **more)
    return Run(done.returncode, done.stdout or b"", done.stderr)


def lines_of(text: bytes) -> List[str]:
    return text.decode("utf-8", "backslashreplace").splitlines(keepends=True)


def differences(wanted: bytes, came: bytes) -> str:
    """The lines in which what came differs from what was wanted, the first 60 of them."""
    lines = list(difflib.unified_diff(lines_of(wanted), lines_of(came), "wanted", "came", n=2))
    shown = [line if line.endswith("\n") else line + "\n\\ no line feed\n" for line in lines[:60]]
    return "".join(shown) + ("..\n" if len(lines) > 60 else "")


def assert_run(test: unittest.TestCase, came: Run, status: int, text: bytes) -> None:
    """The program ended with this status, wrote this text, and wrote nothing to its standard error."""
    if came.status != status or came.text != text:
        test.fail(f"status {status} was wanted, and {came.status} came\n{differences(text, came.text)}")
    test.assertEqual(b"", came.errors, "nothing was wanted on standard error")
