"""How the scripts of this folder read their options, find the built program, and run it once."""

import argparse
import os
import signal
import subprocess
from pathlib import Path
from typing import Any, Dict, Mapping, NamedTuple, Optional, Sequence, Tuple, Union

TOP = Path(__file__).resolve().parent.parent
BUILT = TOP / "crates" / "inp_main" / "out" / "inp_main"

# An option: what it is where it is not given, or its type, or the texts that it may be; and its help.
Option = Tuple[Any, str]
PROGRAM: Mapping[str, Option] = {"--program": (BUILT, "another program than crates/inp_main/out/inp_main")}
RECORDS: Mapping[str, Option] = {"RECORD": ([], "the records to play")}


class Run(NamedTuple):
    """What a run of the program came to. A status below 0 is that of a signal."""

    status: Optional[int]
    text: bytes
    errors: bytes

    def told(self) -> str:
        """The status, or what else ended the run."""
        if self.status is None:
            return "no end"
        return f"status {self.status}" if self.status >= 0 else signal.Signals(-self.status).name


def positive(text: str) -> int:
    number = int(text)
    if number < 1:
        raise argparse.ArgumentTypeError(f"{text} is not 1 or more")
    return number


def add_option(parser: argparse.ArgumentParser, name: str, usual: Any, told: str) -> None:
    more: Dict[str, Any] = {"default": usual, "help": told}
    if isinstance(usual, type):
        more.update(type=positive if usual is int else usual, default=None)
    elif isinstance(usual, Path):
        more["type"] = Path
    elif isinstance(usual, tuple):
        more.update(choices=usual, default=usual[0])
    elif usual is False:
        more["action"] = "store_true"
    elif isinstance(usual, int):
        more.update(type=int if name == "--seed" else positive, help=f"{told} ({usual})")
    elif usual == [] and name.startswith("-"):
        more["action"] = "append"
    if not name.startswith("-"):
        more.update(nargs="*" if usual == [] else "?", metavar=name)
        name = name.lower()
    parser.add_argument(name, **more)


def parser_of(script: str, says: Optional[str], options: Mapping[str, Option]) -> argparse.ArgumentParser:
    """A script's parser. An option in capitals is a word without a name."""
    parser = argparse.ArgumentParser(prog=f"checks/{script}", description=says,
                                     formatter_class=argparse.RawDescriptionHelpFormatter)
    for name, (usual, told) in options.items():
        add_option(parser, name, usual, told)
    return parser


def program_of(parser: argparse.ArgumentParser, words: argparse.Namespace) -> str:
    """The path of the program, or the parser ends the script."""
    program = Path(words.program).resolve()
    if not (program.is_file() and os.access(program, os.X_OK)):
        parser.error(f"the program {program} is not there; 'rt ci' builds it")
    return str(program)


def run_once(program: str, words: Sequence[str], folder: Union[str, Path], seconds: float,
             **more: Any) -> Run:
    """A run of the program in a folder. It is killed after so many seconds, and then has no status."""
    more = {"stdout": subprocess.PIPE, "stderr": subprocess.PIPE, **more}
    try:
        done = subprocess.run([program, *words], cwd=folder, stdin=subprocess.DEVNULL, timeout=seconds,
                              **more)
    except subprocess.TimeoutExpired as late:
        return Run(None, late.stdout or b"", late.stderr or b"")
    return Run(done.returncode, done.stdout or b"", done.stderr or b"")
