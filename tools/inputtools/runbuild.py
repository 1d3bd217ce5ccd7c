"""Compiles the two programs of tools/run: the server, which has the library in it, and the shim."""

from __future__ import annotations

import os
import subprocess
from pathlib import Path
from typing import List, Optional, Sequence

TOP = Path(__file__).resolve().parent.parent.parent
SOURCES = TOP / "run"
LIBRARY_VARIABLE = "INPUTPLAY_LIB_DIR"
ARCHIVE = "libinputplay.a"
SERVER, SHIM = "inputplay-serve", "libinputplay-run.so"
FLAGS = ["-std=c11", "-D_GNU_SOURCE", "-Wall", "-Wextra", "-Wconversion", "-Wshadow", "-Werror", "-O2", "-g"]


class NotBuilt(Exception):
    """Something is not there, or the compiler refused a file."""


def archive(folder: Optional[str] = None) -> Path:
    """The library's archive: of a folder that is named, of the variable's, or of the one that tools/build
    fills."""
    named = folder or os.environ.get(LIBRARY_VARIABLE) or str(TOP / "out" / "library")
    path = Path(named).resolve() / ARCHIVE
    if not path.is_file():
        raise NotBuilt(f"{path} is not there; tools/build --library makes it in out/library")
    return path


def sources(part: str) -> List[str]:
    return sorted(str(path) for path in (SOURCES / part).glob("*.c"))


def server_words(compiler: str, library: Path, out: Path, more: Sequence[str] = ()) -> List[str]:
    """The words that compile the server."""
    include = ["-I", str(SOURCES), "-I", str(TOP / "include")]
    return [compiler, *FLAGS, *more, *include, *sources("server"), str(library), "-o", str(out / SERVER)]


def shim_words(compiler: str, out: Path, more: Sequence[str] = ()) -> List[str]:
    """The words that compile the shim."""
    shared = ["-fPIC", "-shared", "-fvisibility=hidden", "-Wl,-z,relro,-z,now,-z,defs"]
    more = [*shared, *more, "-I", str(SOURCES), *sources("shim")]
    return [compiler, *FLAGS, *more, "-o", str(out / SHIM), "-ldl"]


def compile_by(words: Sequence[str]) -> None:
    try:
        done = subprocess.run(words, stdout=subprocess.PIPE, stderr=subprocess.STDOUT, text=True, check=False)
    except OSError as fault:
        raise NotBuilt(f"{words[0]}: {fault.strerror}") from None
    if done.returncode:
        raise NotBuilt(f"{words[0]} refused a file of run/:\n{done.stdout}")


def build_run(out: Path, compiler: str, library: Path, more: Sequence[str] = ()) -> List[Path]:
    """Compiles both into a folder; the files that were made."""
    out.mkdir(parents=True, exist_ok=True)
    compile_by(server_words(compiler, library, out, more))
    compile_by(shim_words(compiler, out, more))
    return [out / SERVER, out / SHIM]
