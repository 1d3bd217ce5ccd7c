"""Runs a program on the devices of a record. The server is started, then the program with the shim loaded
into it, and both are ended. docs/RUN.md says what that is for."""

from __future__ import annotations

import json
import os
import shlex
import shutil
import signal
import subprocess
import tempfile
import time
from dataclasses import asdict, dataclass
from types import FrameType
from typing import Dict, List, NamedTuple, Optional, Tuple

from inputtools.command import Wrong
from inputtools.runbuild import SERVER, SHIM, TOP

BUILT_VARIABLE = "INPUTPLAY_RUN_DIR"
SETTINGS, HISTORY, LOG, ENVIRONMENT = "settings.json", "history.rec", "log", "environment"
# (a long history takes a while to be written)
SECONDS_TO_END = 120

# What is run's own, apart from the statuses of a program.
NOT_HELD, FAILED, NOT_STARTED, TIME_OUT = 125, 126, 127, 128
ENDS = {"int": signal.SIGINT, "term": signal.SIGTERM}


class NoProgram(Exception):
    """The program is not there, or cannot be started."""


@dataclass(frozen=True)
class Settings:
    """What programs have to know of a run, beside its folder."""

    first: int
    is_by_frames: bool
    end: str
    is_virtual: bool = False


@dataclass
class Run:
    """A run that is under way: its folder, and its server where this command started it."""

    folder: str
    settings: Settings
    server: Optional[subprocess.Popen[str]] = None

    def path(self, name: str) -> str:
        return os.path.join(self.folder, name)


def built(name: str) -> str:
    """One of both programs that tools/build --run makes."""
    path = os.path.join(os.environ.get(BUILT_VARIABLE) or str(TOP / "out" / "run"), name)
    if not os.path.isfile(path):
        raise Wrong(f"{path} is not there; tools/build --run makes it")
    return os.path.abspath(path)


def environment(run: Run) -> Dict[str, str]:
    """What the shim has to be told, and that it is loaded."""
    before = os.environ.get("LD_PRELOAD")
    return {
        "INPUTPLAY_RUN_FOLDER": run.folder,
        "INPUTPLAY_RUN_FIRST": str(run.settings.first),
        "INPUTPLAY_RUN_BY_FRAMES": "1" if run.settings.is_by_frames else "0",
        "INPUTPLAY_RUN_VIRTUAL": "1" if run.settings.is_virtual else "0",
        "LD_PRELOAD": built(SHIM) + (f":{before}" if before else ""),
    }


def start_server(folder: str, settings: Settings, words: List[str], is_kept: bool) -> Run:
    """Starts a server on a folder, and waits until programs may begin."""
    command = [built(SERVER), "--folder", folder, *(["--keep"] if is_kept else []), *words]
    log = open(os.path.join(folder, LOG), "w", encoding="utf-8") if is_kept else None
    server = subprocess.Popen(command, stdin=subprocess.DEVNULL, stdout=subprocess.PIPE, stderr=log,
                              text=True, start_new_session=is_kept)
    if log is not None:
        log.close()
    assert server.stdout is not None
    if server.stdout.readline() != "ready\n":
        server.wait()
        raise Wrong(said_by(folder) or "the server did not start")
    return Run(folder, settings, server)


def said_by(folder: str) -> str:
    """The last line of a kept server's log."""
    try:
        with open(os.path.join(folder, LOG), encoding="utf-8", errors="replace") as file:
            lines = file.read().splitlines()
    except OSError:
        return ""
    return lines[-1].partition(": ")[2] if lines else ""


def end_server(server: subprocess.Popen[str]) -> int:
    """Ends a server that this command started; its status."""
    if server.poll() is None:
        server.terminate()
    try:
        return server.wait(SECONDS_TO_END)
    except subprocess.TimeoutExpired:
        server.kill()
        return server.wait()


def new_folder() -> str:
    return tempfile.mkdtemp(prefix="inputplay-")


def remove_folder(folder: str) -> None:
    shutil.rmtree(folder, ignore_errors=True)


def keep(run: Run) -> None:
    """Writes what programs that start later have to know: for this command, and for a shell."""
    assert run.server is not None
    with open(run.path(SETTINGS), "w", encoding="utf-8") as file:
        json.dump({"server": run.server.pid, **asdict(run.settings)}, file)
    with open(run.path(ENVIRONMENT), "w", encoding="utf-8") as file:
        for name, value in environment(run).items():
            file.write(f"export {name}={shlex.quote(value)}\n")


def kept_in(folder: str) -> Tuple[int, Settings]:
    """The server of a folder, and the settings of its run."""
    try:
        with open(os.path.join(folder, SETTINGS), encoding="utf-8") as file:
            kept = json.load(file)
        return kept.pop("server"), Settings(**kept)
    except (OSError, ValueError, TypeError, LookupError, AttributeError):
        raise Wrong(f"{folder}: no server was started here; give a RECORD to start one") from None


def join(folder: str) -> Run:
    """A run whose server an earlier command started."""
    server, settings = kept_in(folder)
    if not is_alive(server):
        raise Wrong(f"{folder}: its server has ended; {said_by(folder) or 'remove the folder'}")
    return Run(folder, settings)


def is_alive(process: int) -> bool:
    try:
        os.kill(process, 0)
    except ProcessLookupError:
        return False
    return True


def stop(folder: str) -> None:
    """Ends the server of a folder, and waits until its history is written."""
    process, _ = kept_in(folder)
    deadline = time.monotonic() + SECONDS_TO_END
    if is_alive(process):
        os.kill(process, signal.SIGTERM)
    while is_alive(process):
        if time.monotonic() > deadline:
            raise Wrong(f"{folder}: the server {process} does not end")
        time.sleep(0.02)


class Ended(NamedTuple):
    """How a program ended: its status as a shell tells it, and whether its time was out."""

    status: int
    is_late: bool = False


class Program:
    """A program that runs. What the terminal or `kill` sends to this command reaches the program too."""

    def __init__(self, words: List[str], more: Dict[str, str]):
        self.stopped = False
        for number in (signal.SIGINT, signal.SIGQUIT):
            # (the terminal sends these to the program too)
            signal.signal(number, lambda number, frame: None)
        try:
            self.process = subprocess.Popen(words, env={**os.environ, **more})
        except OSError as fault:
            raise NoProgram(f"{words[0]}: {fault.strerror}") from None
        for number in (signal.SIGTERM, signal.SIGHUP):
            signal.signal(number, self.hand_on)

    def hand_on(self, number: int, frame: Optional[FrameType]) -> None:
        self.process.send_signal(number)

    def wait(self, seconds: Optional[float]) -> Ended:
        try:
            return Ended(self.process.wait(seconds))
        except subprocess.TimeoutExpired:
            self.process.terminate()
        try:
            self.process.wait(2)
        except subprocess.TimeoutExpired:
            self.process.kill()
        return Ended(self.process.wait(), is_late=True)


def status_of(ended: Ended, end: str) -> int:
    """The status of a program as a shell tells it. One that ended by the signal of --end has ended well."""
    if ended.is_late:
        return TIME_OUT
    status = ended.status if ended.status >= 0 else 128 - ended.status
    return 0 if end in ENDS and status == 128 + ENDS[end] else status
