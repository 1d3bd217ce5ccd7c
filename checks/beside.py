"""Plays random records to the real libevdev and to the library's reader, on one device, and counts what was
compared."""

from __future__ import annotations

import os
import socket
import subprocess
from collections import Counter
from dataclasses import dataclass, field
from pathlib import Path
from typing import Counter as Counts
from typing import Iterator, List

from inputtools.runbuild import FLAGS, SOURCES, NotBuilt, archive, compile_by, sources
from inputtools.running import Run, Settings, environment, new_folder, remove_folder

from checks.random_devices import RandomDevice
from checks.trial import TOP

HERE = SOURCES / "tests"
SERVER, PROGRAM = "beside_server", "beside_libevdev"
ROWS = TOP / "docs" / "KERNEL.md"
SECONDS = 60
# Of so many records one is of a driver that does what drivers do not.
RAW_EVERY = 4


@dataclass
class Tally:
    """What was compared: the numbers by their names, the rounds with a difference that is known, and the
    others."""

    numbers: Counts[str] = field(default_factory=Counter)
    known: Counts[str] = field(default_factory=Counter)
    unexplained: List[str] = field(default_factory=list)

    def add(self, other: Tally) -> None:
        self.numbers += other.numbers
        self.known += other.known
        self.unexplained += other.unexplained

    def text(self) -> str:
        numbers = self.numbers
        lines = [
            f"{numbers['records']} records, {numbers['rounds']} quiet points, {numbers['values']} values",
            f"events: libevdev {numbers['events of libevdev']}, the reader {numbers['events']}",
            f"losses: libevdev {numbers['losses of libevdev']}, the reader {numbers['losses']}"
        ]
        lines += [f"{count} times known: {name}" for name, count in sorted(self.known.items())]
        lines += self.unexplained or ["none else"]
        return "\n".join(lines)


def flags_of_libevdev() -> List[str]:
    words = ["pkg-config", "--cflags", "--libs", "libevdev"]
    try:
        done = subprocess.run(words, stdout=subprocess.PIPE, stderr=subprocess.PIPE, text=True, check=False)
    except OSError as fault:
        raise NotBuilt(f"pkg-config: {fault.strerror}") from None
    if done.returncode:
        raise NotBuilt("libevdev is not installed (Debian: libevdev-dev)")
    return done.stdout.split()


def build(out: Path, compiler: str) -> None:
    include = ["-I", str(SOURCES), "-I", str(TOP / "include")]
    server = [path for path in sources("server") if not path.endswith("/main.c")]
    first = [str(HERE / f"{SERVER}.c"), *server, str(archive())]
    compile_by([compiler, *FLAGS, *include, *first, "-o", str(out / SERVER)])
    own = [str(HERE / "beside_libevdev.c"), str(HERE / "beside_compare.c")]
    compile_by([compiler, *FLAGS, *own, "-o", str(out / PROGRAM), *flags_of_libevdev()])


def taken(text: str, status: int, name: str) -> Tally:
    """What the program said of one record."""
    tally = Tally()
    for line in text.splitlines():
        words = line.split()
        if words[:1] == ["rounds"]:
            numbers = [int(word) for word in words if word.isdigit()]
            keys = ("rounds", "events of libevdev", "events", "losses of libevdev", "losses", "values")
            tally.numbers.update(dict(zip(keys, numbers)), records=1)
        elif words[:1] == ["known"]:
            tally.known[" ".join(words[2:])] += int(words[1])
        else:
            tally.unexplained.append(f"{name}: {line}")
    if status and not tally.unexplained:
        tally.unexplained.append(f"{name}: it ended with status {status}")
    return tally


def play(programs: Path, record: Path, seed: int) -> Tally:
    """Plays a record to both. `seed` is of how much each reads at a time."""
    folder, ends = new_folder(), socket.socketpair()
    ours, theirs = (end.fileno() for end in ends)
    server = subprocess.Popen([programs / SERVER, "--folder", folder, record, str(ours)], pass_fds=[ours],
                              stdin=subprocess.DEVNULL, stdout=subprocess.PIPE, text=True)
    try:
        assert server.stdout is not None
        server.stdout.readline()
        ends[0].close()
        variables = {**os.environ, **environment(Run(folder, Settings(0, False, "stay")))}
        done = subprocess.run([programs / PROGRAM, str(seed), str(theirs)], pass_fds=[theirs], env=variables,
                              stdout=subprocess.PIPE, text=True, timeout=SECONDS, check=False)
    finally:
        ends[1].close()
        ends[0].close()
        server.kill()
        server.wait()
        remove_folder(folder)
    return taken(done.stdout, done.returncode, record.name)


def tallies(programs: Path, folder: Path, first: int, count: int) -> Iterator[Tally]:
    """What comes of so many records, which are made of the numbers from `first` on."""
    for seed in range(first, first + count):
        record = folder / f"{seed}.rec"
        record.write_text(RandomDevice(seed, is_raw=seed % RAW_EVERY == 0).record())
        tally = play(programs, record, seed)
        if not tally.unexplained:
            record.unlink()
        yield tally
