"""Finds a short record for which a command still ends with the same status, and says a text where one is
wanted: whole frames are left out first, then lines.

It is Zeller's delta debugging: parts of a list are left out, the greater ones first, as long as the status
stays. What is found is one from which no frame and no line can be left out alone.
"""

import hashlib
import os
import re
import shlex
import shutil
import subprocess
import tempfile
from typing import Callable, Dict, FrozenSet, Iterable, List, NamedTuple, Optional, TypeVar

from inputtools.command import Wrong, counted, plain
from inputtools.expectations import words_of as words_of_expectation
from inputtools.progress import progress
from inputtools.record import line_of, stream_names
from inputtools.source import Given, fault_text

PLACE = "{}"
CHECKS = ("check", "inputplay-check")

Piece = TypeVar("Piece")
TEXT_LIMIT = 16777216


class End(NamedTuple):
    """How a command ended: its status, which is negative for a signal and None for no end; whether it says
    the wanted text; and, of tools/check, the expectations that failed."""

    status: Optional[int]
    is_said: bool
    failed: FrozenSet[str]


class Shrunk(NamedTuple):
    """The short record's text, the status, how many runs there were, and whether it was stopped."""

    text: str
    status: Optional[int]
    runs: int
    is_stopped: bool


class Command:
    """The command: its words, `{}` standing for the record, and a folder of its own with the files that the
    record names."""

    def __init__(self, words: List[str], given: Given, folder: str, seconds: float,
                 says: Optional[str]) -> None:
        self.words = words if any(PLACE in word for word in words) else [*words, PLACE]
        self.says = None if says is None else says.encode()
        self.folder, self.seconds, self.runs = folder, seconds, 0
        self.path = os.path.join(folder, os.path.basename(given.path))
        self.is_check = any(os.path.basename(word) in CHECKS for word in words)
        self.copy_files(given)

    def copy_files(self, given: Given) -> None:
        for name in named_files(given.path):
            origin, copy = os.path.join(given.folder, name), os.path.join(self.folder, name)
            is_inside = os.path.normpath(copy).startswith(self.folder + os.sep)
            if is_inside and os.path.isfile(origin):
                os.makedirs(os.path.dirname(copy), exist_ok=True)
                shutil.copyfile(origin, copy)

    def end(self, text: str) -> End:
        """How the command ends for a record."""
        with open(self.path, "w", encoding="latin-1", newline="") as file:
            file.write(text)
        self.runs += 1
        words = [word.replace(PLACE, self.path) for word in self.words]
        try:
            done = subprocess.run(words, timeout=self.seconds, check=False, stdin=subprocess.DEVNULL,
                                  stdout=subprocess.PIPE, stderr=subprocess.STDOUT)
        except subprocess.TimeoutExpired as late:
            return self.end_of(None, late.stdout or b"", text)
        except (OSError, ValueError) as fault:
            raise Wrong(f"the command {shlex.join(self.words)} cannot be run: {fault_text(fault)}") from None
        return self.end_of(done.returncode, done.stdout, text)

    def end_of(self, status: Optional[int], output: bytes, text: str) -> End:
        """How it ended, by its output. Of an expectation that failed its line is kept, but no place."""
        begins = re.escape(plain(self.path).encode())
        numbers = re.findall(rb"^" + begins + rb":(\d+): ", output, re.MULTILINE) if self.is_check else []
        lines = text.split("\n")
        failed = frozenset(lines[int(number) - 1].strip() for number in numbers)
        return End(status, self.says is None or self.says in output, failed)


def named_files(path: str) -> List[str]:
    """The files that a record names: of its streams, and of the reports that it expects."""
    names = stream_names(path)
    with open(path, encoding="latin-1", newline="") as file:
        expected = (words_of_expectation(line) or [] for line in file.read().split("\n"))
        return names + [words[1] for words in expected if len(words) == 2 and words[0] == "report"]


def with_events(lines: Iterable[str], folder: str) -> List[str]:
    """The lines, with the events of each stream in the place of its line."""
    result: List[str] = []
    for line in (line_of(0, text) for text in lines):
        stream = line.stream
        events = stream.events(folder) if stream else []
        opened = [f"do {line.actor} event {each.time} {each.text()}" for each in events]
        result += opened if stream else [line.text]
    return result


def frames_of(lines: Iterable[str]) -> List[List[str]]:
    """The lines in parts: each frame with what follows it up to the next one's first event, and each line
    before the first frame by itself."""
    parts: List[List[str]] = []
    is_open = is_ended = False
    for line in (line_of(0, text) for text in lines):
        begins = line.is_event and (not is_open or is_ended)
        if begins or not is_open:
            parts.append([line.text])
        else:
            parts[-1].append(line.text)
        is_open, is_ended = is_open or begins, line.is_report or (is_ended and not begins)
    return parts


def text_of(parts: Iterable[Iterable[str]]) -> str:
    return "".join(line + "\n" for part in parts for line in part)


def expectations_in(part: List[str]) -> List[str]:
    """The lines of a part that are never left out."""
    return [line for line in part if words_of_expectation(line) is not None]


def shorter(parts: List[Piece], keeps: Callable[[List[Piece]], bool], tell: Callable[[int], None],
            held: Callable[[Piece], Optional[Piece]] = lambda part: None) -> List[Piece]:
    """The parts that are left once no one can be left out alone, as long as what is kept stays. `held` is
    what always stays of a part."""
    count = 2
    while parts:
        size = -(-len(parts) // count)
        begin, is_shorter = 0, False
        while begin < len(parts):
            stay = [each for each in map(held, parts[begin : begin + size]) if each]
            rest = parts[:begin] + stay + parts[begin + size :]
            if rest != parts and keeps(rest):
                parts, is_shorter = rest, True
                tell(len(parts))
            else:
                begin += size
        if size == 1 and not is_shorter:
            break
        count = 2 if not parts else min(len(parts), max(2, count if is_shorter and size == 1 else 2 * count))
    return parts


class Search:
    """The search for a record for which a command ends as for the whole one: `best` is the shortest yet."""

    def __init__(self, command: Command, wanted: End, text: str) -> None:
        self.command, self.wanted, self.best = command, wanted, text
        self.tried: Dict[bytes, bool] = {}

    def keeps(self, candidate: str) -> bool:
        key = hashlib.sha256(candidate.encode("latin-1")).digest()
        if key not in self.tried:
            self.tried[key] = self.command.end(candidate) == self.wanted
        if self.tried[key] and len(candidate) < len(self.best):
            self.best = candidate
        return self.tried[key]

    def run(self, given: Given, lines: List[str]) -> None:
        if not self.keeps(text_of([lines])):
            return
        lines = lines_of_streams(given, lines, self.keeps)
        for what, parts_of in (("frames", frames_of), ("lines", lambda lines: [[line] for line in lines])):
            parts = shorter(parts_of(lines), lambda parts: self.keeps(text_of(parts)),
                            lambda count: tell(what, count, self.command.runs), expectations_in)
            lines = [line for part in parts for line in part]
        self.best = text_of([lines])


def shrink(given: Given, text: str, words: List[str], seconds: float, says: Optional[str] = None) -> Shrunk:
    """Finds a short record for which the command ends as for this one; at a stop the shortest until then."""
    progress.tell("the command is run on the whole record")
    with tempfile.TemporaryDirectory(prefix="shrink") as folder:
        command = Command(words, given, os.path.realpath(folder), seconds, says)
        wanted = command.end(text)
        if not wanted.is_said:
            raise Wrong(f"{given.name}: the command does not say {says!r}")
        if wanted != command.end(text):
            raise Wrong(f"{given.name}: the command ends otherwise when it is run again")
        search, lines = Search(command, wanted, text), text.split("\n")
        is_stopped = False
        try:
            search.run(given, lines if lines[-1] else lines[:-1])
        except KeyboardInterrupt:
            is_stopped = True
        return Shrunk(search.best, wanted.status, command.runs, is_stopped)


def tell(what: str, count: int, runs: int) -> None:
    """Says how far it is."""
    progress.tell(f"{count} {what} are left, {counted(runs, 'run')}")


def lines_of_streams(given: Given, lines: List[str], keeps: Callable[[str], bool]) -> List[str]:
    """The lines with the events of streams in them, where the status stays."""
    if not stream_names(given.path):
        return lines
    try:
        opened = with_events(lines, given.folder)
    except Wrong:
        return lines
    text = text_of([opened])
    return opened if len(text) <= TEXT_LIMIT and keeps(text) else lines
