"""The command `tools/explore`: its words, its text and its status."""

from __future__ import annotations

import json
import os
import re
from typing import Any, List, Optional, Sequence

from inputtools.command import STOPPED, Result, Words, Wrong, natural, say, shard_of
from inputtools.explore_run import Settings, explored, items_of
from inputtools.explored_answers import Answer, Found, answer_lines, joined, shard_line
from inputtools.explored_record import GRAINS
from inputtools.explored_words import answer_text
from inputtools.exploring import Asked
from inputtools.source import Given, paths_of, read_bytes, shown

HELP = """Says in how many orders of a record's lines a client believes something wrong at the end, and
shows a short one of them, as a record that plays in that order.

In an order each actor's own lines keep theirs. All orders are looked at where that can be: what a
device and its actors are is kept once, however many orders lead there. At the end of each order a
client reads what waits for it, and what it believes is compared with its device. What is shown is
played again and judged as tools/stuck does.

Two comments of a record say which orders there are:

  #~              a barrier: all lines before it come before all behind it
  #~ if no key    a guard before a line of a client or tap: it does the line only while it knows of no
                  key that is down

Where there are more states than --states says, or it takes longer than --seconds, the orders with few
changes of actor that nobody needed are looked at, and 1,000 that are drawn. Each answer says which
orders it is of. A share of orders is no chance: the chance beside it is that of a scheduler which draws
among the actors that can go on."""

STATUSES = """Status 0: it was explored. 1: with --fail, an order ends wrong, or misses an expectation.
2: wrong words, or a record that cannot be explored. 3: with --fail, nothing wrong came, but not all
orders were looked at. 4: standard output failed. 5: an order that is shown is not so when it is played
again. 130: stopped from the keyboard; what was found until then is written."""

FOUND_WRONG, NOT_ALL, DIFFERS = 1, 3, 5


# The words of the command, each with how argparse takes it.
NAMED = (
    ("--of", "NAME", "judge this actor alone; may be given again"),
    ("--within", "N", "nothing goes ahead of what begins more than N lines before it"),
    ("--preemptions", "K", "at most K changes of actor that nobody needed"),
    ("--draw", "N", "look at N orders that are drawn"),
    ("--seed", "S", "the seed of what is drawn; 1 where none is given"),
    ("--states", "N", "look at so many states of an actor at most; 200000 where none is given"),
    ("--seconds", "S", "look for so long at an actor at most; 60 where none is given"),
    ("--out", "FOLDER", "write each order that is shown as a record in FOLDER"),
    ("--shard", "K/N", "do the K-th of N parts, and write JSON for --join"),
    ("-j", "N", "look at N actors at a time"),
)
FLAGS = (
    ("--waits", "a follow waits until all sources are done, as with --threads; for calls alone"),
    ("--moments", "judge each time that nothing was left to read, too"),
    ("--expect", "judge what the record expects of its actors (#=) instead"),
    ("--fail", "end in status 1 or 3 where not all orders end well"),
    ("--json", "write one JSON object a line (docs/JSON.md)"),
    ("--join", "the files are the JSON of all parts: put them together"),
)
GRAIN_HELP = "what no other line comes between: a frame of a source (the default), a line, or a call"


def words_of_command() -> Words:
    words = Words(prog="explore", description=HELP, epilog=STATUSES)
    files = "a record, or a folder of them; - is standard input"
    words.add_argument("records", metavar="RECORD", nargs="+", help=files)
    words.add_argument("--grain", choices=GRAINS, default="frame", help=GRAIN_HELP)
    for word, value, text in NAMED:
        words.add_argument(word, metavar=value, action="append" if word == "--of" else "store", help=text)
    for word, text in FLAGS:
        words.add_argument(word, action="store_true", help=text)
    words.set_defaults(seed="1", states="200000", seconds="60", j="1")
    return words


def settings_of(asked: Any) -> Settings:
    if asked.waits and asked.grain != "call":
        raise Wrong("--waits wants --grain call")
    if asked.draw is not None and asked.preemptions is not None:
        raise Wrong("--draw draws among all orders: it goes without --preemptions")
    within = natural(asked.within, "--within")
    preemptions = natural(asked.preemptions, "--preemptions")
    how = Asked(asked.grain, asked.waits, within, preemptions, asked.moments)
    return Settings(
        how,
        tuple(asked.of or ()),
        asked.expect,
        natural(asked.draw, "--draw", 1),
        natural(asked.seed, "--seed") or 0,
        natural(asked.states, "--states", 1) or 1,
        natural(asked.seconds, "--seconds", 1) or 1,
        shard_of(asked.shard),
    )


# What was found


class Output:
    """The lines of a run, and its status."""

    def __init__(self, asked: Any) -> None:
        self.asked = asked
        self.lines: List[str] = []
        self.answers: List[Answer] = []
        self.names: List[str] = []

    def add(self, answer: Answer) -> None:
        self.answers.append(answer)
        paths = [self.written(answer, found) for found in answer.found]
        if self.asked.json or self.asked.shard:
            self.lines += answer_lines(answer)
        else:
            self.lines += answer_text(answer, paths)

    def written(self, answer: Answer, found: Found) -> Optional[str]:
        """The record of the order of what was found, which is written where that is asked for."""
        if self.asked.out is None or not found.lines:
            return None
        path = os.path.join(self.asked.out, self.file_name(answer, found))
        try:
            os.makedirs(self.asked.out, exist_ok=True)
            with open(path, "w", encoding="latin-1", newline="") as file:
                file.write("".join(line + "\n" for line in found.lines))
        except OSError as fault:
            raise Wrong(f"{path}: {fault.strerror}") from None
        return path

    def file_name(self, answer: Answer, found: Found) -> str:
        stem = os.path.basename(answer.record)
        stem = stem[:-4] if stem.endswith(".rec") else stem
        texts = [stem, answer.actor, found.kind if found.kind != "apart" else "", found.thing]
        name = "-".join(re.sub("[^A-Za-z0-9_]+", "_", text) for text in texts if text)
        self.names.append(name)
        count = self.names.count(name)
        return f"{name}-{count}.rec" if count > 1 else f"{name}.rec"

    def status(self) -> int:
        found = [found for answer in self.answers for found in answer.found]
        if any(each.plays is False for each in found):
            return DIFFERS
        if not self.asked.fail:
            return 0
        if any(each.is_wrong() for each in found):
            return FOUND_WRONG
        return 0 if all(answer.is_all for answer in self.answers) else NOT_ALL

    def text(self) -> str:
        return "".join(line + "\n" for line in self.lines)


def asked_text(asked: Any) -> str:
    """What is asked of all parts of a run, which must be the same for all."""
    left_out = ("shard", "out", "json", "j", "fail", "join")
    return json.dumps({key: value for key, value in sorted(vars(asked).items()) if key not in left_out})


def command(arguments: Sequence[str]) -> Result:
    asked = words_of_command().parse_args(arguments)
    output = Output(asked)
    if asked.join:
        files = [(shown(path), read_bytes(path).decode("latin-1")) for path in asked.records]
        for answer in joined(files):
            output.add(answer)
        return Result(output.text(), [], output.status())
    settings = settings_of(asked)
    processes = natural(asked.j, "-j", 1) or 1
    items, wrong = items_of([Given(path) for path in paths_of(asked.records)], settings)
    for text in wrong:
        say("explore", text)
    if asked.shard:
        output.lines.append(shard_line(*settings.shard, asked_text(asked)))
    try:
        for answers in explored(items, settings, processes):
            for answer in answers:
                output.add(answer)
    except KeyboardInterrupt:
        say("explore", "stopped: what is written is not all that was asked for")
        return Result(output.text(), [], STOPPED)
    return Result(output.text(), [], 2 if wrong else output.status())
