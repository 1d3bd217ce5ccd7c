"""The lines of numbers that the player in the machine takes of a record (guest/)."""

from __future__ import annotations

from typing import Dict, Iterator, List

from second.device import Caps
from second.model import code_of, event_of, kind_of, number, read_record, source_steps, streams_of
from second.names import ABS, KEY, LED, REP, SND, SW, SYN
from second.values import Streams

ROLES = ("source", "client", "tap", "joy", "owner")
CLOCKS = {"realtime": 0, "monotonic": 1, "boottime": 7}
QUERIES = {"keys": KEY, "switches": SW, "leds": LED, "sounds": SND}


def is_live(text: str) -> bool:
    """Whether a record is played in real time: where keys repeat by themselves."""
    return any(REP in caps.kinds for _, caps in read_record(text).descriptions)


def description(caps: Caps) -> Iterator[str]:
    yield "device"
    yield from (f"bit {SYN} {kind}" for kind in sorted(caps.kinds - {SYN}))
    kinds = sorted(kind for kind in caps.codes if kind not in (ABS, REP))
    yield from (f"bit {kind} {code}" for kind in kinds for code in sorted(caps.codes[kind]))
    yield from (f"abs {code} " + " ".join(map(str, info)) for code, info in sorted(caps.axes.items()))
    yield "make"


def steps_of_source(words: List[str], streams: Streams) -> Iterator[str]:
    for op, *rest in source_steps(words, streams):
        if op == "inject":
            yield f"event {rest[0]} " + " ".join(map(str, rest[1]))
        else:
            yield " ".join(["wait" if op == "tick" else op, *map(str, rest)])


def step_of(words: List[str]) -> str:
    """The step of another actor than a source."""
    op, *rest = words
    numbers: List[int] = []
    if op == "clock":
        numbers = [CLOCKS[rest[0]], number(rest[1])]
    elif op == "mask":
        numbers = [kind_of(rest[0]), number(rest[1]), number(rest[2])]
    elif op == "write":
        numbers = [number(rest[0]), *event_of(rest[1:])]
    elif op in ("setaxis", "axis", "slots"):
        numbers = [code_of(ABS, rest[0]), *map(number, rest[1:])]
    elif op in QUERIES:
        op, numbers = "bits", [QUERIES[op]]
    else:
        numbers = [number(word) for word in rest]
    return " ".join([op, *map(str, numbers)])


def lines_of(name: str, text: str, folder: str = ".") -> List[str]:
    """The lines of a record; behind them each reader's view is asked for."""
    record, streams = read_record(text), streams_of(folder)
    lines = [f"record {name}"] + (["live"] if is_live(text) else [])
    numbers: Dict[str, int] = {}
    for device, (_, caps) in enumerate(record.descriptions):
        lines += description(caps)
        for actor, role, of_device in record.actors:
            if of_device == device:
                numbers[actor] = len(numbers)
                lines.append(f"actor {ROLES.index(role)}")
    roles = {actor: role for actor, role, _ in record.actors}
    for actor, *words in record.actions:
        steps = steps_of_source(words, streams) if roles[actor] == "source" else [step_of(words)]
        for step in steps:
            name_of_step, _, rest = step.partition(" ")
            lines.append(f"do {name_of_step} {numbers[actor]} {rest}".rstrip())
    return lines + [f"do view {numbers[actor]}" for actor in numbers if roles[actor] == "client"]
