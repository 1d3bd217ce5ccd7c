"""What was explored and found, as values: their JSON, one object a line, and how the parts of several
runs become the whole again."""

from __future__ import annotations

import json
from dataclasses import asdict, dataclass, fields, replace
from typing import Any, Dict, Iterable, List, Optional, Sequence, Tuple

from inputtools.command import Wrong

WRONG_KINDS = ("apart", "open-frame", "moment", "missed")

Units = Tuple[Tuple[str, Tuple[str, ...]], ...]


@dataclass(frozen=True)
class Found:
    """A thing that orders have: in how many they are, and the least of them, made short.

    `believed` and `present` are in words. `chance` is that of a scheduler which draws among the actors
    that can go on. `draw` is the number of the draw. `units` are the short order, and `lines` its
    record. `plays` says whether a play of that record has the thing too, and is None where it was not
    played.
    """

    kind: str
    thing: str
    why: str
    believed: Optional[str]
    present: Optional[str]
    orders: int
    chance: Optional[float] = None
    changes: Optional[int] = None
    overtaken: Optional[int] = None
    draw: Optional[int] = None
    cause: Optional[str] = None
    text: Optional[str] = None
    units: Units = ()
    of_units: Optional[int] = None
    lines: Tuple[str, ...] = ()
    plays: Optional[bool] = None

    def is_wrong(self) -> bool:
        return self.kind in WRONG_KINDS

    def rank(self) -> Tuple[int, int, int]:
        """Less for the order that is to be shown."""
        return self.changes or 0, self.overtaken or 0, self.draw or 0


@dataclass(frozen=True)
class Answer:
    """What was explored of an actor, and what was found. `item` counts actors over all records.
    `orders` is how many orders were looked at, and `is_whole` says whether those were all that are
    spoken of; `is_all`, whether no order was left out by a bound."""

    item: int
    record: str
    device: str
    actor: str
    others: Tuple[str, ...]
    units: int
    grain: str
    waits: bool
    within: Optional[int]
    preemptions: Optional[int]
    drawn: Optional[int] = None
    seed: Optional[int] = None
    orders: int = 0
    states: Optional[int] = None
    is_whole: bool = True
    is_all: bool = True
    why: str = ""
    found: Tuple[Found, ...] = ()

    def place(self) -> Tuple[int, bool]:
        return self.item, self.drawn is not None


# JSON


def line_of(kind: str, values: Dict[str, Any]) -> str:
    return json.dumps({"kind": kind, **values}, ensure_ascii=True, separators=(", ", ": "))


def answer_lines(answer: Answer) -> List[str]:
    """An object of what was explored, and one of each thing that was found."""
    values = {each.name: getattr(answer, each.name) for each in fields(answer) if each.name != "found"}
    named = {"item": answer.item, "record": answer.record, "device": answer.device, "actor": answer.actor}
    lines = [line_of("explored", values)]
    for each in answer.found:
        own = asdict(each)
        lines.append(line_of("thing", {**named, "what": own.pop("kind"), **own}))
    return lines


def shard_line(number: int, count: int, asked: str) -> str:
    return line_of("shard", {"shard": number, "of": count, "asked": asked})


def as_tuple(value: Any) -> Any:
    return tuple(as_tuple(each) for each in value) if isinstance(value, list) else value


def read_answers(name: str, text: str) -> Tuple[Dict[str, Any], List[Answer]]:
    """The shard and the answers that a run with --json wrote."""
    shard: Dict[str, Any] = {}
    answers: List[Answer] = []
    try:
        for line in text.splitlines():
            values = {key: as_tuple(value) for key, value in json.loads(line).items()}
            kind = values.pop("kind")
            if kind == "shard":
                shard = values
            elif kind == "explored":
                answers.append(Answer(**values))
            else:
                answers[-1] = replace(answers[-1], found=(*answers[-1].found, read_found(values)))
    except (ValueError, KeyError, TypeError, IndexError, AttributeError):
        raise Wrong(f"{name}: no JSON of tools/explore --shard") from None
    if not shard:
        raise Wrong(f"{name}: it is no shard: run with --shard K/N --json")
    return shard, answers


def read_found(values: Dict[str, Any]) -> Found:
    own = {each.name for each in fields(Found)}
    return Found(kind=values["what"], **{key: value for key, value in values.items() if key in own})


# Parts


def merged(parts: Sequence[Answer]) -> Answer:
    """The draws of several runs as one answer."""
    first = parts[0]
    if len(parts) == 1 or first.drawn is None:
        return first
    drawn = sum(part.drawn or 0 for part in parts)
    why = next((part.why for part in parts if part.why), "")
    found: Dict[Tuple[Any, ...], Found] = {}
    for each in (each for part in parts for each in part.found):
        key = each.kind, each.thing, each.why, each.believed, each.present
        known = found.get(key, replace(each, orders=0))
        found[key] = replace(min(known, each, key=Found.rank), orders=known.orders + each.orders)
    whole = replace(first, drawn=drawn, orders=drawn, why=why, found=in_order(found.values()))
    return replace(whole, is_whole=all(part.is_whole for part in parts))


def joined(files: Iterable[Tuple[str, str]]) -> List[Answer]:
    """The answers of all shards of a run, which must all be there."""
    shards = [(name, *read_answers(name, text)) for name, text in files]
    first = shards[0][1]
    for name, shard, _ in shards:
        if (shard["of"], shard["asked"]) != (first["of"], first["asked"]):
            raise Wrong(f"{name}: it is a shard of another run than {shards[0][0]}")
    numbers = [shard["shard"] for _, shard, _ in shards]
    wanted = [str(number) for number in range(1, first["of"] + 1) if numbers.count(number) != 1]
    if wanted or len(numbers) > first["of"]:
        raise Wrong(f"of the shards 1 to {first['of']} each is wanted once: look at {', '.join(wanted)}")
    parts: Dict[Tuple[Any, ...], List[Answer]] = {}
    for _, shard, answers in sorted(shards, key=lambda each: int(each[1]["shard"])):
        for answer in answers:
            parts.setdefault((*answer.place(), answer.preemptions), []).append(answer)
    return [merged(rows) for _, rows in sorted(parts.items(), key=lambda each: each[0][:2])]


def in_order(found: Iterable[Found]) -> Tuple[Found, ...]:
    """What is wrong at the end first, and what comes most often."""
    kinds = (*WRONG_KINDS, "waits", "lost", "refused", "full")

    def place(each: Found) -> Tuple[int, int, str, str, str, str]:
        values = str(each.believed), str(each.present)
        return (kinds.index(each.kind), -each.orders, each.thing, each.why, *values)

    return tuple(sorted(found, key=place))
