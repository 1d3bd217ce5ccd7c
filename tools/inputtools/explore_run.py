"""Explores records: one actor after another, or several at a time, and gathers the answers."""

from __future__ import annotations

import functools
import multiprocessing
import signal
from dataclasses import dataclass, replace
from typing import Any, Dict, Iterator, List, Optional, Sequence, Tuple

from inputtools.command import Wrong
from inputtools.drawn_orders import Draws
from inputtools.explored_answers import Answer, Found, in_order
from inputtools.explored_ends import Thing, things_at
from inputtools.explored_expectations import expectations_on_actors
from inputtools.explored_record import ExploredRecord
from inputtools.exploring import Asked, Problem
from inputtools.exploring_graph import Counts, Graph, LeastOrders
from inputtools.program import PLAYED
from inputtools.progress import progress
from inputtools.replaying import judge, player_of_orders
from inputtools.schedules import Turn, is_record, record_of, shortened, turns_of
from inputtools.refusal_hints import refusal_text
from inputtools.source import Given, read_text

# Where the graph is too great: bounds of changes of actor that nobody needed, and how many orders are drawn.
PREEMPTIONS = (0, 1, 2)
DRAWN = 1000


@dataclass(frozen=True)
class Settings:
    """What is asked of a run, and which part of it this one is."""

    asked: Asked = Asked()
    of: Tuple[str, ...] = ()
    expects: bool = False
    draws: Optional[int] = None
    seed: int = 1
    most_states: int = 200000
    seconds: float = 60.0
    shard: Tuple[int, int] = (1, 1)


@dataclass(frozen=True)
class Item:
    """An actor of a record, which is explored by itself."""

    number: int
    name: str
    path: str
    folder: str
    device: int
    actor: str


@functools.lru_cache(maxsize=8)
def record_at(name: str, path: str, folder: str) -> ExploredRecord:
    return ExploredRecord(name, path, folder)


def checked_record(given: Given) -> ExploredRecord:
    """A record, which the program plays."""
    text = read_text(given.path)
    status, written = player_of_orders().play(given.path, given.folder)
    if status not in PLAYED:
        raise Wrong(f"{given.name}: {refusal_text(text, written, status, given.folder)}")
    record = record_at(given.name, given.path, given.folder)
    for actor in record.actors:
        if actor.role not in ("client", "tap") and any(line.is_guarded for line in actor.lines):
            what = f"`#~ if no key` stands before a line of {actor.name}, which knows of no keys"
            raise Wrong(f"{given.name}: {what}")
    return record


def items_of(givens: Sequence[Given], settings: Settings) -> Tuple[List[Item], List[str]]:
    """The actors that are judged, and what is wrong with records that cannot be explored."""
    record_at.cache_clear()
    items: List[Item] = []
    wrong: List[str] = []
    names = set()
    for given in givens:
        try:
            record = checked_record(given)
            expecting = [each.actor for each in expectations_on_actors(record)] if settings.expects else None
        except Wrong as refusal:
            wrong.append(str(refusal))
            continue
        for actor in record.actors:
            names.add(actor.name)
            is_meant = expecting is None or actor.name in expecting
            if actor.role == "source" or (settings.of and actor.name not in settings.of) or not is_meant:
                continue
            items.append(Item(len(items), given.name, given.path, given.folder, actor.device, actor.name))
    unknown = [name for name in settings.of if name not in names]
    if unknown and names:
        raise Wrong(f"no actor of these records is named {unknown[0]}")
    return items, wrong


# One actor


class Exploration:
    """The exploration of one actor."""

    def __init__(self, item: Item, settings: Settings) -> None:
        self.item, self.settings = item, settings
        self.record = record_at(item.name, item.path, item.folder)
        self.expectations: Optional[List[Any]] = None
        if settings.expects:
            found = expectations_on_actors(self.record)
            self.expectations = [each for each in found if each.actor == item.actor]
        self.player = player_of_orders()
        self.is_stopped = False

    def problem(self, asked: Asked) -> Problem:
        return Problem(self.record, self.item.device, self.item.actor, asked, self.expectations)

    def answers(self) -> List[Answer]:
        """What was explored: the whole graph where that can be, else what bounds leave of it, and draws."""
        settings = self.settings
        if settings.draws is not None:
            return [self.drawn(settings.asked, range(1, settings.draws + 1))]
        answer = self.graph(settings.asked)
        if answer.is_whole or self.is_stopped:
            return [answer]
        answers = [answer]
        if settings.asked.within is None and settings.asked.preemptions is None:
            answers = self.within_preemptions() or answers
        if not self.is_stopped:
            asked = replace(settings.asked, preemptions=None)
            answers.append(replace(self.drawn(asked, range(1, DRAWN + 1)), why=answer.why))
        return answers

    def within_preemptions(self) -> List[Answer]:
        """The orders with the greatest bound of changes that can be explored whole."""
        whole: List[Answer] = []
        for most in PREEMPTIONS:
            answer = self.graph(replace(self.settings.asked, preemptions=most))
            if not answer.is_whole:
                break
            whole = [answer]
        return whole

    def tell(self, states: int, done: int) -> None:
        progress.tell(f"{self.item.name}: {self.item.actor}, {states} states, unit", done, self.total)

    def graph(self, asked: Asked) -> Answer:
        """All orders within bounds."""
        problem = self.problem(asked)
        self.total = sum(problem.counts)
        graph = Graph(problem, self.settings.most_states, self.settings.seconds, self.tell)
        self.is_stopped = graph.is_stopped
        answer = self.answer(problem, graph.states())
        if not graph.is_whole:
            return replace(answer, is_whole=False, is_all=False, why=why_text(graph))
        counts = Counts(graph)
        ends: Dict[Thing, List[int]] = {}
        for node, state in graph.ends.items():
            for thing in things_at(state, problem):
                ends.setdefault(thing, []).append(node)
        found = self.found_in(graph, counts, ends) if ends else []
        return replace(answer, orders=counts.total, is_all=not problem.is_cut, found=in_order(found))

    def found_in(self, graph: Graph, counts: Counts, ends: Dict[Thing, List[int]]) -> List[Found]:
        """The things of a whole graph, each with the least order to one of its ends."""
        problem, least, found = graph.problem, LeastOrders(graph), []
        for thing, nodes in ends.items():
            orders = sum(counts.orders[node] for node in nodes)
            is_of_all = problem.asked.preemptions is None
            chance = sum(counts.chances[node] for node in nodes) if is_of_all else None
            (changes, overtaken), best = min((least.cost(node), node) for node in nodes)
            one = found_of(thing, orders, chance, changes, overtaken, None)
            found.append(self.with_order(problem, one, thing, least.order(best), orders == counts.total))
        return found

    def drawn(self, asked: Asked, numbers: Sequence[int]) -> Answer:
        """Orders that are drawn."""
        number, count = self.settings.shard if self.settings.draws is not None else (1, 1)
        problem = self.problem(asked)
        progress.tell(f"{self.item.name}: {self.item.actor}, orders are drawn")
        draws = Draws(problem, self.settings.seed, numbers[number - 1 :: count], self.settings.seconds)
        self.is_stopped = draws.is_stopped
        found = []
        for thing, orders in draws.counts.items():
            least = draws.least[thing]
            one = found_of(thing, orders, None, least.changes, least.overtaken, least.number)
            found.append(self.with_order(problem, one, thing, least.actors, False))
        why = "the time was over" if draws.is_late else ""
        why = "stopped from the keyboard" if draws.is_stopped else why
        answer = replace(self.answer(problem), drawn=draws.drawn, seed=self.settings.seed, orders=draws.drawn)
        return replace(answer, is_whole=not why, is_all=False, why=why, found=in_order(found))

    def answer(self, problem: Problem, states: Optional[int] = None) -> Answer:
        item, asked = self.item, problem.asked
        others = tuple(name for name in problem.names if name != item.actor)
        return Answer(
            item.number, item.name, problem.device_name, item.actor, others, sum(problem.counts),
            asked.grain, asked.waits, asked.within, asked.preemptions, states=states,
        )

    def with_order(self, problem: Problem, found: Found, thing: Thing, order: Sequence[int],
                   is_in_each: bool) -> Found:
        """What was found, with its short order as a record, which is played again."""
        if (is_in_each and not thing.is_wrong()) or self.is_stopped:
            return found
        progress.tell(f"{self.item.name}: {self.item.actor}, a short order is looked for")
        turns = turns_of(problem, order)
        return self.played(problem, found, thing, shortened(problem, turns, thing))

    def played(self, problem: Problem, found: Found, thing: Thing, turns: Sequence[Turn]) -> Found:
        expectation = str(thing.what) if thing.kind == "missed" else None
        record = record_of(problem, turns, self.item.actor, expectation)
        found = replace(found, units=record.units, of_units=sum(len(actor.lines) for actor in problem.actors))
        if not is_record(problem):
            return found
        judged = judge(record.text, thing, self.player)
        lines = tuple(record.text.splitlines())
        return replace(found, lines=lines, plays=judged.is_so, cause=judged.cause, text=judged.text)


def why_text(graph: Graph) -> str:
    """Why a graph is not whole."""
    if graph.is_stopped:
        return f"stopped from the keyboard at {graph.states():,} states"
    if graph.states() > graph.most_states:
        return f"there are more than {graph.most_states:,} states"
    return f"the time was over at {graph.states():,} states"


def found_of(thing: Thing, *counts: Any) -> Found:
    """What was found. `counts` are its orders, its chance, its changes, what was overtaken, and its draw."""
    values = thing.believed, thing.present
    believed, present = (None if value is None else thing.what.value_text(value) for value in values)
    return Found(thing.kind, thing.name(), thing.why, believed, present, *counts)


# All actors


def answers_of(task: Tuple[Item, Settings]) -> List[Answer]:
    return Exploration(*task).answers()


def of_this_shard(items: Sequence[Item], settings: Settings) -> List[Item]:
    """The actors of this part of a run: all where orders are drawn, which are in parts themselves."""
    number, count = settings.shard
    return list(items) if settings.draws is not None else list(items[number - 1 :: count])


def ignore_stops() -> None:
    """A stop from the keyboard is for the process that started this one."""
    signal.signal(signal.SIGINT, signal.SIG_IGN)


def explored(items: Sequence[Item], settings: Settings, processes: int) -> Iterator[List[Answer]]:
    """The answers of one actor after another. A stop from the keyboard ends it; what was found until
    then came."""
    tasks = [(item, settings) for item in of_this_shard(items, settings)]
    if processes == 1:
        for task in tasks:
            exploration = Exploration(*task)
            yield exploration.answers()
            if exploration.is_stopped:
                raise KeyboardInterrupt
        return
    with multiprocessing.Pool(processes, ignore_stops) as pool:
        yield from pool.imap(answers_of, tasks)
