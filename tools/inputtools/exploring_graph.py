"""The graph of all states that the orders of a device's actors reach, and what is counted on it.

It is explored breadth first. It has no cycle, so one pass in which each state comes behind those before
it counts the orders that lead to each state, in whole numbers of any size, and what chance a scheduler
has that draws among the actors that can go on. Another pass finds the least order: of the fewest
changes of actor, then of the fewest units that were overtaken.
"""

from __future__ import annotations

import gc
import time
from collections import deque
from typing import Callable, Deque, Dict, List, NamedTuple, Optional, Tuple

from inputtools.explored_keys import StateKey
from inputtools.explored_state import State
from inputtools.exploring import Problem

LOOKED_EVERY = 256


class Edge(NamedTuple):
    """An actor goes on to a state, and so many units are overtaken."""

    actor: int
    to: int
    overtaken: int


class Least(NamedTuple):
    """The least order to a state by an actor: its changes of actor, the units that were overtaken, and
    where it comes from, with who went on last there."""

    changes: int
    overtaken: int
    before: int
    last: Optional[int]


Tell = Callable[[int, int], None]


class Graph:
    """All states that were reached, with edges. The states themselves are kept of ends alone, where
    nobody can go on."""

    def __init__(self, problem: Problem, most_states: int, seconds: float,
                 tell: Optional[Tell] = None) -> None:
        self.problem, self.most_states, self.tell = problem, most_states, tell
        self.end_time = time.monotonic() + seconds
        self.edges: List[List[Edge]] = []
        self.ends: Dict[int, State] = {}
        self.numbers: Dict[StateKey, int] = {}
        self.is_whole, self.is_stopped = True, False
        self.waiting: Deque[Tuple[int, State]] = deque()
        # (states have no cycles, and there are many of them: looking for cycles takes a third of the time)
        gc.disable()
        try:
            self.explore()
        except KeyboardInterrupt:
            self.is_whole, self.is_stopped = False, True
        finally:
            gc.enable()
        self.numbers = {}

    def explore(self) -> None:
        self.number_of(self.problem.start)
        while self.waiting and self.is_whole:
            node, state = self.waiting.popleft()
            if len(self.edges) > self.most_states:
                self.is_whole = False
            if node % LOOKED_EVERY == 0:
                self.look(state)
            successors = self.problem.successors(state)
            if not successors:
                self.ends[node] = state
            for actor, new in successors:
                overtaken = self.problem.overtaken(state, actor)
                self.edges[node].append(Edge(actor, self.number_of(new), overtaken))

    def number_of(self, state: State) -> int:
        """The number of a state, which is explored where it is new."""
        key = self.problem.key(state)
        number = self.numbers.setdefault(key, len(self.edges))
        if number == len(self.edges):
            self.edges.append([])
            self.waiting.append((number, state))
        return number

    def look(self, state: State) -> None:
        """Does it take too long? And how far it is."""
        if time.monotonic() > self.end_time:
            self.is_whole = False
        if self.tell is not None:
            self.tell(len(self.edges), sum(state.positions))

    def states(self) -> int:
        return len(self.edges)

    def in_order(self) -> List[int]:
        """The states, each behind all before it."""
        before = [0] * len(self.edges)
        for row in self.edges:
            for edge in row:
                before[edge.to] += 1
        ready, order = [0], []
        for node in ready:
            order.append(node)
            for edge in self.edges[node]:
                before[edge.to] -= 1
                if before[edge.to] == 0:
                    ready.append(edge.to)
        return order


class Counts:
    """How many orders lead to each state of a whole graph, and by what chance."""

    def __init__(self, graph: Graph) -> None:
        self.orders, self.chances = [0] * len(graph.edges), [0.0] * len(graph.edges)
        self.orders[0], self.chances[0] = 1, 1.0
        for node in graph.in_order():
            row = graph.edges[node]
            for edge in row:
                self.orders[edge.to] += self.orders[node]
                self.chances[edge.to] += self.chances[node] / len(row)
        self.total = sum(self.orders[node] for node in graph.ends)


class LeastOrders:
    """The least order to each state of a whole graph, by who went on last."""

    def __init__(self, graph: Graph) -> None:
        self.best: List[Dict[Optional[int], Least]] = [{} for _ in graph.edges]
        self.best[0][None] = Least(0, 0, 0, None)
        for node in graph.in_order():
            for edge in graph.edges[node]:
                self.note(node, edge)

    def note(self, node: int, edge: Edge) -> None:
        """Enters the least way on from a state."""
        found = None
        for last, least in self.best[node].items():
            is_change = last is not None and last != edge.actor
            new = Least(least.changes + is_change, least.overtaken + edge.overtaken, node, last)
            if found is None or new[:2] < found[:2]:
                found = new
        known = self.best[edge.to].get(edge.actor)
        if found is not None and (known is None or found[:2] < known[:2]):
            self.best[edge.to][edge.actor] = found

    def cost(self, node: int) -> Tuple[int, int]:
        return min(least[:2] for least in self.best[node].values())

    def order(self, node: int) -> List[int]:
        """The actors of the least order to a state, one for each unit or call."""
        cost = self.cost(node)
        last = next(last for last, least in self.best[node].items() if least[:2] == cost)
        actors = []
        while node:
            least = self.best[node][last]
            assert last is not None
            actors.append(last)
            node, last = least.before, least.last
        return actors[::-1]
