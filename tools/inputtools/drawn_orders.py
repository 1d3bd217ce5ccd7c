"""Orders that are drawn: each next actor by how many units it has left, so that each order is as likely
as any other where nothing keeps an actor back.

Each draw has a seed of its own, made of the seed, of what is explored and of the draw's number. So
draws can be made in any parts, on any machines, and are the same.
"""

from __future__ import annotations

import random
import time
from typing import Dict, Iterable, List, NamedTuple, Tuple

from inputtools.explored_ends import Thing, things_at
from inputtools.explored_state import State
from inputtools.exploring import Problem


class DrawnOrder(NamedTuple):
    """An order that was drawn: its changes of actor, the units that were overtaken, the number of the
    draw, and the actors."""

    changes: int
    overtaken: int
    number: int
    actors: Tuple[int, ...]


class Draws:
    """What draws gave: how many there were, and of each thing in how many it came, with the least of
    these orders."""

    def __init__(self, problem: Problem, seed: int, numbers: Iterable[int], seconds: float) -> None:
        self.problem, self.seed = problem, f"{seed} {problem.number} {problem.target}"
        self.drawn, self.is_stopped, self.is_late = 0, False, False
        self.counts: Dict[Thing, int] = {}
        self.least: Dict[Thing, DrawnOrder] = {}
        end_time = time.monotonic() + seconds
        try:
            for number in numbers:
                if time.monotonic() > end_time:
                    self.is_late = True
                    break
                self.draw(number)
        except KeyboardInterrupt:
            self.is_stopped = True

    def draw(self, number: int) -> None:
        order, state = self.order(number)
        things = things_at(state, self.problem)
        self.drawn += 1
        for thing in things:
            self.counts[thing] = self.counts.get(thing, 0) + 1
            self.least[thing] = min(order, self.least.get(thing, order))

    def order(self, number: int) -> Tuple[DrawnOrder, State]:
        """A whole order, and the state at its end."""
        source, problem = random.Random(f"{self.seed} {number}"), self.problem
        state, changes, overtaken = problem.start, 0, 0
        actors: List[int] = []
        while True:
            successors = dict(problem.successors(state))
            if not successors:
                return DrawnOrder(changes, overtaken, number, tuple(actors)), state
            actor = chosen(source, problem, state, list(successors))
            changes += bool(actors) and actors[-1] != actor
            overtaken += problem.overtaken(state, actor)
            actors.append(actor)
            state = successors[actor]


def chosen(source: random.Random, problem: Problem, state: State, actors: List[int]) -> int:
    """An actor, by how many units it has left up to the next barrier."""
    weights = [problem.units_left(state, actor) for actor in actors]
    at = int(source.random() * sum(weights))
    for actor, weight in zip(actors, weights):
        if at < weight:
            return actor
        at -= weight
    return actors[-1]
