"""What the tests of tools/explore share: records that are explored, small random ones, and every order
of a record played by the second program as it is."""

import random
import tempfile
from collections import Counter
from math import comb
from pathlib import Path

TOP = Path(__file__).resolve().parents[1]

from inputtools.explored_ends import (READS, differences, things_at)
from inputtools.explored_record import ExploredRecord
from inputtools.exploring import Asked, Problem
from inputtools.exploring_graph import Counts, Graph
from second.model import run
from second.reader import NO_CLIENT

MOST_STATES, SECONDS = 10**6, 600


def explored_record(text, folder="."):
    with tempfile.TemporaryDirectory() as temp:
        path = Path(temp) / "explored.rec"
        path.write_text(text)
        return ExploredRecord("explored.rec", str(path), str(folder))


def whole_graph(record, target, **asked):
    problem = Problem(record, 0, target, Asked(**asked))
    graph = Graph(problem, MOST_STATES, SECONDS)
    return graph, Counts(graph)


def counted_things(graph, counts):
    found = Counter()
    for node, state in graph.ends.items():
        for thing in things_at(state, graph.problem):
            found[thing] += counts.orders[node]
    return found


def things_of(text, target, folder=".", **asked):
    """How many orders a record has for an actor, and in how many each thing comes: (kind, name, why)
    or, of what is apart, (kind, name, believed, present)."""
    graph, counts = whole_graph(explored_record(text, folder), target, **asked)
    rows = {}
    for thing, orders in counted_things(graph, counts).items():
        values = (thing.why,) if thing.believed is None else (thing.believed, thing.present)
        rows[thing.kind, thing.name(), *values] = orders
    return counts.total, rows


# Every order, played as it is


def all_orders(counts):
    """The orders of units of so many each, as lists of actors."""
    if not any(counts):
        yield []
    for actor, count in enumerate(counts):
        if count:
            rest = [*counts[:actor], count - 1, *counts[actor + 1 :]]
            for order in all_orders(rest):
                yield [actor, *order]


def count_of_orders(counts):
    """How many orders there are of units of so many each."""
    total, product = 0, 1
    for count in counts:
        total += count
        product *= comb(total, count)
    return product


def text_in_order(problem, order, names):
    """The record whose units stand in an order, with the reads of the end of some actors."""
    at, lines = [0] * len(problem.names), list(problem.record.head)
    for actor in order:
        unit = problem.units[actor][at[actor]]
        at[actor] += 1
        lines += [" ".join(("do", problem.names[actor], *line.words)) for line in unit.lines]
    for actor in problem.actors:
        if actor.name in names:
            lines += [" ".join(("do", actor.name, *words)) for words in READS.get(actor.role, ())]
    return "".join(line + "\n" for line in lines)


class AtEnd:
    """An actor of the second program, as its belief is compared."""

    def __init__(self, actor):
        self.role, self.joystick, self.actor = actor.role, actor.joystick, actor

    def belief(self):
        return self.actor.reader.view if self.role == "client" else self.actor.view

    def __getattr__(self, name):
        return getattr(self.actor, name)

    def has_opened(self):
        clients = {"client": self.actor.reader.client, "joy": self.joystick.reader.client,
                   "tap": self.actor.client}
        return clients.get(self.role) != NO_CLIENT


def played_things(problem):
    """Every order played by the second program: of each reader how often each thing is apart."""
    found = {actor.name: Counter() for actor in problem.actors if actor.role in ("client", "tap", "joy")}
    # (where the history may be full, the reads of one keep steps from another)
    groups = [[name] for name in found] if problem.limits.counts_steps else [list(found)]
    for order in all_orders(problem.counts):
        for names in groups:
            (device,), actors = run(text_in_order(problem, order, names))
            for end in map(AtEnd, actors):
                if end.name in names and end.has_opened():
                    found[end.name].update(differences(end, device))
    return found


def graph_things(record, target, share, folds):
    """The same by a graph, times how many orders of the record each of its orders stands for."""
    graph, counts = whole_graph(record, target, folds=folds)
    found = {}
    for thing, orders in counted_things(graph, counts).items():
        if thing.kind in ("apart", "open-frame"):
            key = thing.what, thing.believed, thing.present
            found.setdefault(thing.actor, Counter())[key] += orders * (share // counts.total)
    return found


# Random records

OF_CLIENT = ("follow", "grab", "ungrab", "force", "next 1", "skip 2", "revoke", "close", "open",
             "write 900 EV_LED LED_CAPSL 1", "write 900 EV_LED LED_CAPSL 0", "clock monotonic 2000",
             "mask EV_KEY 0 0x0")
OF_TAP = ("read 64", "read 1", "grab", "ungrab", "discard", "keys", "open", "close", "revoke", "leds",
          "clock boottime 2000")
FILTERS = ("filter eat EV_KEY KEY_B", "filter norepeat", "filter chord KEY_A KEY_B",
           "filter bounce KEY_A 5000")


class RandomRecord:
    """A small record by a seed: keys, an LED, maybe an axis, slots, autorepeat, a filter and a short
    log; one source or two, and two clients, taps or joysticks."""

    def __init__(self, seed):
        self.random = random.Random(seed)
        self.has_repeat, self.has_slots = self.random.random() < 0.4, self.random.random() < 0.4
        self.has_axis, self.has_two_sources = self.random.random() < 0.5, self.random.random() < 0.4
        self.now = 1000
        # (about how many orders it has, once its text was made)
        self.orders = 0

    def text(self):
        lines = ["inputrecord 2", *self.description()]
        lines += ["source s", "source z"] if self.has_two_sources else ["source s"]
        names = [(f"c{number}", self.random.choice(("client", "client", "tap", "tap", "joy")))
                 for number in range(2)]
        lines += [f"{role} {name}" for name, role in names]
        decks = self.source_decks() + [[[f"do {name} {line}"] for line in self.own_lines(role)]
                                       for name, role in names]
        self.orders = count_of_orders([len(deck) for deck in decks])
        return "".join(line + "\n" for line in lines + self.shuffled(decks))

    def description(self):
        choice, rows = self.random.choice, ["device d"]
        rows.append(f"hint {choice((8, 8, 2))}")
        rows += ["type EV_REP"] if self.has_repeat else []
        rows += [f"log {self.random.randint(4, 16)}"] if self.random.random() < 0.15 else []
        rows += ["cap EV_KEY BTN_TRIGGER"] if self.random.random() < 0.3 else []
        rows += ["cap EV_KEY KEY_A", "cap EV_KEY KEY_B", "cap EV_LED LED_CAPSL"]
        rows += [f"axis ABS_X 0 -100 100 {choice((0, 0, 4))} 0 0"] if self.has_axis else []
        rows += ["slots 2", "axis ABS_MT_POSITION_X 0 0 4000 0 0 0"] if self.has_slots else []
        return rows + ([choice(FILTERS)] if self.random.random() < 0.3 else [])

    def shuffled(self, decks):
        order = [number for number, deck in enumerate(decks) for _ in deck]
        self.random.shuffle(order)
        at, lines = [0] * len(decks), []
        for number in order:
            lines += decks[number][at[number]]
            at[number] += 1
        return lines

    def event(self):
        choice, kind = self.random.choice, self.random.random()
        if self.has_slots and kind < 0.3:
            return choice((f"EV_ABS ABS_MT_SLOT {choice((0, 1))}",
                           f"EV_ABS ABS_MT_TRACKING_ID {choice((-1, 5, 6))}",
                           f"EV_ABS ABS_MT_POSITION_X {self.random.randint(0, 9)}"))
        if self.has_axis and kind < 0.5:
            return f"EV_ABS ABS_X {self.random.randint(-9, 9)}"
        key = choice(("KEY_A", "KEY_B", "KEY_A", "KEY_B", "BTN_TRIGGER"))
        return f"EV_KEY {key} {choice((0, 1, 1))}"

    def source_unit(self, name):
        self.now += self.random.choice((1000, 3000, 260000))
        kind = self.random.random()
        if self.has_repeat and kind < 0.15:
            return [f"do {name} tick {self.now}"]
        if kind < 0.25:
            return [f"do {name} {self.random.choice((f'inhibit {self.now}', 'uninhibit'))}"]
        events = [self.event() for _ in range(self.random.choice((1, 2)))]
        if not self.has_two_sources or self.random.random() < 0.7:
            events.append("EV_SYN SYN_REPORT 0")
        return [f"do {name} event {self.now} {event}" for event in events]

    def source_decks(self):
        if not self.has_two_sources:
            return [[self.source_unit("s") for _ in range(self.random.choice((1, 2, 3)))]]
        return [[self.source_unit(name) for _ in range(self.random.choice((1, 2)))] for name in "sz"]

    def own_lines(self, role):
        """An actor's lines: it opens, and does a few of three commands, or of grabs."""
        if role == "joy":
            return ["open",
                    *(f"read {self.random.choice((1, 2, 9))}" for _ in range(self.random.choice((1, 2))))]
        own = ["open"] if role == "client" or self.random.random() < 0.8 else []
        if role == "tap" and own and self.random.random() < 0.7:
            own.append("keys")
        commands = OF_CLIENT if role == "client" else OF_TAP
        commands += ((("axis ABS_X",) if self.has_axis else ()) + (("syncslots",) if self.has_slots else ())
                     if role == "tap" else ())
        picked = [*self.random.sample(commands, 2), commands[0]]
        picked += ["grab", "grab", "ungrab"] if self.random.random() < 0.4 else []
        return own + [self.random.choice(picked) for _ in range(self.random.choice((1, 1, 2)))]


def compare_by_seed(seed, most):
    """What differs of a random record between the graph, in both forms, and every order as it is
    played; None where it has more orders than `most`. And how many things were compared."""
    given = RandomRecord(seed)
    text = given.text()
    if given.orders > most:
        return None, 0
    record = explored_record(text)
    joint = Problem(record, 0, None, Asked(folds=False))
    total = count_of_orders(joint.counts)
    played = played_things(joint)
    together = graph_things(record, None, total, False)
    differing, count = [], 0
    for name, wanted in played.items():
        alone = graph_things(record, name, total, True).get(name, Counter())
        count += len(wanted)
        if not wanted == together.get(name, Counter()) == alone:
            differing.append((seed, name, wanted, together.get(name), alone, text))
    return differing, count
