"""Plays a record as `inputplay --threads --history FILE` may do, with the jobs' calls in a random order:
`python3 -m second.side_by_side RECORD SEED`.

Each source, client, tap, joystick and owner is a job. One job at a time makes a call on its device, and which one is drawn by
the seed; so the same seed gives the same run. A `follow` waits as long as a source of its device has not
ended, and stops its job after so many answers Again in a row. It shares no code with the program.
"""

import argparse
import os
import random
import threading
from concurrent.futures import ThreadPoolExecutor
from typing import Dict, List, Optional

from second.device import Device
from second.model import Actor, read_record, report, streams_of
from second.values import Answer, Fed, Item, Reply, Step, Streams

IDLE = 1000000


class Order:
    """Draws whose call is next. A job that waits for its turn stands in a list of its own place."""

    def __init__(self, seed: int, jobs: int) -> None:
        self.random = random.Random(seed)
        self.waiting: Dict[str, threading.Event] = {}
        self.running = jobs
        self.lock = threading.Lock()

    def next(self) -> None:
        """All jobs that have not ended wait, so one of them is drawn."""
        if self.waiting and len(self.waiting) == self.running:
            self.waiting.pop(self.random.choice(sorted(self.waiting))).set()

    def turn(self, name: str) -> None:
        turn = threading.Event()
        with self.lock:
            self.waiting[name] = turn
            self.next()
        turn.wait()

    def end(self) -> None:
        with self.lock:
            self.running -= 1
            self.next()


class Share:
    """A device for one job, which waits for its turn before each call."""

    def __init__(self, device: Device, name: str, order: Order) -> None:
        self.device, self.name, self.order, self.caps = device, name, order, device.caps

    def step(self, step: Step) -> Answer:
        self.order.turn(self.name)
        return self.device.step(step)

    def feedback(self, room: int) -> Fed:
        self.order.turn(self.name)
        return self.device.feedback(room)


class Job(Actor):
    """An actor whose follow waits."""

    def __init__(self, name: str, role: str, device: Device, order: Order, sources: int, idle: int) -> None:
        super().__init__(name, role, Share(device, name, order))
        self.shared, self.order = device, order
        self.sources, self.idle, self.agains = sources, idle, 0

    def hand_out(self, command: str, bound: Optional[int]) -> None:
        self.agains = 0
        super().hand_out(command, bound)

    def see_taken(self, item: Item) -> None:
        self.agains = 0
        super().see_taken(item)

    def waits_on(self, reply: Reply) -> bool:
        if reply[0] != "again" or self.shared.ends >= self.sources:
            return False
        self.agains += 1
        if self.agains < self.idle:
            return True
        self.stop = f"idle {self.idle} {reply[1]}"
        return False

    def work(self, lines: List[List[str]], streams: Streams) -> None:
        try:
            for words in lines:
                self.do(words, streams)
            if self.role == "source" and self.stop == "finished":
                reply, _ = self.device.step(("end",))
                if reply[0] == "refused":
                    self.stop = f"full {reply[1]}"
        finally:
            self.order.end()


def play_side_by_side(text: str, seed: int, folder: str = ".", idle: int = IDLE) -> List[str]:
    """The lines of the report with the history."""
    record = read_record(text)
    devices = [Device(name, caps) for name, caps in record.descriptions]
    order = Order(seed, len(record.actors))
    sources = [sum(role == "source" and d == i for _, role, d in record.actors) for i in range(len(devices))]
    jobs = [Job(name, role, devices[d], order, sources[d], idle) for name, role, d in record.actors]

    def work(job: Job) -> None:
        job.work([words for name, *words in record.actions if name == job.name], streams_of(folder))

    with ThreadPoolExecutor(len(jobs) or 1) as pool:
        list(pool.map(work, jobs))
    for job in jobs:
        job.device = job.shared
    return report(devices, jobs, history=True)


def main() -> None:
    parser = argparse.ArgumentParser(prog="second.side_by_side", description=__doc__, formatter_class=argparse.RawDescriptionHelpFormatter)
    parser.add_argument("--idle", type=int, default=IDLE, help=f"answers Again in a row that end a follow ({IDLE})")
    parser.add_argument("record", help="the record's file")
    parser.add_argument("seed", type=int, help="a number that the order is drawn by")
    words = parser.parse_args()
    folder = os.path.dirname(os.path.abspath(words.record))
    for line in play_side_by_side(open(words.record).read(), words.seed, folder, words.idle):
        print(line)


if __name__ == "__main__":
    main()
