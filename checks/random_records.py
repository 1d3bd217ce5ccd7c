#!/usr/bin/env python3
"""Writes random records, each with the report that the model gives of it and the files of its streams, into a
folder for checks/compare.

usage: random_records.py FOLDER COUNT SEED [--history]
"""

import os
import random
import struct
import sys
from pathlib import Path
from typing import Callable, Dict, Iterable, List, Optional, Set, Tuple

if not __package__:
    import repository_path  # noqa: F401  (run as a script: the packages of this repository)

from second.device import SLOT, ID
from second.model import RECORD_FORMS, play
from second.names import ABS, CODES, GREATEST, KEY, LED, MSC, REL, REP, SND, SW, SYN, code_text, kind_text

CLOCKS = ["realtime", "monotonic", "boottime"]
FULL = 2**64 - 1

MOST_STREAMS = 16

# What goes to a device, which its owner reads.
OUTPUTS = (REP, MSC, LED, SND)

# Buttons that a joystick numbers, of those before its own too.
BUTTONS = [0x100, 0x101, 0x110, 0x120, 0x121, 0x130]


# The types and codes that a device has, and its actors by their roles and names.
Codes = List[Tuple[int, int]]
Actors = List[Tuple[str, str]]


class Generator:
    """Makes one record. Where a folder is given its sources have streams, whose files go there."""

    def __init__(self, seed: int, folder: Optional[str] = None) -> None:
        self.r = random.Random(seed)
        self.seed, self.folder, self.streams = seed, folder, 0
        self.now = 1000
        self.version = self.r.choice([1, 2])
        self.devices: List[Tuple[Actors, Codes, int]] = []

    def moment(self) -> int:
        self.now += self.r.choice([0, 0, 1, 1000, 10000, 100000])
        return self.now + self.r.choice([0, 0, 0, -500])

    def value(self, kind: int, code: int, slots: int) -> int:
        r = self.r
        if kind == KEY:
            return r.choice([0, 1, 1, 0, 2, -1])
        if (kind, code) == (ABS, SLOT):
            return r.randint(-1, slots + 1)
        if (kind, code) == (ABS, ID):
            return r.choice([-1, -1, 1, 2, 3, 70000])
        if kind == ABS:
            return r.choice([r.randint(-20, 20), r.randint(-500, 500), r.randint(-(2**31), 2**31 - 1)])
        if kind == REP:
            return r.choice([-1, 0, 10, 33, 250])
        return r.choice([0, 1, 1, -2, 5])

    def description(self, d: int) -> Tuple[List[str], Codes, int]:
        """The lines of a device, and beside them the codes that its events take, and its slots."""
        r, is_requested = self.r, self.version == 2 and self.r.random() < 0.5
        lines = [f"udevice dev{d}" if is_requested else f"device dev{d}"]
        codes: Codes = []
        kinds = [kind for kind in (KEY, REL, ABS, MSC, SW, LED, SND) if r.random() < 0.55] or [KEY]
        hint = r.choice([2, 3, 5, 8, 8, 8, 16, 20, None])
        if hint:
            lines.append(f"hint {hint}")
        log = r.choice([None] * (2 if is_requested else 6) + [r.randint(1, 120)])
        if log:
            lines.append(f"log {log}")
        if r.random() < 0.5:
            lines.append(f"clock realtime {r.randint(0, 10**12)}")
        if r.random() < 0.5:
            lines.append(f"clock boottime {r.randint(0, 10**9)}")
        slots = r.choice([0, 0, 1, 2, 3, 5] + ([70, 256] if self.version == 2 and r.random() < 0.3 else []))
        if slots:
            lines.append(f"slots {slots}")
        if r.random() < 0.5:
            lines.append("type EV_REP")
            codes += [(REP, 0), (REP, 1)]
        for kind in kinds:
            for _ in range(r.randint(1, 4) if kind != ABS else 0):
                code = (r.choice(list(CODES[kind].values())) if r.random() < 0.9
                        else r.randint(1, GREATEST[kind]))
                if kind == KEY and self.version == 2 and r.random() < 0.5:
                    code = r.choice(BUTTONS)
                lines.append(f"cap {kind_text(kind)} {code_text(kind, code)}")
                codes.append((kind, code))
        axes = self.axes(lines) if ABS in kinds or slots else set()
        codes += [(ABS, code) for code in axes]
        if slots:
            codes += [(ABS, SLOT)] * 3 + [(ABS, ID)] * 2
        if self.version == 2 and r.random() < 0.6:
            lines += [f"filter {self.filter_words(codes)}" for _ in range(r.choice([1, 1, 2, 3, 8]))]
        if is_requested:
            codes += [(SYN, 1)] + 2 * [(kind, code) for kind, code in codes if kind in OUTPUTS]
        return lines, codes, slots

    def filter_words(self, codes: Codes) -> str:
        """What a line says behind `filter`, mostly about codes that the device has."""
        r, form = self.r, self.r.choice(["eat", "norepeat", "chord", "chord", "chord", "bounce", "bounce"])
        if form == "norepeat":
            return form
        if form == "eat":
            kind, code = r.choice(codes or [(KEY, 30)]) if r.random() < 0.9 else (REL, 8)
            return f"{form} {kind_text(kind)} {code_text(kind, code)}"
        keys = sorted({code for kind, code in codes if kind == KEY} | {30, 48})
        first, second = r.sample(keys, 2)
        if form == "bounce":
            return f"{form} {code_text(KEY, second)} {r.choice([1, 1000, 5000, 50000, 1000000])}"
        return f"{form} {code_text(KEY, first)} {code_text(KEY, second)}"

    def axes(self, lines: List[str]) -> Set[int]:
        r = self.r
        axes: Set[int] = set()
        for _ in range(r.randint(1, 5)):
            code = r.choice([0, 1, 2, 0x18, 0x30, 0x31, 0x35, 0x36, 0x39, 0x3A, 0x2F, 0x3D, 0x3F])
            if code in axes:
                continue
            axes.add(code)
            fuzz = 0 if code in (SLOT, ID) else r.choice([0, 0, 1, 4, 8, 16])
            value = 0 if 0x2F <= code <= 0x3D else r.choice([0, 5, -100, 100])
            low, high, resolution = r.randint(-500, 0), r.randint(0, 4096), r.choice([0, 12])
            lines.append(f"axis {code_text(ABS, code)} {value} {low} {high} {fuzz} 0 {resolution}")
        return axes

    def actors(self, d: int, lines: List[str]) -> Actors:
        r = self.r
        actors: Actors = []
        owners = int(r.random() < 0.8) if lines[0].startswith("udevice") else 0
        for role, count in (("source", r.choice([1, 1, 2])),
                            ("client", r.randint(1, 3)),
                            ("tap", r.randint(0, 2)),
                            ("owner", owners),
                            ("joy", r.choice([0, 1, 2]) if self.version == 2 else 0)):
            for i in range(count):
                lines.append(f"{role} {role[0]}{d}{i}")
                actors.append((role, f"{role[0]}{d}{i}"))
        return actors

    def record(self) -> str:
        r, lines, actions = self.r, [f"inputrecord {self.version}"], []
        for d in range(r.choice([1, 1, 1, 2])):
            description, codes, slots = self.description(d)
            self.devices.append((self.actors(d, description), codes, slots))
            lines += description
        busy = r.random() < 0.4
        for actors, _, _ in self.devices:
            opening = [name for role, name in actors if role not in ("source", "owner")]
            actions += [f"do {name} open" for name in opening if r.random() < 0.8]
        for _ in range(r.randint(20, 260)):
            actors, codes, slots = r.choice(self.devices)
            weights = [(12 if busy else 3) if role == "source" else 1 for role, _ in actors]
            role, name = r.choices(actors, weights)[0]
            acts: Dict[str, Callable[..., List[str]]] = {
                "source": self.source_action, "joy": self.joy_action, "owner": self.owner_action}
            act = acts.get(role, self.client_action)
            actions += [f"do {name} {action}" for action in act(role, codes, slots, busy)]
        for actors, _, _ in self.devices:
            last = {"client": "follow", "joy": "read 4294967295", "owner": "feedback 4096"}
            actions += [f"do {name} {last[role]}" for role, name in actors
                        if role in last and r.random() < 0.7]
        return "\n".join(lines + actions) + "\n"

    def stream(self, codes: Codes, slots: int) -> List[str]:
        """A command that names a file of a few events. Records of 16 bytes come with version 2."""
        r = self.r
        command = r.choice(list(RECORD_FORMS)) if self.version == 2 else "stream"
        name, self.streams = f"events-{self.seed}-{self.streams}", self.streams + 1
        with open(os.path.join(self.folder or "", name), "wb") as file:
            for _ in range(r.randint(0, 20)):
                kind, code = r.choice(codes) if r.random() < 0.6 else (0, 0)
                time = divmod(self.moment(), 1000000)
                file.write(struct.pack(RECORD_FORMS[command], *time, kind, code,
                                       self.value(kind, code, slots)))
        return [f"{command} {name}"]

    def source_action(self, _: str, codes: Codes, slots: int, busy: bool) -> List[str]:
        r, x = self.r, self.r.random()
        if x < 0.05 and self.folder and self.streams < MOST_STREAMS:
            return self.stream(codes, slots)
        if x < 0.86:
            moment = self.moment()
            actions: List[str] = []
            for _i in range(r.randint(0, 4) if busy else r.randint(0, 2)):
                kind, code = (r.randint(0, 21), r.randint(0, 64)) if r.random() < 0.05 else r.choice(codes)
                event = f"{kind_text(kind)} {code_text(kind, code)} {self.value(kind, code, slots)}"
                actions.append(f"event {moment} {event}")
            if r.random() < 0.85:
                actions.append(f"event {moment} EV_SYN SYN_REPORT 0")
            elif r.random() < 0.3:
                word = r.choice(["SYN_CONFIG", "SYN_MT_REPORT", "SYN_DROPPED", "7"])
                actions.append(f"event {moment} EV_SYN {word} 0")
            return actions
        if x < 0.95:
            return [f"tick {self.moment() + r.choice([0, 40000, 300000])}"]
        return [f"inhibit {self.moment()}"] if x < 0.97 else ["uninhibit"]

    def joy_action(self, *_: object) -> List[str]:
        r, x = self.r, self.r.random()
        if x < 0.1:
            return ["open"]
        return ["close"] if x < 0.13 else [f"read {r.choice([0, 1, 1, 2, 5, 20, 5000])}"]

    def owner_action(self, *_: object) -> List[str]:
        """One feedback call, or so many that a small limit is met."""
        r = self.r
        return ([f"feedback {r.choice([1, 1, 2, 5, 15, 16, 4096])}"]
                * (1 if r.random() < 0.9 else r.randint(2, 30)))

    def new_description(self, codes: Codes) -> str:
        """A command that describes an axis anew, mostly one that the device has."""
        r = self.r
        axes = [code for kind, code in codes if kind == ABS]
        code = r.choice(axes) if axes and r.random() < 0.9 else r.choice([0, 1, 0x2F, 0x35, 0x3F, 0x40])
        fuzz = r.choice([0, 0, 1, 4, 8, 16, 300, 2**30] * 3 + [-1, 2**30 + 1])
        numbers = [r.randint(-600, 600), r.randint(-500, 0), r.randint(0, 4096), fuzz, r.randint(-1, 9),
                   r.choice([0, 12])]
        return f"setaxis {code_text(ABS, code)} " + " ".join(map(str, numbers))

    def client_action(self, role: str, codes: Codes, slots: int, _: bool) -> List[str]:
        r, x = self.r, self.r.random()
        if x < 0.5 and role == "client":
            return [r.choice(["follow", "follow", f"next {r.randint(0, 30)}", f"skip {r.randint(0, 30)}",
                              "force"])]
        if x < 0.5:
            axis = code_text(ABS, r.choice([0, 1, 0x2F, 0x35, 0x3F, 0x40]))
            value = code_text(ABS, r.choice([0x35, 0x39, 0x2F, 0x30]))
            reads = [f"read {r.choice([0, 1, 2, 5, 64, 4096])}", "read 16", "read 64", "discard"]
            asks = ["keys", "switches", "leds", "sounds", "syncslots", f"axis {axis}", f"slots {value}"]
            return [r.choice(reads + asks)]
        if x < 0.6:
            return ["open"]
        if x < 0.68:
            kind, code = r.choice(codes + [(0, 0)])
            event = f"{kind_text(kind)} {code_text(kind, code)} {self.value(kind, code, slots)}"
            report = [f"write {self.moment()} EV_SYN SYN_REPORT 0"] if r.random() < 0.6 else []
            return [f"write {self.moment()} {event}"] + report
        if x < 0.75:
            return [self.new_description(codes)]
        if x < 0.8:
            return [f"clock {r.choice(CLOCKS)} {self.moment()}"]
        if x < 0.88:
            kind = r.choice([0, 0, 1, 2, 3, 4, 5, 17, 18, 20, 7])
            word = r.choice([0, 0, 0, 1, 5, 11, 12])
            bits = r.choice([0, FULL, r.getrandbits(64), r.getrandbits(64) | r.getrandbits(64), FULL])
            return [f"mask {kind_text(kind)} {word} {hex(bits)}"]
        if x < 0.96:
            return ["grab"] if x < 0.915 else ["ungrab"]
        return ["close"] if x < 0.98 else ["revoke"]


def write_all(folder: str, texts: Iterable[Tuple[str, str]], history: bool = False) -> None:
    """Writes records, each by its name, and beside each the report that the second program gives of it."""
    for name, text in texts:
        Path(folder, name).write_bytes(text.encode("latin1"))
        report = "".join(line + "\n" for line in play(text, folder, history))
        Path(folder, f"{name}.stdout").write_text(report)


def main() -> None:
    folder, count, seed = sys.argv[1], int(sys.argv[2]), int(sys.argv[3])
    os.makedirs(folder, exist_ok=True)
    texts = ((f"{i:04}.rec", Generator(seed * 100000 + i, folder).record()) for i in range(count))
    write_all(folder, texts, "--history" in sys.argv)


if __name__ == "__main__":
    main()
