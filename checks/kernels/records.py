"""Random records that a real kernel can play, by families: what their devices have, and who reads them."""

from __future__ import annotations

from dataclasses import dataclass
from functools import partial
from random import Random
from typing import Callable, Dict, List, Sequence, Tuple

from second.device import FUZZ_MAX, ID, LAST, MASK_WORDS, SLOT
from second.kernel import estimate
from second.model import code_of, kind_of, read_record
from second.names import ABS, KEY, LED, MSC, REL, SND, SW, SYN, code_text, kind_text
from checks.random_devices import RandomDevice
from checks.random_records import Actors, Codes, Generator

# Keys that the console does nothing by, and among them buttons of joysticks and those that tell fingers.
KEYS = (
    *range(2, 12), 30, 31, 48, 0x100, 0x101, 0x110, 0x120, 0x121, 0x130, 0x145, 0x14D, 0x14E, 0x2C0, 0x2FF,
)
CODES: Dict[int, Sequence[int]] = {
    KEY: KEYS, REL: range(16), MSC: range(8), SW: range(17), LED: (3, 5, 6, 7, 8, 15), SND: range(8),
}
AXES = (0, 1, 2, 5, 6, 8, 0x10, 0x18, 0x28, 0x3F)
# An axis by which libevdev has no slots: one in so many devices has it.
RESERVED, RESERVED_EVERY = 0x2E, 12
AXES_OF_SLOTS = (0x30, 0x31, 0x35, 0x36, 0x3A, 0x3D)
# The types whose events of value 2 are passed each time.
ALWAYS_PASSED = (KEY, REL, MSC, SND)
MOST = 7800000


@dataclass(frozen=True)
class Family:
    """How many of a hundred records it has; the types of its devices; their slots; how many of each role."""

    weight: int
    kinds: Tuple[int, ...]
    slots: Tuple[int, ...] = (0,)
    clients: Tuple[int, int] = (0, 1)
    taps: Tuple[int, int] = (1, 2)
    joysticks: Tuple[int, int] = (0, 0)
    is_owned: bool = False
    busy: float = 0.3


ALL_KINDS = (KEY, REL, ABS, MSC, SW, LED, SND)
FAMILIES: Dict[str, Family] = {
    "raw": Family(16, ALL_KINDS),
    "slots": Family(14, (KEY, ABS), (1, 2, 3, 5, 10)),
    "no-slots": Family(4, (KEY, ABS), (0,)),
    "clients": Family(16, (KEY, ABS, LED, SW), (0, 0, 2), clients=(1, 2), taps=(1, 3)),
    "readers": Family(18, (KEY, ABS, LED, SW), (0, 0, 2, 5), clients=(1, 3), taps=(0, 1), busy=0.8),
    "joysticks": Family(10, (KEY, ABS), (0, 0, 0, 2), joysticks=(1, 3), taps=(0, 1), busy=0.5),
    "owners": Family(10, (KEY, LED, SND, MSC), (0,), is_owned=True),
}


class Playable(Generator):
    """Makes one record of a family."""

    def __init__(self, seed: int, family: str) -> None:
        super().__init__(seed)
        self.version, self.family = 2, FAMILIES[family]
        # How many events the batches of its devices may have.
        self.sizes: List[int] = []

    def moment(self) -> int:
        self.now = min(MOST, self.now + self.r.choice([0, 0, 1000, 1000, 4000, 20000]))
        return self.now

    def description(self, d: int) -> Tuple[List[str], Codes, int]:
        r, family = self.r, self.family
        kinds = [kind for kind in family.kinds if r.random() < 0.7] or [family.kinds[0]]
        slots = r.choice(family.slots)
        lines, codes = [f"{'udevice' if family.is_owned else 'device'} dev{d}"], []
        if r.random() < 0.3:
            lines.append(f"clock realtime {r.randint(1, 9) * 1000000}")
        for kind in kinds:
            of_kind = r.sample(list(CODES.get(kind, ())), r.randint(1, 5)) if kind != ABS else []
            lines += [f"cap {kind_text(kind)} {code_text(kind, code)}" for code in of_kind]
            codes += [(kind, code) for code in of_kind]
        axes = self.axes_of(slots, lines) if ABS in kinds or slots else []
        codes += [(ABS, code) for code in axes] + [(ABS, SLOT), (ABS, SLOT), (ABS, ID)] * bool(slots)
        lines += [f"slots {slots}"] if slots else []
        return [lines[0], self.hint(lines), *lines[1:]], codes + [(SYN, 1)] * family.is_owned, slots

    def axes_of(self, slots: int, lines: List[str]) -> List[int]:
        r = self.r
        axes = r.sample(AXES, r.randint(1, 4)) + [RESERVED] * (r.randrange(RESERVED_EVERY) == 0)
        axes += r.sample(AXES_OF_SLOTS, r.randint(1, 4)) * (slots > 0 or r.random() < 0.2)
        for code in axes:
            is_of_slots = SLOT <= code <= 0x3D
            fuzz = r.choice([0, 0, 1, 4, 8, 16, 300] + [2**30] * (r.random() < 0.1))
            low, high = r.choice([(-500, 500), (0, 4096), (-32768, 32767), (0, 0), (-3, 9)])
            flat = r.choice([0, 0, 1, min(200, (high - low) // 4)])
            value = 0 if is_of_slots else r.choice([0, 5, -100, 100])
            info = (value, low, high, fuzz, min(flat, high - low), r.choice([0, 12]))
            lines.append(" ".join(["axis", code_text(ABS, code), *map(str, info)]))
        return axes

    def hint(self, lines: List[str]) -> str:
        """Mostly the kernel's own, which cannot be asked for a smaller one."""
        _, caps = read_record("\n".join(lines)).descriptions[0]
        self.sizes.append(estimate(caps))
        return f"hint {self.sizes[-1] if self.r.random() < 0.8 else self.r.randint(2, self.sizes[-1])}"

    def actors(self, d: int, lines: List[str]) -> Actors:
        r, family = self.r, self.family
        counts = (
            ("source", r.choice([1, 1, 2])), ("client", r.randint(*family.clients)),
            ("tap", r.randint(*family.taps)), ("owner", int(family.is_owned)),
            ("joy", r.randint(*family.joysticks)),
        )
        actors = [(role, f"{role[0]}{d}{i}") for role, count in counts for i in range(count)]
        lines += [f"{role} {name}" for role, name in actors]
        return actors

    def source_action(self, _: str, codes: Codes, slots: int, busy: bool) -> List[str]:
        """No time goes by between a record's lines but where keys repeat, so no tick comes."""
        always = [(kind, code) for kind, code in codes if kind in ALWAYS_PASSED]
        if always and self.r.random() < 0.05:
            return self.full_frame(*self.r.choice(always))
        actions = super().source_action(_, codes, slots, busy)
        return [action for action in actions if not action.startswith("tick ")]

    def full_frame(self, kind: int, code: int) -> List[str]:
        """A frame of nearly as many events as a batch may have, or of some more."""
        count, moment = self.r.choice(self.sizes) + self.r.randint(-2, 2), self.moment()
        event = f"event {moment} {kind_text(kind)} {code_text(kind, code)} 2"
        return [event] * max(1, count) + [f"event {moment} EV_SYN SYN_REPORT 0"]

    def client_action(self, role: str, codes: Codes, slots: int, busy: bool) -> List[str]:
        """Mostly nothing that only the kernel takes: it hides other differences."""
        actions = super().client_action(role, codes, slots, busy)
        if is_refused(actions[0].split(), codes) and self.r.random() < 0.9:
            return self.client_action(role, codes, slots, busy)
        return actions


def is_refused(words: List[str], codes: Codes) -> bool:
    """Whether the rules refuse a mask or a description."""
    if words[0] == "mask":
        kind = kind_of(words[1])
        return int(words[2]) >= MASK_WORDS.get(kind, 0)
    if words[0] != "setaxis":
        return False
    axis = code_of(ABS, words[1])
    return (ABS, axis) not in codes or SLOT <= axis <= LAST or not 0 <= int(words[5]) <= FUZZ_MAX


class Repeating:
    """Makes a record of a keyboard whose keys repeat, in real time. A tick comes where the timer fired."""

    # When it fired for the first time, in microseconds behind a press, and by a period of 250 for the second.
    FIRST, SECOND = 290000, 590000

    def __init__(self, seed: int) -> None:
        self.r = Random(seed)
        self.now, self.period = 100000, 33
        keys = ["cap EV_KEY KEY_A", "cap EV_KEY KEY_B"]
        self.lines = ["inputrecord 2", "device dev0", "hint 8", "type EV_REP", *keys]

    def record(self) -> str:
        self.lines += ["source s", "source other", "tap t", "client c", "do t open", "do c open"]
        for _ in range(self.r.randint(2, 8)):
            self.act()
        return "\n".join(self.lines + ["do t read 4096", "do c follow", "do t keys"]) + "\n"

    def event(self, text: str, by: str = "s event") -> None:
        self.lines.append(f"do {by} {self.now} {text}")

    def act(self) -> None:
        acts: Sequence[Callable[[], None]] = (self.set_repeat, self.inhibit, self.grab, self.choose_clock)
        self.r.choice((self.press, self.press, self.press, *acts))()
        if self.r.random() < 0.5:
            self.lines.append(self.r.choice(["do t read 4096", "do c follow", "do t read 3", "do c next 2"]))

    def press(self) -> None:
        """A press that is held for some time, and its release."""
        key, other = self.r.sample(["KEY_A", "KEY_B"], 2)
        by = self.r.choice(["s event", "other event", "t write"])
        self.event(f"EV_KEY {key} 1", by)
        self.event("EV_SYN SYN_REPORT 0", by)
        longest = self.SECOND if self.period == 250 else self.FIRST
        begun, held = self.now, self.r.choice((0, 0, self.FIRST, self.FIRST, longest))
        for at in (100000, self.FIRST, self.SECOND)[: 1 + (held > 0) + (held == self.SECOND)]:
            self.now = begun + at
            self.lines.append(f"do s tick {self.now}")
            if at == 100000 and self.r.random() < 0.2:
                self.event(f"EV_KEY {other} 1")
                self.event(f"EV_KEY {other} 0")
        self.event(f"EV_KEY {key} 0", by)
        self.event("EV_SYN SYN_REPORT 0", by)
        self.now += 400000

    def set_repeat(self) -> None:
        delay, self.period = self.r.choice([250, 250, 0, 1000]), self.r.choice([0, 33, 250, 1000])
        self.event(f"EV_REP REP_DELAY {delay}")
        self.event(f"EV_REP REP_PERIOD {self.period}")
        self.event("EV_SYN SYN_REPORT 0")
        self.now += 100000

    def inhibit(self) -> None:
        self.event(f"EV_KEY {self.r.choice(['KEY_A', 'KEY_B'])} 1")
        self.event("EV_SYN SYN_REPORT 0")
        self.now += 100000
        self.lines += [f"do s inhibit {self.now}", f"do s tick {self.now + self.FIRST}", "do s uninhibit"]
        self.now += 400000

    def choose_clock(self) -> None:
        clock = self.r.choice(["realtime", "monotonic", "boottime"])
        self.lines.append(f"do {self.r.choice('tc')} clock {clock} {self.now}")
        self.now += 200000

    def grab(self) -> None:
        self.lines += ["do t grab"] + (["do t ungrab"] if self.r.random() < 0.8 else [])
        self.now += 100000


def driven(seed: int) -> str:
    """A record of a device that is driven as drivers do, or nearly, and of its readers."""
    r, device = Random(seed), RandomDevice(seed, is_raw=seed % 4 == 0)
    lines = device.description()
    _, caps = read_record("\n".join(lines)).descriptions[0]
    lines[1] = f"hint {estimate(caps)}"
    frames, reads = device.frames((20, 60, 120)), ("follow", "follow", "next 3", "skip 2", "force")
    rest = [f"do {name} open" for name in "cdt"]
    for line in frames:
        rest.append(line)
        if line.endswith(" 0 0 0") and r.random() < 0.08:
            rest.append(f"do {r.choice('cd')} {r.choice(reads)}")
        elif line.endswith(" 0 0 0") and r.random() < 0.05:
            rest.append(f"do t {r.choice(('grab', 'ungrab', 'read 64', 'keys'))}")
    rest += ["do t ungrab", "do c follow", "do d follow"]
    return "\n".join(["inputrecord 2", *lines, "client c", "client d", "tap t", *rest]) + "\n"


def of_family(name: str, seed: int) -> str:
    return Playable(seed, name).record()


def repeating(seed: int) -> str:
    return Repeating(seed).record()


MAKERS: Dict[str, Tuple[int, Callable[[int], str]]] = {
    **{name: (family.weight, partial(of_family, name)) for name, family in FAMILIES.items()},
    "repeating": (6, repeating),
    "driven": (8, driven),
}


def random_record(seed: int, number: int) -> Tuple[str, str]:
    """A record's family and text."""
    r = Random(f"{seed} {number}")
    names = list(MAKERS)
    family = r.choices(names, [MAKERS[name][0] for name in names])[0]
    return family, MAKERS[family][1](r.getrandbits(32))
