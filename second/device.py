"""A device and its clients, by the rules of docs/RULES.md. An event is a tuple (type, code, value)."""

from typing import Any, Callable, Dict, Iterator, List, Optional, Sequence, Set, Tuple

from second.names import ABS, KEY, LED, MSC, REL, REP, SND, SW, SYN
from second.values import Answer, Event, Fed, Item, Step, Words
from second.ways import RULES

SLOT, FIRST, ID, LAST = 0x2F, 0x30, 0x39, 0x3D
REPORT, CONFIG, DROPPED = 0, 1, 3
# The most events that wait for a device's owner.
MOST_WAITING = 15
FUZZ_MAX = 2**30
# What each query of bits asks for.
BITS = {"getkeys": KEY, "getswitches": SW, "getleds": LED, "getsounds": SND}
MASK_WORDS = {SYN: 1, KEY: 12, REL: 1, ABS: 1, MSC: 1, SW: 1, LED: 1, SND: 1}


def is_slot_value(code: int) -> bool:
    return FIRST <= code <= LAST


def is_report(event: Event) -> bool:
    return event[:2] == (SYN, REPORT)


def is_output(event: Event) -> bool:
    """Whether an event goes to the device where it is passed."""
    return event[0] in (LED, SND, MSC, REP) or event[:2] == (SYN, CONFIG)


def new_slot() -> List[int]:
    return [-1 if code == ID else 0 for code in range(FIRST, LAST + 1)]


class Caps:
    """The description of a device."""

    def __init__(self) -> None:
        self.kinds = {SYN}
        self.codes: Dict[int, Set[int]] = {}
        self.axes: Dict[int, Tuple[int, ...]] = {}
        self.slots, self.hint, self.log = 0, 16, 1048576
        self.filters: List[Tuple[Any, ...]] = []
        self.offsets = {"realtime": 0, "monotonic": 0, "boottime": 0}
        self.ways = RULES

    def build(self) -> None:
        if self.slots:
            self.kinds.add(ABS)
            self.axes.setdefault(SLOT, (0, 0, self.slots - 1, 0, 0, 0))
            self.axes.setdefault(ID, (0, 0, 65535, 0, 0, 0))

    def supports(self, kind: int, code: int) -> bool:
        if kind == SYN:
            return code <= DROPPED
        if kind not in self.kinds or (kind, code) == (KEY, 0):
            return False
        if kind == REP:
            return code <= 1
        return code in (self.axes if kind == ABS else self.codes.get(kind, set()))

    def ring(self) -> int:
        places = 64
        while places < 8 * self.hint:
            places *= 2
        return places


def toward_zero(a: int, b: int) -> int:
    return a // b if a >= 0 else -(-a // b)


def defuzz(value: int, old: int, fuzz: int) -> int:
    if fuzz == 0:
        return value
    if old - fuzz // 2 < value < old + fuzz // 2:
        return old
    if old - fuzz < value < old + fuzz:
        return toward_zero(3 * old + value, 4)
    if old - 2 * fuzz < value < old + 2 * fuzz:
        return toward_zero(old + value, 2)
    return value


class Filter:
    """A filter, and the events that it was given: each with its moment and whether it was eaten, the newest last."""

    def __init__(self, form: str, *words: int) -> None:
        self.form, self.words = form, words
        self.given: List[Tuple[Event, int, bool]] = []

    def of_key(self, key: int, end: int) -> Iterator[int]:
        """The places of the events on a key before this place, the newest first."""
        return (at for at in range(end - 1, -1, -1) if self.given[at][0][:2] == (KEY, key))

    def press_before(self, key: int, end: int) -> Optional[int]:
        """The place of the last press on a key before this place, unless a release stands between."""
        for at in self.of_key(key, end):
            value = self.given[at][0][2]
            if value != 2:
                return at if value else None
        return None

    def press_of_newest(self) -> Optional[int]:
        (_, key, value), _, _ = self.given[-1]
        newest = len(self.given) - 1
        return newest if value not in (0, 2) else self.press_before(key, newest)

    def eats(self, event: Event, now: int) -> bool:
        """Takes an event, and answers whether it is eaten."""
        self.given.append((event, now, False))
        is_eaten = FORMS[self.form](self, event, *self.words)
        self.given[-1] = (event, now, is_eaten)
        return is_eaten

    def eats_by_eat(self, event: Event, kind: int, code: int) -> bool:
        return event[:2] == (kind, code)

    def eats_by_norepeat(self, event: Event) -> bool:
        return event[0] == KEY and event[2] == 2

    def eats_by_chord(self, event: Event, first: int, second: int) -> bool:
        if event[:2] != (KEY, second):
            return False
        press = self.press_of_newest()
        return press is not None and self.press_before(first, press) is not None

    def eats_by_bounce(self, event: Event, key: int, micros: int) -> bool:
        if event[:2] != (KEY, key):
            return False
        press = self.press_of_newest()
        if press is None:
            return False
        for at in self.of_key(key, press):
            (_, _, value), moment, is_eaten = self.given[at]
            if value == 0 and not is_eaten:
                return moment <= self.given[press][1] < moment + micros
        return False


FORMS: Dict[str, Callable[..., bool]] = {
    "eat": Filter.eats_by_eat, "norepeat": Filter.eats_by_norepeat, "chord": Filter.eats_by_chord,
    "bounce": Filter.eats_by_bounce,
}


class Client:
    """An open client: its queue of (event, time, place), masks, clock, and whether it was revoked."""

    def __init__(self, places: int) -> None:
        self.queue: List[Item] = []
        self.clear_bits: Set[Tuple[int, int]] = set()
        self.clock, self.revoked, self.places = "realtime", False, places

    def admits(self, event: Event) -> bool:
        kind, code, _ = event
        if kind == SYN:
            return True
        return (SYN, kind) not in self.clear_bits and (kind == REP or (kind, code) not in self.clear_bits)

    def put(self, event: Event, time: int, place: int) -> None:
        if is_report(event) and (not self.queue or is_report(self.queue[-1][0])):
            return
        if len(self.queue) == self.places - 1:
            self.queue = [((SYN, DROPPED, 0), time, place)]
        self.queue.append((event, time, place))

    def visible(self) -> int:
        return max((i + 1 for i, item in enumerate(self.queue) if is_report(item[0])), default=0)

    def take(self, count: int) -> List[Item]:
        taken, self.queue = self.queue[:count], self.queue[count:]
        return taken

    def flush(self, is_told: Callable[[Event], bool]) -> None:
        """Removes what an answer tells, and each report that is left alone, but not the first group's."""
        kept, alone = [], False
        for item in self.queue:
            if is_told(item[0]) or (is_report(item[0]) and alone):
                continue
            kept.append(item)
            alone = is_report(item[0])
        self.queue = kept


class Outputs:
    """What was sent to a device and waits for its owner, whose calls are counted up to a limit."""

    def __init__(self, most_calls: int) -> None:
        self.waiting: List[Event] = []
        self.calls, self.most_calls = 0, most_calls

    def send(self, events: List[Event]) -> None:
        """Takes passed events. Of those that wait the last 15 stay."""
        self.waiting = (self.waiting + [event for event in events if is_output(event)])[-MOST_WAITING:]

    def feedback(self, room: int) -> Optional[List[Event]]:
        """The events that a feedback call takes, or None where it is refused."""
        if self.calls == self.most_calls:
            return None
        self.calls += 1
        taken, self.waiting = self.waiting[:room], self.waiting[room:]
        return taken


class Device:
    def __init__(self, name: str, caps: Caps) -> None:
        self.name, self.caps = name, caps
        self.history: List[Step] = []
        self.on: Dict[int, Set[int]] = {KEY: set(), SW: set(), LED: set(), SND: set()}
        self.repeat = [250, 33]
        self.infos: Dict[int, Sequence[int]] = dict(caps.axes)
        self.axes = {code: info[0] for code, info in caps.axes.items()}
        self.cells = [new_slot() for _ in range(caps.slots)]
        self.staged = self.announced = self.at_frame = 0
        self.batch: List[Event] = []
        self.due: Optional[int] = None
        self.repeat_key, self.inhibited = 0, False
        self.clients: Dict[int, Client] = {}
        self.holder: Optional[int] = None
        self.opens = self.ends = 0
        self.filters = [Filter(*words) for words in caps.filters]
        self.outputs = Outputs(caps.log)

    # The core

    defuzz = staticmethod(defuzz)

    def turn(self, kind: int, code: int, on: bool) -> bool:
        """Sets a bit, and answers whether that changed it."""
        changed = on != (code in self.on[kind])
        (self.on[kind].add if on else self.on[kind].discard)(code)
        return changed

    def passed(self, event: Event) -> List[Event]:
        """The events that are passed for a raw event."""
        kind, code, value = event
        if not self.caps.supports(kind, code):
            return []
        if kind == ABS:
            return self.passed_axis(code, value)
        if kind == SYN:
            passes = code != DROPPED
        elif kind == KEY:
            passes = value == 2 or self.turn(KEY, code, value != 0)
        elif kind in (SW, LED):
            passes = self.turn(kind, code, value != 0)
        elif kind == SND:
            self.turn(SND, code, value != 0)
            passes = True
        elif kind == REP:
            passes = value >= 0 and value != self.repeat[code]
            if passes:
                self.repeat[code] = value
        else:
            passes = kind == MSC or value != 0
        return [event] if passes else []

    def passed_axis(self, code: int, value: int) -> List[Event]:
        if code == SLOT:
            if 0 <= value < self.caps.slots:
                self.staged = value
            return []
        if is_slot_value(code) and not self.caps.slots:
            return [(ABS, code, value)]
        values: Any = self.cells[self.staged] if is_slot_value(code) else self.axes
        index = code - FIRST if is_slot_value(code) else code
        value = self.defuzz(value, values[index], self.infos[code][3])
        if value == values[index]:
            return []
        values[index] = value
        if is_slot_value(code) and self.staged != self.announced:
            self.announced = self.staged
            return [(ABS, SLOT, self.staged), (ABS, code, value)]
        return [(ABS, code, value)]

    def raw(self, event: Event, now: int, place: int) -> None:
        events = self.passed(event)
        self.outputs.send(events)
        self.batch += events
        if is_report(event):
            frame, self.batch = self.batch, []
            if len(frame) > 1:
                self.frame(frame, now, place)
        elif events and len(self.batch) >= self.caps.hint:
            frame, self.batch = self.batch + [(SYN, REPORT, 1)], []
            self.frame(frame, now, place)

    def frame(self, events: List[Event], now: int, place: int) -> None:
        self.at_frame = self.announced
        if {KEY, REP} <= self.caps.kinds:
            self.arm(events, now)
        self.offer(events, now, place)

    def arm(self, events: List[Event], now: int) -> None:
        for kind, code, value in events:
            if kind == KEY and value == 0:
                self.due = None
            elif kind == KEY and value != 2 and all(self.repeat):
                self.due, self.repeat_key = self.due_after(self.repeat[0], now), code

    def due_after(self, milliseconds: int, now: int) -> int:
        return now + 1000 * milliseconds

    def offer(self, events: List[Event], now: int, place: int) -> None:
        if self.holder is None:
            for filter_ in self.filters:
                events = [event for event in events if event[0] == SYN or not filter_.eats(event, now)]
        for number, client in self.clients.items():
            if client.revoked or self.holder not in (None, number):
                continue
            for event in events:
                if client.admits(event):
                    client.put(event, now + self.caps.offsets[client.clock], place)

    def tick(self, now: int, place: int) -> None:
        if self.due is None or self.due > now:
            return
        self.due = None
        if self.repeat_key in self.on[KEY] and not self.inhibited:
            self.raw((KEY, self.repeat_key, 2), now, place)
            self.raw((SYN, REPORT, 1), now, place)
            if self.repeat[1]:
                self.due = self.due_after(self.repeat[1], now)

    def inhibit(self, now: int, place: int) -> None:
        if self.inhibited:
            return
        keys = [(KEY, code, 0) for code in sorted(self.on[KEY])]
        for event in self.lifts() + keys + [(SYN, REPORT, 1)]:
            self.raw(event, now, place)
        self.inhibited = True

    def lifts(self) -> List[Event]:
        """The ends of all contacts."""
        slots = [slot for slot, values in enumerate(self.cells) if values[ID - FIRST] >= 0]
        return [event for slot in slots for event in ((ABS, SLOT, slot), (ABS, ID, -1))]

    # Steps, and what an owner does, which makes none

    def feedback(self, room: int) -> Fed:
        """The history's length at a feedback call, and what the call takes, or None where it is refused."""
        return len(self.history), self.outputs.feedback(room)

    def refusal(self, step: Step) -> Optional[str]:
        op, *words = step
        if op not in ("inject", "tick", "open", "inhibit", "uninhibit", "end"):
            client = self.clients.get(words[0])
            if client is None:
                return "bad-client"
            if client.revoked and op != "close":
                return "no-device"
        if op in ("getaxis", "setaxis") and ABS not in self.caps.kinds:
            return "bad-kind"
        if op in ("getslots", "syncslots") and not self.caps.slots:
            return "bad-kind"
        if op == "mask" and words[1] not in MASK_WORDS:
            return "bad-kind"
        if op == "getaxis" and words[1] > 0x3F or op == "getslots" and not is_slot_value(words[1]):
            return "bad-code"
        if op == "mask" and words[2] >= MASK_WORDS[words[1]]:
            return "bad-code"
        if op == "setaxis" and (SLOT <= words[1] <= LAST or words[1] not in self.caps.axes):
            return "bad-code"
        if op == "setaxis" and not 0 <= words[5] <= FUZZ_MAX:
            return "bad-info"
        if op == "read" and self.clients[words[0]].visible() == 0:
            return "again"
        if op == "grab" and self.holder is not None:
            return "busy"
        if op == "ungrab" and self.holder != words[0]:
            return "not-grabber"
        if op == "open" and len(self.clients) >= 64:
            return "too-many"
        return "log-full" if len(self.history) >= self.caps.log else None

    def step(self, step: Step) -> Answer:
        """One step: its reply, and the events or values that it writes."""
        place, why = len(self.history), self.refusal(step)
        if why == "again":
            return ("again", place), None
        if why:
            return ("refused", place, why), None
        self.history.append(step)
        op, *words = step
        # (a device of another kind may open its clients otherwise)
        if op == "open":
            return self.do_open(op, words, place)
        way = self.table.get(op)
        return way(self, op, words, place) if way else self.do_plain(op, words, place)

    def do_plain(self, op: str, words: Words, place: int) -> Answer:
        if op in ("inject", "write") and not self.inhibited:
            *_, now, event = words
            self.raw(event, now, place)
        elif op == "tick":
            self.tick(words[0], place)
        elif op == "inhibit":
            self.inhibit(words[0], place)
        elif op == "uninhibit":
            self.inhibited = False
        elif op == "end":
            self.ends += 1
        elif op == "grab":
            self.holder = words[0]
        elif op in ("ungrab", "close", "revoke"):
            if self.holder == words[0]:
                self.holder = None
            if op == "close":
                del self.clients[words[0]]
            elif op == "revoke":
                self.clients[words[0]].revoked = True
        return ("done", place), None

    def do_open(self, _: str, words: Words, place: int) -> Answer:
        number, self.opens = self.opens, self.opens + 1
        self.clients[number] = Client(self.caps.ring())
        return ("opened", place, number, self.caps.ring()), None

    def do_read(self, _: str, words: Words, place: int) -> Answer:
        client = self.clients[words[0]]
        taken = client.take(min(words[1], client.visible()))
        return ("took", place, len(taken)), taken

    def do_discard(self, _: str, words: Words, place: int) -> Answer:
        client = self.clients[words[0]]
        return ("discarded", place, len(client.take(client.visible()))), None

    def bits(self, op: str, words: Words, place: int) -> Answer:
        kind = BITS[op]
        self.clients[words[0]].flush(lambda event: event[0] == kind)
        return ("bits", place, kind, sorted(self.on[kind])), None

    def do_getaxis(self, _: str, words: Words, place: int) -> Answer:
        code = words[1]
        if code not in self.caps.axes:
            return ("axis", place) + (0,) * 6, None
        value = self.axes[code]
        if code == SLOT:
            value = self.announced
        elif is_slot_value(code):
            value = 0
        return ("axis", place, value) + tuple(self.infos[code][1:]), None

    def do_setaxis(self, _: str, words: Words, place: int) -> Answer:
        code, *info = words[1:]
        self.infos[code], self.axes[code] = info, info[0]
        return ("done", place), None

    def do_getslots(self, _: str, words: Words, place: int) -> Answer:
        return ("cells", place, self.caps.slots, self.at_frame), [values[words[1] - FIRST] for values in self.cells]

    def do_syncslots(self, _: str, words: Words, place: int) -> Answer:
        self.clients[words[0]].flush(lambda event: event[0] == ABS and SLOT <= event[1] <= LAST)
        return ("cells", place, 14 * self.caps.slots, self.at_frame), [v for values in self.cells for v in values]

    def do_mask(self, _: str, words: Words, place: int) -> Answer:
        number, kind, word, bits = words
        for i in range(64):
            cleared = self.clients[number].clear_bits
            (cleared.discard if bits >> i & 1 else cleared.add)((kind, 64 * word + i))
        return ("done", place), None

    def do_clock(self, _: str, words: Words, place: int) -> Answer:
        number, clock, now = words
        client = self.clients[number]
        if client.clock != clock:
            client.clock = clock
            if client.queue:
                client.queue = [((SYN, DROPPED, 0), now + self.caps.offsets[clock], place)]
        return ("done", place), None

    # What a step does that has more to reply than that it is done.
    table: Dict[str, Callable[..., Answer]] = {
        **dict.fromkeys(BITS, bits), "read": do_read, "discard": do_discard, "getaxis": do_getaxis,
        "setaxis": do_setaxis, "getslots": do_getslots, "syncslots": do_syncslots, "mask": do_mask,
        "clock": do_clock,
    }
