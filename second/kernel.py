"""A device as the kernel has it: the ways of second/ways.py that are its core's, evdev's and uinput's."""

from typing import List, Optional

from second.device import Caps, Device, ID, LAST, Outputs, SLOT, toward_zero
from second.names import ABS, KEY, LED, REL, REP, SND, SYN
from second.values import Answer, Event, Step, Words

PRESSURE, POSITION_X, HIGHEST_AXIS = 0x18, 0x35, 0x3F
PLACES, MOST_SLOTS = 16, 100
# Keys that the console listens to, and the LEDs that it sets.
CONSOLE_KEYS = (*range(0x100), *range(0x1F1, 0x1FB))
CONSOLE_LEDS = (2, 0, 1, 4)
# A tick of the kernel's clock in milliseconds, and how many of them its finest timers reach.
TICK, FINEST = 4, 63


def in_32_bits(value: int) -> int:
    return (value + 2**31) % 2**32 - 2**31


def defuzz_in_32_bits(value: int, old: int, fuzz: int) -> int:
    wrapped = in_32_bits
    if fuzz == 0:
        return value
    half, twice = toward_zero(fuzz, 2), wrapped(2 * fuzz)
    if wrapped(old - half) < value < wrapped(old + half):
        return old
    if wrapped(old - fuzz) < value < wrapped(old + fuzz):
        return toward_zero(wrapped(wrapped(old * 3) + value), 4)
    if wrapped(old - twice) < value < wrapped(old + twice):
        return toward_zero(wrapped(old + value), 2)
    return value


def contacts(caps: Caps) -> int:
    """How many contacts the kernel reckons with."""
    if caps.slots:
        return caps.slots
    if ID in caps.axes:
        return max(2, min(32, in_32_bits(caps.axes[ID][2] - caps.axes[ID][1] + 1)))
    return 2 if POSITION_X in caps.axes else 0


def estimate(caps: Caps) -> int:
    """How many events a frame has as the kernel reckons, which is a device's hint."""
    count = contacts(caps)
    of_axes = sum(count if SLOT <= code <= LAST else 1 for code in caps.axes)
    motions = len(caps.codes.get(REL, ())) if REL in caps.kinds else 0
    guess = count + 1 + of_axes + motions + 7
    return max(guess, 60) if POSITION_X in caps.axes and not caps.slots else guess


def is_refused(caps: Caps) -> bool:
    """Whether uinput makes no such device."""
    ranges = ((high - low, flat) for _, low, high, _, flat, _ in caps.axes.values())
    return caps.slots > MOST_SLOTS or any(size < 0 or flat > size for size, flat in ranges if size < 2**31)


class RingOf16(Outputs):
    """What waits for an owner in a ring that is empty where its ends meet."""

    def send(self, events: List[Event]) -> None:
        super().send([])
        for event in events:
            before, self.waiting = self.waiting, []
            super().send([event])
            self.waiting = before + self.waiting
            if len(self.waiting) == PLACES:
                self.waiting = []


class KernelDevice(Device):
    def __init__(self, name: str, caps: Caps) -> None:
        self.ways = caps.ways
        caps.hint = estimate(caps) if self.ways.estimated_hint else caps.hint
        super().__init__(name, caps)
        # The time that the next frames have, where one is kept; and the last moment that was told.
        self.stamp: Optional[int] = None
        self.now = 0
        if self.ways.ring_of_16:
            self.outputs = RingOf16(caps.log)
        if self.ways.sums_of_32_bits:
            self.defuzz = defuzz_in_32_bits

    def refusal(self, step: Step) -> Optional[str]:
        why, (op, *words) = super().refusal(step), step
        if why == "too-many" and self.ways.any_number_of_clients:
            return None
        if op == "mask" and why in ("bad-kind", "bad-code") and self.ways.any_mask:
            return None
        if op == "setaxis" and why in ("bad-code", "bad-info") and self.ways.any_axis:
            return None if words[1] <= HIGHEST_AXIS and words[1] != SLOT else why
        return why

    # Times

    def raw(self, event: Event, now: int, place: int) -> None:
        self.now = now
        super().raw(event, now, place)
        if event[:2] == (SYN, 0):
            self.stamp = None

    def offer(self, events: List[Event], now: int, place: int) -> None:
        time = now if self.stamp is None else self.stamp
        super().offer(events, time, place)
        is_heard = any(not client.revoked for client in self.clients.values())
        self.stamp = time if self.ways.kept_time and is_heard else None

    def due_after(self, milliseconds: int, now: int) -> int:
        if not self.ways.coarse_timer:
            return super().due_after(milliseconds, now)
        ticks, grain = -(-milliseconds // TICK), 1
        while ticks >= FINEST * grain:
            grain *= 8
        return now + 1000 * TICK * (ticks + grain)

    def tick(self, now: int, place: int) -> None:
        if self.due is not None and self.due <= now:
            self.stamp = None
        super().tick(now, place)

    def do_clock(self, op: str, words: Words, place: int) -> Answer:
        number, clock, now = words
        client = self.clients[number]
        is_loss = client.clock != clock and bool(client.queue)
        time = now if self.stamp is None else self.stamp
        if is_loss and self.ways.kept_time:
            self.stamp = time
        return super().do_clock(op, [number, clock, time if is_loss else now], place)

    # Steps

    def do_plain(self, op: str, words: Words, place: int) -> Answer:
        if op == "inject" and self.ways.stamped_time:
            self.stamp = words[0]
        holder, was_inhibited = self.holder, self.inhibited
        answer = super().do_plain(op, words, place)
        if self.ways.console and holder is not None and self.holder is None:
            self.set_leds(place)
        if self.ways.toggled_outputs and self.inhibited != was_inhibited:
            self.toggle()
        return answer

    def set_leds(self, place: int) -> None:
        """What the console does at the end of a grab. It sends no report."""
        keys = self.caps.codes.get(KEY, ()) if KEY in self.caps.kinds else ()
        is_heard = SND in self.caps.kinds or any(key in keys for key in CONSOLE_KEYS)
        if is_heard and LED in self.caps.kinds and not self.inhibited:
            for code in CONSOLE_LEDS:
                self.raw((LED, code, 0), self.now, place)

    def toggle(self) -> None:
        """An inhibition tells the device that all is off, and its end tells it all."""
        for kind in (LED, SND):
            codes = sorted(self.caps.codes.get(kind, ()))
            on = () if self.inhibited else self.on[kind]
            told = [code for code in codes if code in self.on[kind] or not self.inhibited]
            self.outputs.send([(kind, code, int(code in on)) for code in told])
        if REP in self.caps.kinds and not self.inhibited:
            self.outputs.send([(REP, 1, self.repeat[1]), (REP, 0, self.repeat[0])])

    def lifts(self) -> List[Event]:
        has_pressure = self.ways.lifted_pressure and self.caps.slots and PRESSURE in self.caps.axes
        return super().lifts() + ([(ABS, PRESSURE, 0)] if has_pressure else [])

    # Queries

    def do_getaxis(self, op: str, words: Words, place: int) -> Answer:
        code = words[1]
        if not self.ways.any_axis or code == SLOT or code not in self.infos:
            return super().do_getaxis(op, words, place)
        return ("axis", place, self.axes[code], *self.infos[code][1:]), None

    def do_getslots(self, op: str, words: Words, place: int) -> Answer:
        (name, _, count, slot), cells = super().do_getslots(op, words, place)
        return (name, place, count, self.announced if self.ways.slots_alone else slot), cells

    def do_syncslots(self, op: str, words: Words, place: int) -> Answer:
        if not self.ways.slots_alone:
            return super().do_syncslots(op, words, place)
        cells = [value for values in self.cells for value in values]
        return ("cells", place, len(cells), self.announced), cells

    table = {
        **Device.table, "clock": do_clock, "getaxis": do_getaxis, "getslots": do_getslots,
        "syncslots": do_syncslots,
    }
