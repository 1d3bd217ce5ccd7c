"""What a device of the library tells without a step, beside what the second program knows of it.

Behind some of the steps a device is asked one thing: how many events a client could read, which clients could
read something, how a client stands, a word of its masks, what the device supports, what is on, an axis, a
slot, its limits, or its autorepeat. Some of it is asked in vain, as of a client that is closed. Each answer
is noted in numbers, for programs in other languages.
"""

import random
from typing import Any, Callable, Iterable, List, Optional, Sequence

from checks.reader_calls import same
from second import queries
from second.names import ABS, KEY, LED, SND, SW
from second.queries import CODES, number_of

# How many of the steps are followed by a query.
OFTEN = 0.3
BAD_ARGUMENT = 2
WORDS = CODES // 64
KINDS = (0, 1, 2, 3, 4, 5, 6, 0x11, 0x12, 0x14, 0x15, 0xFFFF)
STATES = (KEY, SW, LED, SND, KEY, ABS)
MASKS = (0, 0, KEY, KEY, KEY, 2, 3, 4, 5, 17, 18, 20, 7)
FIRST, LAST, MOST = 0x2E, 0x3E, 0x41

Numbers = Optional[Iterable[int]]


def words_of(bits: int) -> List[int]:
    """The twelve words of 64 bits of a number."""
    return [bits >> 64 * i & (1 << 64) - 1 for i in range(WORDS)]


def words_on(bits: Optional[int]) -> Numbers:
    return None if bits is None else words_of(bits)


class Asker:
    """Asks a device of the library, as `checks/conformance` has one, and the second program's beside it."""

    def __init__(self, device: Any, seed: str) -> None:
        self.device, self.library, self.mirror = device, device.device, device.mirror
        self.r = random.Random(seed)
        self.ways: List[Callable[[], None]] = [
            self.visible, self.visible, self.readable, self.client, self.mask, self.supported, self.on,
            self.axis, self.slot, self.limits, self.repeat,
        ]

    def now_and_then(self) -> None:
        if self.r.random() < OFTEN:
            self.r.choice(self.ways)()

    def ask(self, word: str, asked: Sequence[int], wanted: Numbers, call: Callable[..., Iterable[int]],
            room: int) -> None:
        """Asks one thing. What is asked in vain is noted with a status, and so many zeros behind it."""
        came: Optional[List[int]] = None
        try:
            came = [int(number) for number in call(*asked)]
        except KeyError:
            pass
        same(f"{word} {asked}", None if wanted is None else [int(number) for number in wanted], came)
        told = [BAD_ARGUMENT] + [0] * room if came is None else [0, *came]
        self.device.log.append(" ".join(map(str, [word, self.device.number, *asked, *told])) + "\n")

    def number(self) -> int:
        """The number of an open client mostly; else of one that was opened, of the next one, or of none."""
        opened = self.mirror.opens
        others = [self.r.randint(0, opened), opened, 2**32 - 1]
        is_open = bool(self.mirror.clients) and self.r.random() < 0.8
        number: int = self.r.choice(list(self.mirror.clients) if is_open else others)
        return number

    def visible(self) -> None:
        client = self.number()
        count = queries.visible(self.mirror, client)
        self.ask("visible", [client], None if count is None else [count],
                 lambda number: [self.library.visible(number)], 1)

    def readable(self) -> None:
        """All of them; the other programs have room for some."""
        numbers = queries.readable(self.mirror)
        self.ask("readable", [], [len(numbers), *numbers],
                 lambda: (lambda found: [len(found), *found])(self.library.readable()), 1)

    def client(self) -> None:
        client = self.number()
        self.ask("client", [client], queries.standing(self.mirror, client), self.library.client_state, 3)

    def mask(self) -> None:
        client, kind = self.number(), self.r.choice(MASKS)
        word = self.r.randint(0, 12) if kind == KEY else self.r.choice([0, 0, 0, 1])
        bits = queries.mask(self.mirror, client, kind, word)
        self.ask("mask", [client, kind, word], None if bits is None else [bits],
                 lambda *asked: [self.library.mask(*asked)], 1)

    def supported(self) -> None:
        kind = self.r.choice(KINDS)
        self.ask("codes", [kind], words_of(queries.supported(self.mirror, kind)),
                 lambda asked: words_of(number_of(self.library.codes(asked))), WORDS)

    def on(self) -> None:
        kind = self.r.choice(STATES)
        self.ask("state", [kind], words_on(queries.on(self.mirror, kind)),
                 lambda asked: words_of(number_of(self.library.state(asked))), WORDS)

    def axis(self) -> None:
        code = self.r.choice([*self.mirror.caps.axes, self.r.randrange(MOST)])
        self.ask("axis", [code], queries.axis(self.mirror, code), self.library.axis, 6)

    def slot(self) -> None:
        slot, code = self.r.randint(0, self.mirror.caps.slots), self.r.randint(FIRST, LAST)
        value = queries.slot_value(self.mirror, slot, code)
        self.ask("slot", [slot, code], None if value is None else [value],
                 lambda *asked: [self.library.slot_value(*asked)], 1)

    def limits(self) -> None:
        self.ask("limits", [], queries.limits(self.mirror), self.library.limits, 6)

    def repeat(self) -> None:
        self.ask("repeat", [], queries.repeat(self.mirror), self.repeat_of, 5)

    def repeat_of(self) -> List[int]:
        """As the header has it, whose `due` is 0 where nothing is due."""
        delay, period, key, due = self.library.repeat()
        return [delay, period, due is not None, key, due or 0]
