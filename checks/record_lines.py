"""What the library tells of a record's devices, actors and lines, beside what the second program reads of its
text; and a device's description in place of a text. Both are noted in numbers, for programs in other
languages."""

from pathlib import Path
from typing import Any, Dict, List, Optional

from checks.reader_calls import same
from second import model
from second.device import Caps
from second.names import REP
from second.values import Step

ROLES = ("source", "client", "tap", "joy", "owner")
COUNTED = ("read", "next", "skip", "feedback")
WITHOUT_STEP = ("stream", "stream16", "next", "skip", "follow", "force", "feedback")
OF_SOURCES = ("event", "tick", "inhibit", "uninhibit")
NUMBERS = ("step", "client", "type", "code", "value", "now", "count", "clock", "bits")
NO_STEP = 2**32 - 1
BITS = ("relatives", "axes", "miscs", "switches", "leds", "sounds")
LIMITS = ("slots", "hint", "log", "filter_count", "realtime", "boottime")


def step_of(words: List[str]) -> Optional[Step]:
    """The step that a command makes, with client 0."""
    if words[0] in WITHOUT_STEP:
        return None
    if words[0] in OF_SOURCES:
        return model.source_steps(words, lambda name, form: [])[0]
    return model.tap_step(0, words)


def in_numbers(fields: Dict[str, Any]) -> List[int]:
    """The fields of a step in the order of the header's struct."""
    return [int(fields.get(name, 0)) for name in NUMBERS] + [int(n) for n in fields.get("axis", (0,) * 6)]


def told_step(step: Any, axis: Any) -> List[int]:
    """The numbers of a step that the library told."""
    info = [getattr(step.info, name) for name in axis._fields]
    return [getattr(step, name) for name in NUMBERS] + info


class Lines:
    """The lines of a record of the library, beside those of the second program."""

    def __init__(self, inputplay: Any, record: Any, text: str, folder: Path, fields_of: Any) -> None:
        self.inputplay, self.record, self.read = inputplay, record, model.read_record(text)
        self.streams, self.fields_of = model.streams_of(str(folder)), fields_of

    def compare(self) -> List[str]:
        """Compares all of them, and gives what is noted."""
        devices, actors, lines = self.record.devices, self.record.actors, self.record.lines
        same("devices", [name for name, _ in self.read.descriptions], devices)
        same("actors", [(name, ROLES.index(role), device) for name, role, device in self.read.actors],
             [tuple(actor) for actor in actors])
        names = [name for name, _, _ in self.read.actors]
        notes = [f"said {len(devices)} {len(actors)} {len(lines)}\n", *(f"{name}\n" for name in devices),
                 *(f"{int(role)} {device} {name}\n" for name, role, device in actors)]
        same("lines", len(self.read.actions), len(lines))
        for number, ((name, *words), line) in enumerate(zip(self.read.actions, lines)):
            came = self.told(line)
            same(f"line {number}", self.wanted(names.index(name), words), came)
            notes.append(" ".join(map(str, came)) + "\n")
            notes += self.events(number, words)
        return notes

    def wanted(self, actor: int, words: List[str]) -> List[int]:
        command = {"setaxis": "SET_AXIS", "syncslots": "SYNC_SLOTS"}.get(words[0], words[0].upper())
        count = model.number(words[1]) if words[0] in COUNTED else 0
        step = step_of(words)
        fields = {"step": NO_STEP} if step is None else self.fields_of(step)
        return [actor, int(self.inputplay.Command[command]), count, *in_numbers(fields)]

    def told(self, line: Any) -> List[int]:
        numbers = [NO_STEP] + [0] * 14 if line.step is None else told_step(line.step, self.inputplay.Axis)
        return [line.actor, int(line.command), line.count, *numbers]

    def events(self, number: int, words: List[str]) -> List[str]:
        """The events of a line, where it takes a stream."""
        if words[0] not in model.RECORD_FORMS:
            return []
        events = [(*event, moment) for moment, event in self.streams(words[1], model.RECORD_FORMS[words[0]])]
        came = self.record.events(number)
        same(f"events of line {number}", events, came)
        return [" ".join(map(str, [len(came), *(n for event in came for n in event)])) + "\n"]


def description_of(inputplay: Any, caps: Caps) -> Any:
    """The description of a device of the second program, as the package has one."""
    made = inputplay.Filter
    codes = [(kind, code) for kind, codes in caps.codes.items() for code in sorted(codes)]
    forms = {"eat": made.eat, "norepeat": made.norepeat, "chord": made.chord, "bounce": made.bounce}
    return inputplay.Description(
        codes=[pair for pair in codes if pair[0] != REP], types=sorted(caps.kinds), slots=caps.slots,
        axes={code: inputplay.Axis(*info) for code, info in caps.axes.items()}, hint=caps.hint, log=caps.log,
        realtime=caps.offsets["realtime"], boottime=caps.offsets["boottime"],
        filters=[forms[form](*words) for form, *words in caps.filters],
    )


def description_numbers(inputplay: Any, caps: Caps) -> List[int]:
    """The words of its bits, its axes each with its code, its limits and its filters."""
    raw = description_of(inputplay, caps).raw()
    axes = [number for code in sorted(caps.axes) for number in (code, *caps.axes[code])]
    filters = [getattr(each, name) for each in raw.filters[:raw.filter_count]
               for name in ("filter", "micros", "type", "code", "second")]
    return [raw.types, *raw.keys, *(getattr(raw, name) for name in BITS), len(caps.axes), *axes,
            *(getattr(raw, name) for name in LIMITS), *filters]
