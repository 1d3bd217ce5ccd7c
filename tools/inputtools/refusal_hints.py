"""What is usually wrong with a line that the program refuses, for each cause of docs/FORMATS.md."""

import os
import re
from typing import Dict, NamedTuple, Optional, Sequence

from inputtools.command import Wrong
from inputtools.description import is_name
from inputtools.kinds import said_of
from inputtools.names import ABS, CODES, KEY, TYPES, kind_text, nearest, number_of_code, number_of_kind
from inputtools.raw import stream_fault
from inputtools.record import DEVICE_WORDS, LATEST, ROLES, line_of, number_of
from inputtools.recording import GREATEST, LEAST

REFUSAL = re.compile(r"inputplay: line (\d+): ([a-z-]+)$")

REFUSAL_HINTS = {
    "not-text": "a byte that is no plain text: a letter with an accent, a curly quote, a no-break space",
    "bad-header": "the first line that is no comment must be `inputrecord 1` or `inputrecord 2`",
    "bad-line": (
        "the line begins with no known word, or has too few or too many words (`axis` has CODE and "
        "six numbers: value, minimum, maximum, fuzz, flat, resolution; `filter`, `joy`, `udevice` and "
        "`owner` come with `inputrecord 2`)"
    ),
    "out-of-place": (
        "the order is: a device, its description, its actors; the next device; all `do` lines behind "
        "all devices; and `inputrecord` only once. An `owner` is an actor of a `udevice`"
    ),
    "no-actor": "no `source`, `client`, `tap`, `joy` or `owner` line has this name",
    "bad-command": (
        "this actor has no such command, or it has another number of words: `event`, `tick`, `stream` "
        "are a source's; `keys`, `axis` a tap's; `read` a tap's and a joystick's, which has `open` and "
        "`close` besides and no other; `follow`, `next`, `force` a client's; `feedback` an owner's, which "
        "has no other; `stream16` comes with `inputrecord 2`"
    ),
    "bad-word": (
        "a name that is in no table (write its number: `cap 1 280`), a code of another type, a number "
        "out of its range (a `feedback` is of 1 to 4096 events), a moment that is no whole number of "
        "microseconds, or a `filter` other than `eat`, `norepeat`, `chord` and `bounce`"
    ),
    "twice": (
        "a setting, an axis or a name is given a second time; names of actors are one list over all "
        "devices, and so are names of devices, `udevice` among them"
    ),
    "too-many": (
        "at most 8 devices, 8 sources, 128 clients, taps and joysticks and one owner of a device, and 16 "
        "lines of `stream` and `stream16` together. Other devices may have a record of their own, and one "
        "stream all events"
    ),
    "bad-code": (
        "no device can have this code of this type (EV_KEY begins at 1; an axis is given by `axis`, "
        "not by `cap`), or a filter is on EV_SYN or its chord has one key twice"
    ),
    "bad-axis": (
        "the fuzz is below 0 or too great, or an axis of multi-touch has a value other than 0 (its "
        "values belong to slots), or ABS_MT_SLOT or ABS_MT_TRACKING_ID has a fuzz"
    ),
    "bad-slots": (
        "a device has 1 to 64 slots, and to 256 with `inputrecord 2`: one more than the greatest "
        "ABS_MT_SLOT"
    ),
    "bad-hint": "a hint is 2 to 512 events, and 16 without the line",
    "bad-log": "a log is 1 to 8388608 steps, and 1048576 without the line",
    "bad-offset": "a clock is at most 9000000000000000 microseconds ahead: is it in nanoseconds?",
    "bad-filter": "a device has at most eight filters",
    "bad-stream": (
        "the file is not whole records of 24 bytes, as a 64-bit machine writes them; from a 32-bit "
        "machine they have 16, and `stream16` names them under `inputrecord 2`"
    ),
}


# What helps where a limit of the program was met, by what its message ends with.
LIMIT_HINTS = {
    "input too long": (
        "a record, and each file that it names, has 16777216 bytes at most: take a part of the capture by "
        "tools/record --from and --to, or put its events into a file by --stream"
    ),
    "out of memory": "a device takes the memory of its whole history at its start: let its `log` be smaller",
}

# What stands behind the first words of a line.
NAME, AXIS = ("name",), ("axis", *["number"] * 6)
WORDS: Dict[str, Sequence[str]] = {
    **{first: NAME for first in (*DEVICE_WORDS, *ROLES)}, "hint": ("number",), "log": ("number",),
    "slots": ("number",),
    "type": ("type",), "cap": ("type", "code"), "axis": AXIS, "clock": ("offset", "moment"),
    "filter eat": ("type", "code"), "filter chord": ("key", "key"), "filter bounce": ("key", "number"),
    **{f"do {command}": ("moment", "type", "code", "value") for command in ("event", "write")},
    "do tick": ("moment",), "do inhibit": ("moment",), "do mask": ("type", "number", "number"),
    "do clock": ("clock", "moment"), "do setaxis": AXIS, "do axis": ("axis",), "do slots": ("axis",),
    **{f"do {command}": ("number",) for command in ("read", "next", "skip")}, "do feedback": ("count",),
}
NUMBERS = {"number": (LEAST, 2**64 - 1), "value": (LEAST, GREATEST), "moment": (0, LATEST),
           "count": (1, 4096)}
CHOICES = {
    "clock": ("realtime", "monotonic", "boottime"), "offset": ("realtime", "boottime"),
    "filter": ("eat", "norepeat", "chord", "bounce"),
}


class Refusal(NamedTuple):
    """The number of the line that was refused, and the cause."""

    line: int
    cause: str


def refused_line(written: str) -> Optional[Refusal]:
    """What a message says of a line that is refused, or None."""
    match = REFUSAL.match(written.strip())
    return Refusal(int(match[1]), match[2]) if match else None


def line_text(text: str, number: int) -> str:
    """A line as it can be shown: what is no plain text is written as `?`, and a long line is cut."""
    line = text.split("\n")[number - 1].rstrip("\r")
    plain = "".join(char if " " <= char <= "~" else " " if char == "\t" else "?" for char in line)
    return plain if len(plain) <= 100 else plain[:97] + "..."


def other_kind(text: str, cause: str) -> Optional[str]:
    """What a file is that was played by mistake, or None."""
    is_other = cause in ("not-text", "bad-header", "bad-line")
    return said_of(text.encode("latin-1")) if is_other else None


def fault_of(form: str, word: str, kind: int) -> Optional[str]:
    """What is wrong with a word that is to have a form, or None. A code is one of a type."""
    if form in NUMBERS:
        number_of(word, *NUMBERS[form])
    elif form == "name":
        return None if is_name(word) else f"{word} is not 1 to 32 of a to z, 0 to 9, _ and -"
    elif form in CHOICES:
        choices = CHOICES[form]
        return None if word in choices else f"{word} is none of {', '.join(choices)}{nearest(word, choices)}"
    elif form == "type":
        return None if number_of_kind(word) is not None else f"{word} is no type{nearest(word, TYPES)}"
    elif number_of_code(kind, word) is None:
        other = next((kind_text(each) for each, names in CODES.items() if word in names), None)
        more = f", but of {other}" if other else nearest(word, CODES.get(kind, ()))
        return f"{word} is no code of {kind_text(kind)}{more}"
    return None


def bad_word(words: Sequence[str]) -> Optional[str]:
    """Which of a line's words has not its form or range, as far as that is told here, or None."""
    count = {"do": 3, "filter": 2}.get(words[0], 1) if words else 1
    if len(words) < count:
        return None
    begins = f"do {words[2]}" if words[0] == "do" else " ".join(words[:count])
    kind = {"key": KEY, "axis": ABS}
    forms = WORDS.get(begins, ())
    if words[0] == "filter" and not forms:
        return fault_of("filter", words[1], 0)
    for form, word in zip(forms, words[count:]):
        try:
            fault = fault_of(form, word, kind.get(form, kind.get("type", 0)))
        except Wrong as wrong:
            return str(wrong)
        if fault:
            return fault
        kind["type"] = number_of_kind(word) or 0 if form == "type" else kind.get("type", 0)
    return None


class Hint(NamedTuple):
    """What is said of a refused line, and whether it is what is wrong, or what is so in most cases."""

    text: str
    is_certain: bool


def hint_of(text: str, refused: Refusal, folder: str) -> Hint:
    """What is wrong with a line that was refused; of a stream with its file."""
    cause, fault = refused.cause, None
    line = line_of(refused.line, text.split("\n")[refused.line - 1])
    if cause == "bad-word":
        fault = bad_word(line.words)
    elif cause == "bad-stream" and line.stream:
        try:
            with open(os.path.join(folder, line.stream.file), "rb") as file:
                fault = stream_fault(file.read(), line.stream.size)
            fault = f"of {line.stream.file}: {fault}" if fault else None
        except OSError:
            fault = None
    return Hint(fault, True) if fault else Hint(REFUSAL_HINTS.get(cause, "no hint"), False)


def limit_hint(message: str) -> str:
    """What helps where a message tells a limit, empty where it tells none."""
    return next((hint for end, hint in LIMIT_HINTS.items() if message.endswith(end)), "")


def refusal_text(text: str, written: str, status: int, folder: str) -> str:
    """One line on why a record was not played."""
    refused = refused_line(written)
    if refused is None:
        hint = limit_hint(written.strip())
        more = f": {hint}" if hint else ""
        return f"{written.strip() or 'the program wrote nothing'} (status {status}){more}"
    other = other_kind(text, refused.cause)
    if other:
        return other
    shown = line_text(text, refused.line).strip()
    return f"line {refused.line}: {refused.cause}: {shown!r}: {hint_of(text, refused, folder).text}"
