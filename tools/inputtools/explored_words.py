"""What was explored and found, as lines for people. Each claim says of how many orders it is, and of
which."""

from __future__ import annotations

from typing import List, Optional, Sequence

from inputtools.command import counted, with_names
from inputtools.explored_answers import Answer, Found


def number_text(number: int) -> str:
    """A number with commas; a great one in short."""
    if number < 10**15:
        return f"{number:,}"
    digits = str(number)
    return f"{digits[0]}.{digits[1]}e{len(digits) - 1}"


def counted_text(count: int, one: str) -> str:
    return f"{number_text(count)} {one}" if count == 1 else f"{number_text(count)} {one}s"


def share_text(share: float) -> str:
    """A share in hundredths, with three digits that count."""
    return f"{100 * share:.3g}"


def listed(names: Sequence[str]) -> str:
    names = list(names)
    return names[0] if len(names) == 1 else f"{', '.join(names[:-1])} and {names[-1]}"


def bounds_text(answer: Answer) -> str:
    """Which orders are spoken of, behind their number."""
    texts = []
    if answer.within is not None:
        lines = counted(answer.within, "line")
        texts.append(f"in which nothing goes ahead of what begins more than {lines} before it")
    if answer.preemptions is not None:
        texts.append(f"with at most {counted(answer.preemptions, 'change')} of actor that nobody needed")
    return "".join(f" {text}" for text in texts)


def of_text(answer: Answer) -> str:
    """The orders that were looked at."""
    one = "order of calls" if answer.grain == "call" else "order"
    orders = one if answer.orders == 1 else one.replace("order", "orders", 1)
    waits = ", followers waiting," if answer.waits else ""
    rest = f"{waits}{bounds_text(answer)}"
    if answer.drawn is not None:
        return f"{number_text(answer.orders)} {orders} drawn with seed {answer.seed}{rest}"
    every = "the one" if answer.orders == 1 else f"all {number_text(answer.orders)}"
    return f"{every} {orders}{rest}"


def head_line(answer: Answer) -> str:
    """What was explored of an actor."""
    others = f" with {listed(answer.others)}" if answer.others else ""
    who = f"{answer.record}: {answer.actor}{others}"
    if not answer.is_whole and answer.drawn is None:
        return f"{who}: not all was explored: {answer.why}"
    states = "" if answer.states is None else f", {counted_text(answer.states, 'state')}"
    rest = f" ({answer.why})" if answer.why else ""
    return f"{who}: {of_text(answer)}{states}{rest}"


def nothing_line(answer: Answer) -> str:
    """Nothing is wrong in any of the orders that were looked at."""
    if answer.drawn is not None:
        most = f"at most 3 in {number_text(answer.orders)} are, with 95 of a hundred"
        return f"  in none of them is anything wrong: {most}" if answer.orders else ""
    where = "in it nothing is wrong" if answer.orders == 1 else "in none of them is anything wrong"
    return f"  {where} at the end"


# What orders have, by its kind.
WHAT = {
    "apart": "{belief}",
    "open-frame": "{belief} by a frame that has not ended,",
    "moment": "{thing} was wrong for it where nothing was left to read",
    "missed": "`{thing}` is missed",
    "waits": "{thing} waits for ever, with lines left,",
    "lost": "it loses events",
    "refused": "{thing} is refused ({why})",
    "full": "the history is full, and it stops",
}


def what_text(found: Found) -> str:
    belief = f"{found.thing}: {found.believed} for it, {found.present} on the device,"
    return WHAT[found.kind].format(belief=belief, thing=found.thing, why=found.why)


def count_text(answer: Answer, found: Found) -> str:
    """In how many orders it is so."""
    share = found.orders / answer.orders
    if found.orders == answer.orders:
        every = "in the order" if answer.orders == 1 else f"in each of {of_text(answer)}"
        more = "" if answer.drawn is not None else f": this is no race, and {with_names('tools/stuck')} tells it"
        return f"{every}{more}"
    chance = "" if found.chance is None else f", by chance {share_text(found.chance)}"
    is_bounded = answer.drawn is not None or bounds_text(answer) != ""
    of_these = f"these {number_text(answer.orders)} orders" if is_bounded else of_text(answer)
    return f"in {number_text(found.orders)} of {of_these}: {share_text(share)} of a hundred{chance}"


def order_lines(found: Found) -> List[str]:
    """The short order, each actor's units that follow each other in a row."""
    if not found.units or not found.is_wrong():
        return []
    count = sum(len(lines) for _, lines in found.units)
    changes = counted(max(len(found.units) - 1, 0), "change")
    width = max(len(name) for name, _ in found.units)
    lines = [f"    a short order, {changes} of actor, {count} of {counted(found.of_units or count, 'line')}:"]
    return lines + [f"      {name:{width}}  {', '.join(texts)}" for name, texts in found.units]


def found_lines(answer: Answer, found: Found, path: Optional[str]) -> List[str]:
    lines = [f"  {what_text(found)} {count_text(answer, found)}"]
    if found.text is not None and found.is_wrong():
        lines.append(f"    why: {found.text}")
    if found.plays is False:
        lines.append("    BUT: played again, this order does not have it; keep the record, and report it")
    lines += order_lines(found)
    if path is not None:
        lines.append(f"    why in full:  {with_names('tools/stuck')} {path}")
        lines.append(f"    the picture:  {with_names('tools/draw')} {path} > order.html")
    return lines


def answer_text(answer: Answer, paths: Sequence[Optional[str]]) -> List[str]:
    """The lines on an actor. `paths` are the records of the orders that are shown, where they were
    written."""
    lines = [head_line(answer)]
    if not answer.is_whole and answer.drawn is None:
        return lines
    if not any(found.is_wrong() for found in answer.found):
        lines.append(nothing_line(answer))
    for found, path in zip(answer.found, paths):
        lines += found_lines(answer, found, path)
    return lines
