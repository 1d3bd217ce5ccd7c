"""What a record expects of an actor, as it is judged over all orders: `agrees` and `at-end` at the end,
and `never`, `takes` and `drops` of what the actor is handed on its way."""

from __future__ import annotations

from typing import Any, List, NamedTuple, Sequence, Tuple

from inputtools.command import Wrong
from inputtools.expectations import expectations_of
from inputtools.explored_record import ExploredRecord
from inputtools.explored_state import ExpectedEvent
from inputtools.names import number_of_code, number_of_kind

OF_EVENTS = ("never", "takes")


class Expected(NamedTuple):
    """What is expected of the judged actor on its way: of events, and whether losses are counted."""

    events: Tuple[ExpectedEvent, ...] = ()
    counts_losses: bool = False

    def is_nothing(self) -> bool:
        return not self.events and not self.counts_losses


def expected_of(expectations: Sequence[Any]) -> Expected:
    events = tuple(expected_event(each) for each in expectations if each.kind in OF_EVENTS)
    return Expected(events, any(each.kind == "drops" for each in expectations))


def expected_event(expectation: Any) -> ExpectedEvent:
    kind_name, code_name = expectation.event
    kind = number_of_kind(kind_name) or 0
    code = None if code_name is None else number_of_code(kind, code_name)
    return ExpectedEvent(expectation.number, kind, code, expectation.value)


def expectations_on_actors(record: ExploredRecord) -> List[Any]:
    """The expectations of a record that are of its actors. The report and the status are those of one
    order."""
    try:
        found = [each for each in expectations_of(record.text) if each.actor is not None]
    except Wrong as wrong:
        raise Wrong(f"{record.name}: {wrong}") from None
    if not found:
        raise Wrong(f"{record.name}: it expects nothing of an actor")
    return found
