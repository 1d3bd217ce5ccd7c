"""Writes what was checked: as lines for people, as TAP, as JUnit's XML, and as JSON, one object a line."""

import json
from typing import List, NamedTuple, Optional, Sequence
from xml.etree.ElementTree import Element, SubElement, tostring

from inputtools.checking import Outcome
from inputtools.command import counted, plain
from inputtools.source import write_bytes


class Checked(NamedTuple):
    """A record that was checked: the outcomes of its expectations, or why it could not be checked, and how
    many seconds that took."""

    path: str
    outcomes: List[Outcome]
    wrong: Optional[str]
    seconds: float

    def failed(self) -> List[Outcome]:
        return [outcome for outcome in self.outcomes if not outcome.is_held]


def name_of(checked: Checked, outcome: Outcome) -> str:
    """The record, the line and the expectation."""
    line = "" if outcome.number is None else f":{outcome.number}"
    return f"{checked.path}{line}: {outcome.text}"


def failure_text(outcome: Outcome) -> str:
    """The place and the time at which it failed, and what came."""
    where = "" if outcome.place is None else f"at place {outcome.place}{outcome.when}: "
    return where + (outcome.came or "")


class Form:
    """How results are written: what stands before them, each record's as it comes, and what stands last."""

    begin = ""

    def of(self, checked: Checked) -> str:
        raise NotImplementedError

    def end(self, records: Sequence[Checked], is_stopped: bool) -> str:
        return ""


class ForPeople(Form):
    """A line for each expectation that failed, and at the end one that counts."""

    def of(self, checked: Checked) -> str:
        texts = [f"{name_of(checked, outcome)}: {failure_text(outcome)}" for outcome in checked.failed()]
        return "".join(one_line(text) + "\n" for text in texts)

    def end(self, records: Sequence[Checked], is_stopped: bool) -> str:
        if all(checked.wrong is not None for checked in records) and (records or is_stopped):
            return ""
        held = [outcome.is_held for checked in records for outcome in checked.outcomes]
        of_all = counted(len(held), "expectation")
        return f"{sum(held)} of {of_all} held, in {counted(len(records), 'record')}\n"


def lines_for_people(records: Sequence[Checked]) -> str:
    """All that is written for people."""
    form = ForPeople()
    return "".join(map(form.of, records)) + form.end(records, False)


class Tap(Form):
    """The Test Anything Protocol, version 13: a test for each expectation, and one for each record that could
    not be checked. Its plan stands at the end."""

    begin = "TAP version 13\n"
    count = 0

    def of(self, checked: Checked) -> str:
        texts = [] if checked.wrong is None else [self.test(checked.path, checked.wrong)]
        for outcome in checked.outcomes:
            why = None if outcome.is_held else failure_text(outcome)
            texts.append(self.test(name_of(checked, outcome), why))
        return "".join(line + "\n" for line in texts)

    def test(self, name: str, why: Optional[str]) -> str:
        self.count += 1
        # (a `#` begins a directive in TAP)
        text = f"{self.count} - " + one_line(name).replace("\\", "\\\\").replace("#", "\\#")
        if why is None:
            return f"ok {text}"
        return f"not ok {text}\n  ---\n  message: {json.dumps(one_line(why))}\n  ..."

    def end(self, records: Sequence[Checked], is_stopped: bool) -> str:
        return "Bail out! stopped\n" if is_stopped else f"1..{self.count}\n"


class Json(Form):
    """One object a line: of each expectation, and of each record that could not be checked."""

    def of(self, checked: Checked) -> str:
        wrong = {"record": checked.path, "wrong": checked.wrong}
        objects: List[object] = [] if checked.wrong is None else [wrong]
        objects += [
            {
                "record": checked.path, "line": outcome.number, "expectation": outcome.text,
                "client": outcome.client, "held": outcome.is_held, "place": outcome.place,
                "time": outcome.time, "came": outcome.came,
            }
            for outcome in checked.outcomes
        ]
        return "".join(json.dumps(each) + "\n" for each in objects)


def one_line(text: str) -> str:
    return plain(" ".join(text.split()))


def junit(records: Sequence[Checked]) -> bytes:
    """JUnit's XML: a suite for each record, a case for each expectation."""
    suites = [junit_suite(checked) for checked in records]
    root = Element("testsuites", name="inputplay")
    for count in ("tests", "failures", "errors"):
        root.set(count, str(sum(int(suite.attrib[count]) for suite in suites)))
    root.extend(suites)
    return b'<?xml version="1.0" encoding="UTF-8"?>\n' + tostring(root) + b"\n"


def junit_suite(checked: Checked) -> Element:
    path = one_line(checked.path)
    suite = Element("testsuite", name=path, failures=str(len(checked.failed())), errors="0")
    suite.set("time", f"{checked.seconds:.3f}")
    for outcome in checked.outcomes:
        line = "" if outcome.number is None else f"line {outcome.number}: "
        case = SubElement(suite, "testcase", classname=path, name=one_line(line + outcome.text))
        if outcome.came is not None:
            why = failure_text(outcome)
            failure = SubElement(case, "failure", message=one_line(why))
            failure.text = one_line(f"{name_of(checked, outcome)}: {why}")
    if checked.wrong is not None:
        suite.set("errors", "1")
        SubElement(SubElement(suite, "testcase", classname=path, name="the record"), "error",
                   message=one_line(checked.wrong))
    suite.set("tests", str(len(suite)))
    return suite


def write_junit(path: str, records: Sequence[Checked]) -> None:
    write_bytes(path, junit(records))
