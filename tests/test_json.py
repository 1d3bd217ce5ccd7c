"""docs/JSON.md: each object that `play`, `stuck`, `show` and `describe` write with --json is told there, with
all of its fields, and each that is told there is written."""

import json
import re

from tests.desk_cases import DATA, TOP, DeskCase, needs_program
from tests.playing import said

EXAMPLES, RECORDS = TOP / "examples", TOP / "tests" / "records"
PAGE = TOP / "docs" / "JSON.md"


def section(name):
    """A section of the page."""
    return PAGE.read_text().split(f"\n## {name}\n")[1].split("\n## ")[0]


def fields(name):
    """The kinds that a section tells, and of each the fields that may stand in it."""
    told = {}
    for row in section(name).split("| `kind` |")[1].split("\n\n")[0].splitlines()[2:]:
        kinds, names = row.split("|")[1:3]
        for kind in re.findall(r"`([a-z-]+)`", kinds):
            told[kind] = set(re.findall(r"`([a-z-]+)`", names))
    return told


def causes():
    """The causes that the page tells."""
    rows = section("stuck").split("| `cause` |")[1].splitlines()[2:]
    return {word for row in rows if row.startswith("|")
            for word in re.findall(r"`([a-z-]+)`", row.split("|")[1])}


class Page(DeskCase):
    def check(self, name, texts, common=()):
        """The objects of these texts are those that the section tells. What it tells and none of them has, as
        (kind, field), or as a kind alone."""
        told, found = fields(name), {}
        for text in texts:
            for line in text.splitlines():
                each = json.loads(line)
                kind = each.pop("kind")
                found.setdefault(kind, set()).update(each)
                more = {*each} - told[kind] - {*common}
                self.assertEqual(set(), more, f"{name}: {kind}: {line}")
        missing = {(kind, field) for kind in found for field in told[kind] - found[kind]}
        return missing | (set(told) - set(found))

    def test_play(self):
        letter = self.file("letter.rec", "dear all\n")
        records = [RECORDS / "owners_stand_behind_all_joysticks.rec", EXAMPLES / "views.rec",
                   EXAMPLES / "joystick.rec"]
        needs_program(self)
        text = said("tools/play", "--json", "--history", *records, letter).text
        self.assertEqual(set(), self.check("play", [text], common=["file"]))

    def test_stuck(self):
        needs_program(self)
        records = [*sorted(EXAMPLES.glob("*.rec")), RECORDS / "filters_decide_anew.rec",
                   RECORDS / "slot_255.rec"]
        texts = [self.written("stuck", "--json", record) for record in records]
        texts.append(self.written("stuck", "--json", "--end", records[0]))
        cut = (EXAMPLES / "stuck_key.rec").read_text().replace("hint 8", "hint 8\nlog 6")
        texts.append(self.tool("stuck", "--json", self.file("cut.rec", cut))[1])
        self.assertEqual(set(), self.check("stuck", texts))
        partings = [each for text in texts for each in map(json.loads, text.splitlines())
                    if each["kind"] == "parting"]
        self.assertLessEqual({each["cause"] for each in partings}, causes())

    def test_show(self):
        texts = [self.written("show", "--json", record) for record in sorted(EXAMPLES.glob("*.rec"))]
        self.assertEqual(set(), self.check("show", texts))
        told = set(re.findall("`([a-z]+)`", section("show").split("\n`what` is ")[1]))
        rows = [each for text in texts for each in map(json.loads, text.splitlines()) if "what" in each]
        steps = ("open close read grab ungrab revoke mask clock write discard setaxis "
                 "tick inhibit uninhibit").split()
        self.assertEqual(told, {row["what"] for row in rows} - {*steps})

    def test_check_and_compare(self):
        """Each field of their objects is told."""
        needs_program(self)
        check = ["check", "--json", self.file("case.rec", "#= status 0\ninputrecord 1\n"), "none.rec"]
        report = (EXAMPLES / "stuck_key.report").read_text()
        compare = ["compare", "--json", self.file("a.report", report),
                   self.file("b.report", report.replace("again 7\n", "again 7\nagain 7\n"))]
        for words in (check, compare):
            for line in self.tool(*words)[1].splitlines():
                for name in json.loads(line):
                    self.assertIn(f"| `{name}` |", section(words[0]))

    def test_causes(self):
        """Each cause that is made anywhere is told, in the page and in the summary."""
        sources = "".join((TOP / "tools" / "inputtools" / f"{name}.py").read_text()
                          for name in ("causes", "joysticks", "owners"))
        made = set(re.findall(r'Cause\(\s*"([a-z-]+)"', sources))
        summary = (TOP / "tools" / "inputtools" / "summary.py").read_text()
        self.assertEqual(made, causes())
        self.assertEqual(made, set(re.findall(r'^    "([a-z-]+)": ', summary, re.MULTILINE)))

    def test_describe(self):
        lines = ["inputrecord 2", "device d", "log 9", "type EV_REP", "clock realtime 5", "filter norepeat",
                 "cap EV_KEY KEY_A"]
        record = self.file("d.rec", "".join(line + "\n" for line in lines))
        texts = [self.written("describe", "--json", each) for each in (DATA / "touchpad.evtest", record)]
        self.assertEqual(set(), self.check("describe", texts))
