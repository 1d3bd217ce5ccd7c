"""tools/explore: in how many orders of a record's lines a client believes something wrong at the end."""

import json
import os
import re
import signal
import subprocess
import unittest
from collections import Counter
from unittest import mock

from tests.desk_cases import DeskCase, heed_stops
from tests.explore_cases import TOP, explored_record, things_of, whole_graph
from inputtools.belief import Thing
from inputtools.explored_record import units_of
from inputtools.exploring_graph import Graph

EXAMPLES, RECORDS, DATA = TOP / "examples", TOP / "tests" / "records", TOP / "tests" / "data" / "explore"
LID, STUCK, HANDOVER = EXAMPLES / "lid.rec", EXAMPLES / "stuck_key.rec", EXAMPLES / "handed_over_grab.rec"


# What is no apart thing: clients that lost events, and a line that waits.
LOST, WAITS = ("lost", "", ""), ("waits", "remapper", "")
BARRIER, GUARD = DATA / "opens_under_a_grab.rec", DATA / "grabs_when_no_key_is_down.rec"
CALLS = {"grain": "call"}
# A record, its actor, how many orders there are, and in how many each wrong thing comes; what else is looked
# at, and how it is explored. (A remapper that asks before it grabs ends wrong in 19 and 18 of a hundred.)
ORDERS = (
    (STUCK, "desktop", 2520, {"KEY_LEFTCTRL": 147}),
    (STUCK, "desktop", 27720, {"KEY_LEFTCTRL": 917}, {}, {"grain": "line"}),
    (STUCK, "desktop", 316097, {"KEY_LEFTCTRL": 14983}, {}, CALLS),
    (STUCK, "desktop", 36574, {}, {}, {**CALLS, "waits": True}),
    (STUCK, "desktop", 1, {}, {}, {"within": 0}),
    (STUCK, "desktop", 2520, {"KEY_LEFTCTRL": 147}, {}, {"within": 100}),
    (STUCK, "desktop", 6, {}, {}, {"preemptions": 0}),
    (STUCK, "desktop", 2520, {"KEY_LEFTCTRL": 147}, {}, {"preemptions": 99}),
    (STUCK, "remapper", 10, {}),
    (LID, "applet", 495, {"SW_LID": 2}, {LOST: 137}),
    (LID, "logind", 495, {"SW_LID": 2}),
    (LID, "probe", 1287, {}),
    (EXAMPLES / "clocked_lid.rec", "desktop", 4, {"SW_LID": 1}),
    (EXAMPLES / "clocked_lid.rec", "manager", 5, {}),
    (EXAMPLES / "mouse.rec", "desktop", 24310, {"BTN_LEFT": 1949}, {LOST: 10239}),
    (EXAMPLES / "mouse.rec", "volume", 5005, {"BTN_LEFT": 40}),
    (HANDOVER, "compositor", 11550, {"KEY_LEFTCTRL": 2800, "KEY_ENTER": 2580}),
    (HANDOVER, "remapper", 35, {}),
    (DATA / "opens_late.rec", "game", 35, {"KEY_LEFTSHIFT": 5}),
    (DATA / "vt_switch.rec", "first", 210, {}),
    (DATA / "vt_switch.rec", "second", 35, {"KEY_LEFTCTRL": 25, "KEY_F2": 9}),
    (DATA / "inhibit_repeat.rec", "desktop", 900900, {}),
    (DATA / "inhibit_repeat.rec", "osk", 277200, {}),
    (DATA / "slots_dropped.rec", "compositor", 74613, {}, {LOST: 238}),
    (DATA / "slots_dropped.rec", "app", 245157,
     {"slot 0 ABS_MT_POSITION_X": 275, "slot 0 ABS_MT_TRACKING_ID": 93, "slot 1 ABS_MT_POSITION_X": 275},
     {LOST: 388, ("apart", "slot 0 ABS_MT_POSITION_X", 785, 215): 21}),
    (GUARD, "compositor", 7512, {"KEY_LEFTCTRL": 1432, "KEY_ENTER": 1380}, {WAITS: 252}),
    (BARRIER, "compositor", 630, {"KEY_ENTER": 180, "KEY_LEFTCTRL": 36}),
    (DATA / "asks_behind_the_grab.rec", "compositor", 23022, {}),
    (RECORDS / "slow_client_alone_loses.rec", "fast", 501942, {"KEY_A": 64, "KEY_B": 66}),
    (DATA / "two_sources_stage_slots.rec", "c", 30,
     {"the current slot": 16, "slot 0 ABS_MT_POSITION_X": 9, "slot 1 ABS_MT_POSITION_X": 16}),
)


class Numbers(unittest.TestCase):
    """Exact numbers of orders, all of them and those that end wrong."""

    def has(self, path, target, total, wanted, more={}, asked={}):
        came, rows = things_of(path.read_text(), target, path.parent, **asked)
        wrong = Counter()
        for (kind, name, *_), orders in rows.items():
            wrong[name] += orders if kind in ("apart", "open-frame") else 0
        self.assertEqual((total, wanted, more), (came, +wrong, {key: rows.get(key) for key in more}))

    def test_numbers(self):
        for row in ORDERS:
            with self.subTest([row[0].stem, *row[1:]]):
                self.has(*row)


WRONG_IN_SOME = """\
  KEY_LEFTCTRL: down for it, up on the device, in 147 of all 2,520 orders: 5.83 of a hundred, by chance 1.37
    why: grab of remapper from place 4 (0.001 s) on
    a short order, 3 changes of actor, 7 of 12 lines:
      usb       KEY_LEFTCTRL 1, SYN_REPORT 0
      remapper  open, grab
      desktop   open
      usb       KEY_LEFTCTRL 0, SYN_REPORT 0"""

HEAD = "inputrecord 2\ndevice d\nhint 8\ncap EV_KEY KEY_A\nsource s\nclient c\n"
PRESS = "do s event 1000 EV_KEY KEY_A 1\ndo s event 1000 EV_SYN SYN_REPORT 0\n"
OPEN = "do c open\ndo c follow\n"


FIRST, REPORT = PRESS.splitlines(keepends=True)
OTHER = "client other\n"
READS, GRABS = "do other open\ndo other follow\n", "do other open\ndo other grab\n"
# Lines behind the head, how they are cut, and how many lines each unit of the source has.
UNITS = ((PRESS, "frame", [2]),
         (PRESS, "line", [1, 1]),
         (PRESS + "do s tick 5\n" + PRESS + FIRST, "frame", [2, 1, 2, 1]),
         (FIRST + "#~\n" + REPORT, "frame", [1, 1]),
         (PRESS.replace("EV_SYN SYN_REPORT", "0 0x0"), "frame", [2]))
# Lines behind the head, how many orders they have, and in how many each thing comes.
ENDS = {
    "no source": (OPEN, 1, {}),
    "no line": (PRESS, 1, {}),
    "who never opens is not judged": (PRESS + "do c grab\n", 2, {("refused", "grab", "bad-client"): 2}),
    "a guard of no source": ("do c open\n#~ if no key\ndo c grab\n", 1, {}),
    "a guard that never opens": (PRESS + "#~\ndo c open\n#~ if no key\ndo c grab\n", 1,
                                 {("waits", "c", ""): 1}),
    "an open frame": ("do c open\n#~\ndo s event 1 EV_KEY KEY_A 1\n", 1, {("open-frame", "KEY_A", 0, 1): 1}),
}


class Actors(unittest.TestCase):
    def test_units(self):
        for text, grain, wanted in UNITS:
            with self.subTest(text=text, grain=grain):
                units = units_of(explored_record(HEAD + text).actors[0].lines, grain)
                self.assertEqual(wanted, [len(unit.lines) for unit in units])

    def test_a_stream_is_its_events(self):
        record = explored_record(HEAD + "do s stream views_flood.bin\n", EXAMPLES)
        self.assertEqual(66, len(record.actors[0].lines))

    def test_ends(self):
        for name, (text, *wanted) in ENDS.items():
            with self.subTest(name):
                self.assertEqual(tuple(wanted), things_of(HEAD + text, "c"))

    def test_others_who_only_read_are_left_out(self):
        alone = things_of(HEAD + PRESS + OPEN, "c")
        self.assertEqual(alone, things_of(HEAD + OTHER + PRESS + OPEN + READS, "c"))
        graph, _ = whole_graph(explored_record(HEAD + OTHER + PRESS + OPEN + GRABS), "c")
        self.assertEqual(["s", "c", "other"], graph.problem.names)
        another = "device e\ncap EV_KEY KEY_B\nsource t\nclient f\n"
        self.assertEqual(alone, things_of(HEAD + another + PRESS + OPEN + "do f open\n", "c"))

    def test_a_short_log_has_all_stay(self):
        text = HEAD + OTHER + PRESS + OPEN + READS
        _, rows = came = things_of(text.replace("hint 8\n", "hint 8\nlog 5\n"), "c")
        self.assertIn(("full", "", ""), rows)
        self.assertNotEqual(things_of(text, "c"), came)

    def test_sixty_five_opens(self):
        crowd = "tap crowd\n" + "do crowd open\n" * 64 + "#~\n"
        total, rows = things_of(HEAD + crowd + PRESS + OPEN + "do crowd close\n", "c")
        self.assertEqual((12, 8), (total, rows["refused", "open", "too-many"]))


def fields(each, *names):
    return tuple(each[name] for name in names)


class Command(DeskCase):
    def explore(self, *words):
        status, text, lines = self.tool("explore", *words)
        self.assertEqual([], lines)
        return status, text.splitlines()

    def objects(self, *words):
        status, lines = self.explore(*words, "--json")
        self.assertEqual(0, status)
        return [json.loads(line) for line in lines]

    def things(self, *words):
        return [each for each in self.objects(*words) if each["kind"] == "thing"]

    def record(self, text, name="given.rec"):
        return self.file(name, text)

    # What it says

    def test_nothing_wrong(self):
        for text, words, head, line in (
            (PRESS + OPEN, ["--fail"], "all 3 orders, 6 states", "none of them is anything wrong at the end"),
            (OPEN, [], "the one order, 3 states", "it nothing is wrong at the end"),
            (PRESS + OPEN, ["--draw", "40"], "40 orders drawn with seed 1",
             "none of them is anything wrong: at most 3 in 40 are, with 95 of a hundred")
        ):
            with self.subTest(line):
                path = self.record(HEAD + text)
                self.assertEqual((0, [f"{path}: c with s: {head}", f"  in {line}"]),
                                 self.explore(path, *words))

    def test_wrong_in_some(self):
        status, lines = self.explore(STUCK, "--of", "desktop")
        self.assertEqual((0, WRONG_IN_SOME), (status, "\n".join(lines[1:])))

    def test_json(self):
        explored, thing = self.objects(STUCK, "--of", "desktop")
        self.assertEqual(("explored", "desktop", ["usb", "remapper"], 2520, True),
                         fields(explored, "kind", "actor", "others", "orders", "is_all"))
        self.assertEqual(("thing", "apart", "KEY_LEFTCTRL", "down", "up", 147, 4, "grab", True),
                         fields(thing, "kind", "what", "thing", "believed", "present", "orders", "changes",
                                "cause", "plays"))
        self.assertEqual("inputrecord 2", thing["lines"][0])

    def test_a_bound_is_named(self):
        for words, text in (
            (("--within", "2"), "in which nothing goes ahead of what begins more than 2 lines before it"),
            (("--preemptions", "1"), "with at most 1 change of actor that nobody needed"),
            (("--draw", "50"), "50 orders drawn with seed 1"),
            (("--draw", "50", "--seed", "7"), "50 orders drawn with seed 7"),
            (("--grain", "call"), "all 316,097 orders of calls"),
            (("--grain", "call", "--waits"), "all 36,574 orders of calls, followers waiting,"),
        ):
            with self.subTest(words):
                self.assertIn(text, self.explore(STUCK, "--of", "desktop", *words)[1][0])

    def test_too_many_states(self):
        status, lines = self.explore(STUCK, "--of", "desktop", "--states", "90", "--fail")
        self.assertEqual(1, status)
        drawn = next(line for line in lines if "drawn" in line)
        for line, end in (
            (lines[0], "all 6 orders with at most 0 changes of actor that nobody needed, 36 states"),
            (drawn, "1,000 orders drawn with seed 1 (there are more than 90 states)"),
        ):
            self.assertTrue(line.endswith(end), line)

    def test_moments(self):
        things = self.things(STUCK, "--of", "desktop", "--moments")
        self.assertEqual([("apart", 147), ("moment", 291)],
                         [fields(each, "what", "orders") for each in things])

    def test_each_field_is_told(self):
        """docs/JSON.md tells each object with all of its fields."""
        section = (TOP / "docs" / "JSON.md").read_text().split("\n## explore\n")[1].split("\n## ")[0]
        rows = [row.split("|")[1:3] for row in section.splitlines() if row.startswith("| `")]
        told = {kind.strip(" `"): set(re.findall("`([a-z_]+)`", names)) for kind, names in rows[1:]}
        text = self.written("explore", STUCK, "--of", "desktop", "--shard", "1/1")
        for line in text.splitlines():
            each = json.loads(line)
            kind = each.pop("kind")
            self.assertEqual(told[kind], set(each), kind)
        self.assertEqual({"shard", "explored", "thing"}, set(told))

    # Its records

    def test_records_play_and_are_stuck(self):
        out = self.folder / "orders"
        for record in (STUCK, HANDOVER, LID):
            self.explore(record, "--out", out)
        paths = sorted(out.glob("*.rec"))
        names = [path.stem for path in paths if "lost" not in path.stem]
        self.assertEqual(["handed_over_grab-compositor-KEY_ENTER", "handed_over_grab-compositor-KEY_LEFTCTRL",
                          "lid-applet-SW_LID", "lid-logind-SW_LID", "stuck_key-desktop-KEY_LEFTCTRL"],
                         names)
        for path in paths:
            with self.subTest(path.stem):
                status, text, lines = self.tool("stuck", "--fail", path)
                self.assertEqual((int("lost" not in path.stem), []), (status, lines))
                if "lost" not in path.stem:
                    actor, thing = path.stem.split("-")[1:]
                    self.assertRegex(text, f"{actor}\n(  it lost .*\n)?  {thing}: ")

    def test_an_order_of_calls_is_a_record_of_taps(self):
        out = self.folder / "orders"
        self.explore(STUCK, "--grain", "call", "--of", "desktop", "--out", out)
        text = (out / "stuck_key-desktop-KEY_LEFTCTRL.rec").read_text()
        self.assertIn("tap desktop\n", text)
        self.assertIn("do desktop keys\n", text)
        self.assertEqual(1, self.tool("stuck", "--fail", out / "stuck_key-desktop-KEY_LEFTCTRL.rec")[0])

    def test_no_unit_can_be_left_out(self):
        (thing,) = self.things(STUCK, "--of", "desktop")
        own = [number for number, line in enumerate(thing["lines"]) if line.startswith("do ")][:-1]
        for number in own:
            lines = thing["lines"][:number] + thing["lines"][number + 1 :]
            if "EV_KEY" in thing["lines"][number]:
                del lines[number]
            with self.subTest(thing["lines"][number]):
                text = self.written("stuck", "--json", self.record("\n".join(lines) + "\n"))
                ends = [json.loads(line) for line in text.splitlines() if '"kind": "end"' in line]
                wrong = [end["name"] for end in ends if not end["agrees"]]
                self.assertEqual("EV_SYN" in thing["lines"][number], "desktop" in wrong)

    # Expectations

    EXPECTS = "#= c agrees\n#= c takes KEY_A 1\n#= c never KEY_A 0\n#= c drops 0\n#= c at-end keys KEY_A\n"

    def test_expectations(self):
        path = self.record(HEAD + self.EXPECTS + PRESS + OPEN)
        (thing,) = self.things(path, "--expect")
        self.assertEqual(("missed", "c takes KEY_A 1", 1), fields(thing, "what", "thing", "orders"))
        self.assertEqual(1, self.explore(path, "--expect", "--fail")[0])
        path = self.record(HEAD + self.EXPECTS.replace("takes KEY_A 1", "at-end keys KEY_A") + PRESS + OPEN)
        self.assertEqual(0, self.explore(path, "--expect", "--fail")[0])

    def test_drops(self):
        lines = ("do c open\n" + PRESS + "do c clock monotonic 5\n" + PRESS.replace(" 1\n", " 0\n")
                 + "do c follow\n")
        path = self.record(HEAD + "#= c drops 0\n" + lines)
        self.assertEqual(["c drops 0"], [each["thing"] for each in self.things(path, "--expect")])

    # Statuses

    def test_statuses(self):
        good, bad = self.record(HEAD + PRESS + OPEN), self.record((STUCK).read_text(), "bad.rec")
        for words, status in (((good,), 0),
                              ((good, "--fail"), 0),
                              ((bad,), 0),
                              ((bad, "--fail"), 1),
                              ((good, "--fail", "--draw", "9"), 3),
                              ((good, "--fail", "--within", "0"), 3),
                              ((good, "--fail", "--within", "9"), 0),
                              ((good, "--fail", "--preemptions", "0"), 3),
                              ((good, bad, "--fail"), 1),
                              ((self.folder, "--fail"), 1),
                              ((good, "--fail", "--states", "2"), 3)):
            with self.subTest([str(word) for word in words]):
                self.assertEqual(status, self.explore(*words)[0])

    def test_wrong_words(self):
        path, empty = self.record(HEAD + OPEN), self.folder / "empty"
        empty.mkdir()
        for words, because in ((("--within", "x", path), "--within x is no number"),
                               (("--waits", path), "--waits wants --grain call"),
                               (("--of", "d", path), "no actor of these records is named d"),
                               (("--shard", "3/2", path), "is not K/N"),
                               (("--draw", "0", path), "--draw 0 is not in 1"),
                               ((self.folder / "none.rec",), "No such file"),
                               (("--draw", "5", "--preemptions", "1", path), "it goes without --preemptions"),
                               ((empty,), "the folder has no record"),
                               (("--expect", path), "it expects nothing")):
            with self.subTest([str(word) for word in words]):
                self.refused("explore", *words, because=because)

    def test_wrong_records(self):
        for text, because in (("inputrecord 2\ndevice d\nhint 1\n", "bad-hint"),
                              (HEAD + "#~ if a key\n" + OPEN, "is neither"),
                              (HEAD + "#~ if no key\n" + PRESS, "stands before a line of s")):
            with self.subTest(because):
                self.refused("explore", self.record(text), because=because)

    def test_others_are_explored_beside_a_wrong_one(self):
        status, text, lines = self.tool("explore", self.record("nothing\n"),
                                        self.record(HEAD + OPEN, "other.rec"))
        self.assertEqual((2, 1, 2), (status, len(lines), len(text.splitlines())))

    def test_standard_input(self):
        words = ["bash", "-c", f"{TOP}/tools/explore - --fail < {STUCK}"]
        done = subprocess.run(words, capture_output=True, text=True)
        self.assertEqual(1, done.returncode, done.stderr)
        self.assertTrue(done.stdout.startswith("standard input: desktop with"), done.stdout)

    def test_a_play_that_differs(self):
        """A graph whose device does otherwise than the program is told, in a status of its own."""
        differs = [(Thing("EV_KEY", "KEY_A"), 1, 0)]
        with mock.patch("inputtools.explored_ends.differences_of_bits", lambda actor, device: differs):
            status, lines = self.explore(self.record(HEAD + OPEN))
        self.assertEqual(5, status)
        self.assertIn("BUT: played again, this order does not have it", "\n".join(lines))

    def test_a_stop_keeps_what_was_found(self):
        """A stop from the keyboard comes while the second record is explored."""
        look = Graph.look

        def stopped(graph, state):
            if "gamepad" in graph.problem.record.name:
                os.kill(os.getpid(), signal.SIGINT)
            look(graph, state)

        self.addCleanup(signal.signal, signal.SIGINT, signal.getsignal(signal.SIGINT))
        heed_stops()
        with mock.patch.object(Graph, "look", stopped):
            status, text, lines = self.tool("explore", STUCK, EXAMPLES / "gamepad.rec", "--states", "9999999")
        self.assertEqual((130, ["explore: stopped: what is written is not all that was asked for"]),
                         (status, lines))
        self.assertIn("KEY_LEFTCTRL: down for it, up on the device, in 147 of all 2,520 orders", text)
        self.assertIn("overlay with xpad, game and tester: not all was explored: stopped from the keyboard",
                      text)

    # Parts

    def test_parts_are_the_whole(self):
        calls = ("--draw", "20", "--grain", "call", "--waits", "--json")
        for words in (("--draw", "40"), ("--draw", "40", "--json"), calls, (), ("--json",)):
            with self.subTest(words):
                self.is_the_sum_of_parts(words)

    def is_the_sum_of_parts(self, words):
        records, form = (STUCK, LID), [word for word in words if word == "--json"]
        paths = []
        for number in range(1, 4):
            text = self.written("explore", *records, *words, "--shard", f"{number}/3")
            paths.append(self.file(f"part{number}.json", text))
        whole = self.written("explore", *records, *words)
        self.assertEqual(whole, self.written("explore", "--join", *reversed(paths), *form))

    def test_processes_say_the_same(self):
        records = (STUCK, LID, HANDOVER)
        self.assertEqual(self.written("explore", *records), self.written("explore", "-j", "3", *records))

    def test_parts_that_are_no_whole(self):
        parts = [self.file(f"{n}.json", self.written("explore", STUCK, "--shard", f"{n}/3"))
                 for n in (1, 2, 3)]
        other = self.file("other.json", self.written("explore", STUCK, "--shard", "3/3", "--seed", "2"))
        for paths, because in ((parts[:2], "look at 3"),
                               ([*parts, parts[0]], "look at 1"),
                               ([*parts[:2], other], "a shard of another run"),
                               ([STUCK], "no JSON of tools/explore"),
                               ([self.file("none.json", "")], "it is no shard")):
            with self.subTest(because):
                self.refused("explore", "--join", *paths, because=because)

    def test_one_seed_the_same_draws(self):
        first, again, other = (self.written("explore", STUCK, "--draw", "80", "--seed", seed)
                               for seed in "112")
        self.assertEqual(first, again)
        self.assertNotEqual(first, other.replace("seed 2", "seed 1"))
