"""tools/compare: records, and random lists. Reports and captures are in tests/transcripts/compare*.txt."""

import random

from tests.desk_cases import DATA, DeskCase, needs_program
from inputtools.comparing import longest_ascending, pairs_of


class Records(DeskCase):
    def test_an_event_more_is_one_difference(self):
        needs_program(self)
        text = self.written("record", DATA / "mouse.evemu")
        lines = text.splitlines(keepends=True)
        at = next(i for i, line in enumerate(lines) if i > 200 and "REL_X" in line)
        more = lines[: at + 1] + [lines[at].replace("REL_X", "REL_Y")] + lines[at + 1 :]
        paths = [self.file("a.rec", text), self.file("b.rec", "".join(more))]
        status, written, _ = self.tool("compare", *paths, "--all")
        rows = written.splitlines()
        self.assertEqual((1, 1), (status, len(rows)), rows)
        self.assertRegex(rows[0], r"^reader, entry \d+, place \d+: only in the second: nothing before the ")
        self.assertRegex(rows[0], rf" \| the report of {paths[1]}:\d+: took \d+ \d+ EV_REL REL_Y ")


class Pairs(DeskCase):
    def test_random_lists(self):
        """Pairs ascend, are of equal keys, and leave no more over than was changed."""
        numbers = random.Random(5)
        for _ in range(300):
            first = [numbers.randrange(4) for _ in range(numbers.randrange(30))]
            second, changes = list(first), numbers.randrange(6)
            for _ in range(changes):
                at = numbers.randrange(len(second) + 1)
                if numbers.random() < 0.5:
                    second.insert(at, numbers.randrange(4))
                else:
                    del second[at : at + 1]
            pairs, is_whole = pairs_of(first, second)
            self.assertTrue(is_whole)
            self.assertTrue(all(first[i] == second[j] for i, j in pairs))
            self.assertTrue(all(a[0] < b[0] and a[1] < b[1] for a, b in zip(pairs, pairs[1:])))
            self.assertLessEqual(len(first) + len(second) - 2 * len(pairs), changes)

    def test_lists_that_have_nothing_in_common(self):
        pairs, is_whole = pairs_of([0] + [1] * 400 + [3], [0] + [2] * 400 + [3])
        self.assertEqual(([(0, 0), (401, 401)], False), (pairs, is_whole))

    def test_longest_ascending(self):
        self.assertEqual([0, 1, 3, 4], longest_ascending([1, 2, 9, 2, 5]))
        self.assertEqual([], longest_ascending([]))
