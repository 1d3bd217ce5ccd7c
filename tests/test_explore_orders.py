"""tools/explore: every order of small random records, played by the second program as it is, ends as
the graph has it, in both forms: each actor apart with states folded, and all actors together with none
folded.

By hand `compare_by_seed` of `tests/explore_cases.py` compared more than 1,000 such records of up to 300
orders each.
"""

import unittest

from tests.explore_cases import compare_by_seed

RECORDS, MOST_ORDERS = 40, 130


class EveryOrder(unittest.TestCase):
    def test_random_records(self):
        seed, compared, things = 0, 0, 0
        while compared < RECORDS:
            seed += 1
            differing, count = compare_by_seed(seed, MOST_ORDERS)
            if differing is None:
                continue
            compared, things = compared + 1, things + count
            with self.subTest(seed):
                self.assertEqual([], differing)
        self.assertGreater(things, 20)


if __name__ == "__main__":
    unittest.main()
