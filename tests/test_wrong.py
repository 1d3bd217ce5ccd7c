"""The wrong versions that the gate and checks/try_wrong try stand where they say, each once."""

import unittest

from tests.playing import TOP, loaded

SCRIPT = TOP / "checks" / "try_wrong"
# So many the gate tries, at most; and so many there are of both kinds, at least.
MOST_IN_THE_GATE, LEAST_OF_ALL = 90, 240


class Texts(unittest.TestCase):
    """What the files of this repository say."""

    def test_each_text_stands_once(self):
        script = loaded(SCRIPT)
        gate = [script.version_of(path.parents[1].name, path)
                for path in sorted(TOP.glob("crates/*/must-fail/*.edit"))]
        for version in [*gate, *script.versions_of(TOP)]:
            with self.subTest(version.name):
                self.assertEqual([], script.stale(TOP, [version]))

    def test_none_is_lost(self):
        gate = {(path.parts[-3], path.name) for path in TOP.glob("crates/*/must-fail/*.edit")}
        by_hand = {(path.parts[-2], path.name) for path in TOP.glob("checks/wrong/*/*.edit")}
        self.assertLessEqual(len(gate), MOST_IN_THE_GATE)
        self.assertGreaterEqual(len(gate) + len(by_hand), LEAST_OF_ALL)
        self.assertEqual(set(), gate & by_hand, "a version is tried by the gate or by hand")

    def test_each_test_is_there(self):
        rows = [version for version in loaded(SCRIPT).versions_of(TOP) if version.test]
        self.assertGreater(len(rows), 7)
        for version in rows:
            with self.subTest(version.name):
                crate, (file, _, name) = version.test[0], version.test[1].partition("::")
                text = (TOP / "crates" / crate / "src" / f"{file}.rt").read_text()
                self.assertRegex(text, rf"#\[test\]\n(#\[.*\]\n)*fn {name}\(")
