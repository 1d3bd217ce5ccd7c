"""checks/desk: it runs the tools on many files, and tells which runs are not as they are to be."""

import random
import re

from tests.playing import PROGRAM, TOP, FolderCase, loaded, needs_program, said

SCRIPT = TOP / "checks" / "desk"


class Desk(FolderCase):
    def test_a_small_run(self):
        needs_program(self)
        status, text, errors = said(SCRIPT, "--count", 2, "--jobs", 1, "--program", PROGRAM)
        self.assertEqual((0, ""), (status, errors), text)
        *ends, parts, last = text.splitlines()
        found = re.fullmatch(r"(\d+) runs \(2 random, 2 captures, 2 mutated\), none that fails", last)
        self.assertTrue(found, last)
        self.assertEqual(int(found[1]), sum(int(line.split()[0]) for line in ends))
        self.assertRegex(parts,
                         r"^of the random records \d have filters, \d have joysticks, \d have an owner$")
        for tool in ("play", "stuck", "show", "draw", "check", "compare", "export", "describe", "record"):
            self.assertRegex(text, rf"\b{tool} +status \d +\d+\.\d s\n")

    def test_what_fails(self):
        trace = b"Traceback (most recent call last):\n  File\nIndexError: no\n"
        for run, told in ((("stuck", 0, b"text", b""), None),
                          (("stuck", 2, b"", b"stuck: one line\n"), None),
                          (("play", 2, b"", b"two\nlines\n"), None),
                          (("check", 1, b"text", b""), None),
                          (("draw", 1, b"", trace), "it ends in a traceback: IndexError: no"),
                          (("draw", 1, b"", b""), "it ends in 1"),
                          (("draw", -11, b"", b""), "it ends in SIGSEGV"),
                          (("draw", -14, b"", b""), "it takes longer than 60 seconds"),
                          (("stuck", 2, b"", b"a\nb\n"), "status 2 with 2 lines on standard error"),
                          (("stuck", 2, b"x", b"a\n"), "status 2 with something on standard output")):
            with self.subTest(run):
                self.assertEqual(told, loaded(SCRIPT).what_fails(*run))

    def test_a_run(self):
        """A tool that does not end as it should, in a process of its own."""
        desk = loaded(SCRIPT)
        desk.TOOLS = self.folder
        for name, text in {"odd": "raise IndexError('no')", "exits": "import sys\nprint('out')\nsys.exit(3)",
                           "reads": "import sys\nprint(sys.stdin.read(), sys.argv[1:])"}.items():
            (self.folder / name).write_text(text)
        status, _, said = desk.run("odd", [], self.folder)
        self.assertEqual((70, True), (status, said.endswith(b"IndexError: no\n")))
        self.assertEqual((3, b"out\n", b""), desk.run("exits", [], self.folder))
        self.assertEqual((0, b" ['a']\n", b""), desk.run("reads", ["a"], self.folder))

    def test_the_same_files(self):
        desk = loaded(SCRIPT)
        data = (TOP / "examples" / "keyboard.rec").read_bytes()
        forms = [desk.mutated(data, random.Random(number)) for number in range(200)]
        self.assertEqual(forms, [desk.mutated(data, random.Random(number)) for number in range(200)])
        self.assertGreater(len(set(forms)), 180)
