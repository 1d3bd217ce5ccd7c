"""What bench/gate_cost tells of made-up processes, and of one that it sees."""

import os
import sys

from tests.playing import TOP, FolderCase, loaded, said

SCRIPT = TOP / "bench" / "gate_cost"
tool = loaded(SCRIPT)


class GateCost(FolderCase):
    def test_sums_by_crate_and_kind(self):
        seen = {"1": ("low", "proofs", 10.0),
                "2": ("low", "tests", 5.0),
                "3": ("high", "edits", 20.0),
                "4": ("high", "edits", 2.0)}
        want = ["crate            proofs    tests    edits      all",
                "high                  0        0       22       22",
                "low                  10        5        0       15",
                "all                  10        5       22       37"]
        self.assertEqual(tool.table(seen), want)

    def test_a_page_has_the_table_and_the_machine_s_measure(self):
        told = tool.told_of(37.4, 2.0, 15.04)
        want = ["| Crate | Proofs | Tests | Edits | All |", "|---|---|---|---|---|",
                "| low | 10 | 0 | 3 | 13 |", "| all | 10 | 0 | 3 | 13 |", "",
                f"37 seconds of one processor in all, 2.0 minutes on {os.cpu_count()} processors.",
                "The toolchain's first library took 15.0 seconds in the same run."]
        self.assertEqual(want,
                         tool.page_rows({"1": ("low", "proofs", 10.2), "2": ("low", "edits", 3.0)}, told))

    def test_tells_what_a_process_works_at(self):
        words = ["/bin/rattle", "build", "--crate-name", "low", "src/lib.rt"]
        self.assertEqual(tool.crate_of(words), "low")
        self.assertIsNone(tool.crate_of(["/bin/rattle", "fmt"]))
        self.assertEqual(tool.kind_of(words, "/work/crates/low"), "proofs")
        self.assertEqual(tool.kind_of([*words, "--test"], "/work/crates/low"), "tests")
        self.assertEqual(tool.kind_of(words, "/tmp/rt-edit-1-ab"), "edits")

    def test_reads_a_name_with_blanks(self):
        stat = "7 (a (b) c) S 3 0 0 0 0 0 0 0 0 0 150 50 0 0"
        self.assertEqual(tool.parent_of(stat), 3)
        self.assertEqual(tool.seconds_of(stat, 100), 2.0)

    def test_sees_a_process_of_the_prover_below_the_command(self):
        rattle = self.folder / "rattle"
        rattle.symlink_to(sys.executable)
        busy = "import time; end = time.process_time() + 3\nwhile time.process_time() < end: pass"
        # (on a machine that does much else a process gets little of it)
        words = ("--no-measure", rattle, "-c", busy, "--crate-name", "low")
        status, text, errors = said(SCRIPT, *words, timeout=900)
        self.assertEqual(0, status, errors)
        self.assertRegex(text, r"(?m)^low +[123] +0 +0 +[123]$")
