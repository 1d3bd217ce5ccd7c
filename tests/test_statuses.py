"""Outputs of the program that take a part of what it writes, or nothing. Its other statuses are in
tests/transcripts/statuses.txt."""

import os
import resource

from tests.playing import EXAMPLES, FolderCase, assert_run, run

ONE_KEY = (EXAMPLES / "one_key.rec").read_bytes()
ONE_KEY_REPORT = (EXAMPLES / "one_key.report").read_bytes()


def with_file_size(limit_in_bytes):
    """Has a process write no file beyond this size."""
    return lambda: resource.setrlimit(resource.RLIMIT_FSIZE, (limit_in_bytes, limit_in_bytes))


class Statuses(FolderCase):
    def test_4_a_pipe_that_nobody_reads(self):
        reads, writes = os.pipe()
        os.close(reads)
        self.addCleanup(os.close, writes)
        assert_run(self, run([EXAMPLES / "one_key.rec"], self.folder, stdout=writes), 4, b"")

    def test_4_an_output_that_takes_a_front_part(self):
        with open(self.folder / "out", "wb") as out:
            came = run([EXAMPLES / "one_key.rec"], self.folder, stdout=out, restore_signals=False,
                       preexec_fn=with_file_size(100))
        assert_run(self, came, 4, b"")
        self.assertEqual(ONE_KEY_REPORT[:100], (self.folder / "out").read_bytes())
