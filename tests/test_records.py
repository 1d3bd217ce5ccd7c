"""Records are played through the built program, and its text and exit status are compared with stored ones.

Beside a record `NAME.rec` stands the report `NAME.report`, which was worked out by the rules (docs/RULES.md
and docs/READER.md). Where `NAME.history` is there it is the report with `--history`; where `NAME.status` is
there it has the exit status, which is 0 else. A record is played in its own folder, so the files of its
`stream` lines are found.
"""

import unittest

from tests.playing import EXAMPLES, RECORDS, assert_run, run


class StoredReports(unittest.TestCase):
    def test_examples_come_out_as_stored(self):
        self.plays_all(EXAMPLES)

    def test_records_come_out_as_stored(self):
        self.plays_all(RECORDS)

    def plays_all(self, folder):
        records = sorted(folder.glob("*.rec"))
        self.assertTrue(records, f"no record in {folder}")
        for record in records:
            status = status_of(record)
            with self.subTest(record=record.stem):
                self.plays([record.name], folder, status, record.with_suffix(".report"))
            history = record.with_suffix(".history")
            if history.exists():
                with self.subTest(record=record.stem, history=True):
                    self.plays(["--history", record.name], folder, status, history)

    def plays(self, words, folder, status, report):
        assert_run(self, run(words, folder), status, report.read_bytes())

    def test_each_stored_file_has_its_record(self):
        for folder in (EXAMPLES, RECORDS):
            for kind in ("report", "history", "status"):
                for file in folder.glob(f"*.{kind}"):
                    self.assertTrue(file.with_suffix(".rec").exists(), f"{file} belongs to no record")


def status_of(record):
    file = record.with_suffix(".status")
    return int(file.read_text()) if file.exists() else 0
