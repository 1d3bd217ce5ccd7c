"""Records are rewritten by `--migrate`, and what it writes is played.

Small records and their texts, which were worked out by docs/FORMATS.md ("The text of a record"), are in
tests/transcripts/migrate.txt.
"""

import shutil

from tests.playing import EXAMPLES, RECORDS, FolderCase, assert_run, run

class MigratedRecords(FolderCase):
    def test_a_migrated_record_plays_as_before(self):
        for folder in (EXAMPLES, RECORDS):
            copy = self.folder / folder.name
            shutil.copytree(folder, copy)
            for record in sorted(copy.glob("*.rec")):
                with self.subTest(record=record.stem):
                    self.plays_as_before(record)

    def plays_as_before(self, record):
        """Plays what a record is migrated to beside the files of its streams."""
        folder = record.parent
        migrated = run(["--migrate", record.name], folder)
        self.assertEqual((0, b""), (migrated.status, migrated.errors))
        self.assertEqual(b"inputrecord 2\n", migrated.text[: migrated.text.find(b"\n") + 1])
        (folder / "migrated").write_bytes(migrated.text)
        assert_run(self, run(["--migrate", "migrated"], folder), 0, migrated.text)
        wanted = run(["--history", record.name], folder)
        assert_run(self, run(["--history", "migrated"], folder), wanted.status, wanted.text)
