"""tools/show: its widths. What it shows is in tests/transcripts/show.txt."""

import os
from unittest import mock

from tests.desk_cases import TOP, DeskCase


class Show(DeskCase):
    def test_no_line_is_wider_and_none_parts_a_value(self):
        for columns in (60, 110, 200):
            with mock.patch.dict(os.environ, {"COLUMNS": str(columns)}), self.subTest(columns):
                lines = self.written("show", TOP / "examples" / "touchpad.rec").splitlines()
                self.assertLessEqual(max(map(len, lines)), max(columns, 92))
                sides = [side.strip(" -") for line in lines for side in line.split("|")[1:]]
                self.assertEqual([], [side for side in sides if side[:1].isdigit() and "x" not in side])
