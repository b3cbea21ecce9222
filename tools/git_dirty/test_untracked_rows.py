"""Runs the rows of untracked_rows.txt, which has the form of rows.txt:

    python3 tools/run_tests.py git_dirty.test_untracked_rows
"""

from git_dirty.rows import FILE, RowCase, rows_of

ROWS = rows_of(FILE.with_name("untracked_rows.txt").read_text(encoding="utf-8"))


class UntrackedRows(RowCase):
    """Each row is a test of its own."""


for one in ROWS:
    setattr(UntrackedRows, f"test_untracked_rows.txt: {one.name}", lambda self, row=one: self.run_row(row))
