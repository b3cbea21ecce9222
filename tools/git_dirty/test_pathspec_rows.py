"""Runs the rows of pathspec_rows.txt, which has the form of rows.txt:

    python3 tools/run_tests.py git_dirty.test_pathspec_rows
"""

from git_dirty.rows import FILE, RowCase, rows_of

ROWS = rows_of(FILE.with_name("pathspec_rows.txt").read_text(encoding="utf-8"))


class PathspecRows(RowCase):
    """Each row is a test of its own."""


for one in ROWS:
    setattr(PathspecRows, f"test_pathspec_rows.txt: {one.name}", lambda self, row=one: self.run_row(row))
