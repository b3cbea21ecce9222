"""Runs the rows of refresh_rows.txt, which has their form:

    python3 tools/run_tests.py git_dirty.test_refresh_rows
"""

import re
import shlex

from git_dirty.refreshing import Careful
from git_dirty.rows import FILE, RowCase, lines_of, rows_of
from support.programs import room_of_memory

KINDS = "as git|shown|misled|left until git refreshes|left by --worktree|left|stored|time new|time kept"
ROWS = rows_of(FILE.with_name("refresh_rows.txt").read_text(encoding="utf-8"))


class RefreshRows(RowCase, Careful):
    """Each row is a test of its own."""

    PLACE = room_of_memory()

    def make(self, name, kind="sha1"):
        super().make(name, kind)
        self.git("config", "--unset", "core.trustctime")

    def do(self, sign, text, value=b""):
        if sign != "&":
            super().do(sign, text, value)
            return
        head, result = re.fullmatch(r"(.*?)(?: ->(?: (.*))?)?", self.filled(text, value)).groups()
        head, _, names = head.partition(" with ")
        settings = dict(word.split("=", 1) for word in shlex.split(names.replace("'", "\\'")))
        kind, lines = re.match(KINDS, head)[0], lines_of(result or "").decode()
        words = head[len(kind) :].strip(", ")
        if kind == "as git":
            self.assert_refreshes_as_git(lines)
        elif kind == "shown":
            self.assert_seen(words, lines, **settings)
        elif kind == "misled":
            self.assert_misled(words, **settings)
        elif kind in ("left", "left by --worktree"):
            self.assert_left(words, lines, columns=kind.split()[2:], **settings)
        elif kind.startswith("time"):
            self.assert_time(kind == "time new", *words.split())
        elif kind == "stored":
            names, _, others = words.partition("but ")
            self.assertEqual([self.is_stored(it) for it in names.split() + others.split()],
                             [True] * len(names.split()) + [False] * len(others.split()))
        else:
            self.assert_left_until_refreshed(words, lines, **settings)


for one in ROWS:
    setattr(RefreshRows, f"test_refresh_rows.txt: {one.name}", lambda self, row=one: self.run_row(row))
