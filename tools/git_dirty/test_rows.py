"""Runs the rows of rows.txt, and shows that wrong ones are reported:

    python3 tools/run_tests.py git_dirty.test_rows
"""

import os
import re
import unittest

from git_dirty.case import Dirty
from git_dirty.rows import FILE, RowCase, rows_of
from support.programs import GIT_DIRTY, TOP
from support.repositories import write

ROWS = rows_of(FILE.read_text(encoding="utf-8"))


class Rows(RowCase):
    """Each row is a test of its own."""


for one in ROWS:
    setattr(Rows, f"test_rows.txt: {one.name}", lambda self, row=one: self.run_row(row))


class Reported(Dirty):
    """Rows that are wrong, and programs that end otherwise than a row states, are reported."""

    STEPS = "== row\n$ printf bars >a; rm d/b; printf foo >'é'; git add -- 'é'; rm 'é'\n"
    RIGHT = ['M a, D d/b "\\303\\251"', '.M a, .D d/b, AD "\\303\\251"', "as git", "git as git; ours as git"]
    RIGHT += ['M a, D d/b "\\303\\251"; staged A. "\\303\\251"']
    WRONG = ["", "M a, D d/b", 'M a, T d/b, D "\\303\\251"', 'D d/b "\\303\\251", M a', 'M a, D d/b "\\303\\252"', "fails: .", "hangs"]
    WRONG += ["crashes", 'git M a; ours M a, D d/b "\\303\\251"', 'git M a, D d/b "\\303\\251"; ours M a', "git as git; ours fails: ."]
    WRONG += ['M a, D d/b "\\303\\251"; note: .', 'M a, D d/b "\\303\\251"; says: .', "git fails; ours as git", "same"]
    WRONG += ['MM a, .D d/b, AD "\\303\\251"', '.M a, .D d/b, MD "\\303\\251"', 'M a, D d/b "\\303\\251"; staged']
    WRONG += ['M a, D d/b "\\303\\251"; staged fails', 'M a, D d/b "\\303\\251"; staged A. a "\\303\\251"']
    # What a program of the shell's does before or after the right one's run, whose output is in the file `out`.
    SPOILERS = ["cat out; echo x >&2; exit $status", "cat out; exit 0", "cat out out; exit $status", "sed 1d out; exit $status"]
    SPOILERS += ["echo 'git dirty: x' >&2; exit 2", "cat out; kill -9 $$", "case $* in *-q*) echo x;; *) cat out;; esac; exit $status"]
    SPOILERS += [f"case $* in *{word}*) exit 0;; esac; cat out; exit $status" for word in ("-C", "-z", "--worktree", "--staged")]
    SPOILERS += ["case $* in *--*) cat out; exit $status;; esac; sed s/AD/A\\ / out; exit $status"]
    # Failures: a result, and rows that state another one.
    FAILS = "git fails: bad config line 1; ours fails: bad config line 1"
    NO_FAILS = ["", "fails: bad config line 2", "git fails: line 1; ours fails: line 2", "git fails: line 2; ours fails: line 1"]
    NO_FAILS += ["git fails; ours", "git; ours fails: line 1", "M a; fails: line 1"]

    def is_right(self, text, program=GIT_DIRTY):
        """Returns whether a row of this text passes."""
        [row], result = rows_of(text), unittest.TestResult()
        type("Inner", (RowCase,), {"PROGRAM": program, "runTest": lambda it: it.run_row(row)})().run(result)
        self.assertEqual(result.errors, [])
        return result.wasSuccessful()

    def test_a_wrong_result_is_reported(self):
        for results, right in ((self.RIGHT, True), (self.WRONG, False)):
            for result in results:
                for line in (f"? -> {result}", f"$ : $v\n* x -> {result}"):
                    with self.subTest(line):
                        self.assertEqual(self.is_right(f"{self.STEPS}{line}\n"), right)

    def test_a_wrong_failure_is_reported(self):
        for result in (self.FAILS, *self.NO_FAILS):
            with self.subTest(result):
                self.assertEqual(self.is_right(f"== row\n+ .git/config = [a\\n\n? -> {result}\n"), result == self.FAILS)

    def test_a_step_that_fails_is_reported(self):
        for steps in ("false", "false | true", "ends 1", "ends 0; prints x", "ends 0; says x", "echo $nothing"):
            self.assertFalse(self.is_right(f"== row\n$ {steps}\n? ->\n"), steps)
        self.assertTrue(self.is_right("== row\n$ ends 0; prints ''; [ ! -s \"$room/err\" ]\n? ->\n"))

    def test_a_program_that_ends_otherwise_is_reported(self):
        place = self.put_user_file("program", "")
        os.chmod(place, 0o755)
        for spoiler in ["cat out; exit $status", *self.SPOILERS]:
            with self.subTest(spoiler):
                write(place, f'#!/bin/sh\n"{GIT_DIRTY}" "$@" >"{place}.out"\nstatus=$?\n{spoiler.replace("out", place + ".out")}\n')
                self.assertEqual(self.is_right(f"{self.STEPS}? -> {self.RIGHT[0]}\n", place), spoiler not in self.SPOILERS)

    def test_a_malformed_file_is_an_error(self):
        for text in ("$ true\n", "== a\n% x\n", "== a\n$ true\n", "== a\n? ->\n== a\n? ->\n", "== a\n  more\n", "== a\nfor b: c ¦ c\n? ->\n"):
            with self.subTest(text), self.assertRaises(ValueError):
                rows_of(text)
        names = [row.name for row in rows_of("# text\n== a\nfor b: c ¦ ∅\n\n$ {b}\n  {b}\n? ->\n=! d\n? ->\n")]
        self.assertEqual(names, ["a [c]", "a [∅]", "d"])


class Table(unittest.TestCase):
    def test_each_row_of_the_table_has_a_row(self):
        page = (TOP / "docs" / "GIT_DIRTY.md").read_text(encoding="utf-8")
        table = page[page.index("## Differences from git\n") :].partition("| What | git | git dirty |\n|---|---|---|\n")[2]
        cells = [line.split(" | ")[0].removeprefix("| ") for line in table.partition("\n\n")[0].split("\n")]
        self.assertEqual(sorted(cells), sorted({re.sub(r" \[[^\]]*\]\Z", "", row.name) for row in ROWS if row.is_difference}))
