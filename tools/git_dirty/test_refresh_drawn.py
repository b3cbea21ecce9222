"""Drawn repositories are refreshed as by git:

    python3 tools/run_tests.py git_dirty.test_refresh_drawn
"""

import os
import re
import shutil
import subprocess
import tempfile

from git_dirty.refreshing import Refresh
from stress.compare_dirty import NOTES
from stress.draw_attributes import AttributeDrawing
from stress.draw_repositories import Drawing, drawn
from support.programs import room_of_memory
from support.repositories import COLUMNS, SETTINGS, STATUS_OF_HEADS, as_dirty

# How many repositories are drawn of each kind.
DRAWN = 100


class Drawn(Refresh):
    """Drawn repositories with edits, flags, conflicts, submodules and settings, and others with attributes."""

    # Git needs more objects than there are to compare with HEAD, and to compare what is in a submodule.
    SHOWN = [["--literal-pathspecs", *STATUS_OF_HEADS[2:], "-z"], ["ls-files", "--stage", "-v", "-z"]]

    def test_drawn_repositories_are_refreshed_as_by_git(self):
        self.assertGreater(self.refresh_all(Drawing), DRAWN // 3)

    def test_drawn_line_ends_are_refreshed_as_by_git(self):
        self.assertEqual(self.refresh_all(AttributeDrawing), DRAWN)

    def refresh_all(self, kind):
        """Refreshes drawn repositories of a kind. Returns of how many the index is written."""
        written = 0
        for first in range(0, DRAWN, 25):
            with tempfile.TemporaryDirectory(dir=room_of_memory()) as room:
                drawings = drawn(kind, range(first, first + 25), room)
                self.wait()
                for drawing in drawings:
                    with self.subTest(drawing.seed, notes=drawing.notes):
                        written += self.assert_refreshed(drawing, **drawing.environment)
        return written

    def assert_refreshed(self, drawing, **settings):
        """Asserts that a refresh leaves of the index what git leaves. Returns whether it writes the index."""
        self.top, self.kind, columns = drawing.top, drawing.kind, COLUMNS[drawing.seed % 2]
        old, nanos, entries = self.read(), self.nanos(), self.each_entry()
        shown, freed = self.shown(**settings), self.freed(**settings)
        self.run_in(["git", "update-index", "-q", "--refresh"], **settings)
        gits = self.each_entry()
        self.put(old, nanos=nanos)
        ran, lines = self.refresh("-z", *columns, **settings), as_dirty(shown[0], "-z", *columns)
        self.assertEqual((ran.stdout, ran.returncode), (lines, int(lines != b"")))
        self.assertRegex(ran.stderr, NOTES)
        new, ours = self.read(), self.each_entry()
        self.assertEqual((new[:8], len(new)), (old[:8], len(old)))
        self.assertEqual((self.shown(**settings), self.freed(**settings)), (shown, freed))
        self.assertEqual(list(ours), list(gits))
        for place, lines in ours.items():
            if lines != gits[place]:
                self.assert_racy(place, entries[place], gits[place], nanos)
        return new != old

    def each_entry(self):
        """Returns what git records of each entry, by its position and path."""
        names, lines = self.git("ls-files", "-z").split(b"\0")[:-1], self.entries().split("\n")[:-1]
        self.assertEqual(len(lines), 6 * len(names))
        return {(at, name): lines[6 * at : 6 * at + 6] for at, name in enumerate(names)}

    def assert_racy(self, place, old, gits, nanos):
        """Asserts that git left a racy entry, of which it doesn't compare all of the stat, and that all is stored now."""
        self.assertEqual(gits, old)
        self.assertGreaterEqual(int(re.fullmatch(r"  mtime: (\d+):\d+", old[2])[1]), nanos // 10**9)
        self.assertTrue(self.is_stored(place[1].decode(), self.kind))

    def freed(self, **settings):
        """Returns what git shows once no entry is skipped any more."""
        copy = os.path.join(self.room, "freed")
        shutil.copy2(self.place(), copy)
        rows = self.git("ls-files", "-s", "-z").split(b"\0")[:-1]
        names = b"".join(row.partition(b"\t")[2] + b"\0" for row in rows if row.partition(b"\t")[0].endswith(b" 0"))
        environment = {**os.environ, **SETTINGS, **settings, "GIT_INDEX_FILE": copy}
        for flag in ("assume-unchanged", "skip-worktree"):
            words = ["git", "update-index", f"--no-{flag}", "-z", "--stdin"]
            subprocess.run(words, cwd=self.top, env=environment, input=names, check=True, capture_output=True)
        return self.run_in(["git", *self.SHOWN[0]], **settings, GIT_INDEX_FILE=copy).stdout
