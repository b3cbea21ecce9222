"""`git dirty --staged` compared with git, over drawn repositories:

    python3 tools/run_tests.py git_dirty.test_staged
"""

import os
import unittest.mock

from git_dirty.case import Dirty
from stress.draw_repositories import Drawing, entries_of
from support.programs import room_of_memory
from support.repositories import COLUMNS, CONFLICTS, read, write

# How many repositories are drawn.
DRAWN = 60
COMMANDS = [["repack", "-adfq"], ["gc", "-q"], ["pack-refs", "--all"], ["update-ref", "--no-deref", "HEAD", "HEAD"]]
# Commands for a clone that shares the objects, and for a linked worktree. These have no index file.
OTHERS = [["clone", "-qns", "."], ["worktree", "add", "-q", "--detach", "--no-checkout"]]


@unittest.mock.patch.dict(os.environ, GIT_AUTHOR_DATE="1600000000 +0000", GIT_COMMITTER_DATE="1600000000 +0000")
class Staged(Dirty):
    PLACE = room_of_memory()

    def draw(self, seed):
        """Makes a drawn repository, and up to three commits of other entries than are staged. Returns what draws."""
        drawing = Drawing(seed, os.path.join(self.room, str(seed)))
        self.top, draw, drawing.stage = drawing.top, drawing.random, lambda: drawing.git("add", "-A")
        os.mkdir(self.top)
        drawing.make()
        place, foo, commits = self.path(".git/index"), self.blob(), draw.randrange(4)
        index, rows = read(place), self.git("ls-files", "-sz").decode().split("\0")[:-1]
        for _ in range(commits):
            os.remove(place)
            self.put_entries(*entries_of(draw, rows, foo))
            self.commit()
            for words in (words for words in COMMANDS if draw.random() < 0.2):
                self.git(*words)
        write(place, index)
        if commits and draw.random() < 0.3:
            self.top += " other"
            drawing.git(*draw.choice(OTHERS), self.top)
            self.put_entries(*entries_of(draw, rows if draw.random() < 0.7 else [], foo))
        return draw

    def assert_as_gits(self, *paths):
        """Asserts that the program prints git's lines without -z and with it, in each column too, and none with -q. Returns those
        of both columns with -z."""
        for columns in (*COLUMNS[1:], []):
            for words in (["--", *paths], ["-z", "--", *paths]):
                lines, ran = (run(*columns, *words, GIT_LITERAL_PATHSPECS="1") for run in (self.git_lines, self.ran))
                if columns == ["--worktree"] and ran.returncode == 2 and paths:
                    # It may be a path of HEAD alone.
                    self.assertRegex(ran.stderr, b"^git dirty: no tracked file matches")
                    self.assertEqual(self.git("--literal-pathspecs", "ls-files", "--", *paths), b"")
                else:
                    self.assert_ends(ran, lines)
        quiet = self.ran("-q", *words, GIT_LITERAL_PATHSPECS="1")
        self.assertEqual((quiet.returncode, quiet.stdout, quiet.stderr), (ran.returncode, b"", b""))
        return lines.split(b"\0")[:-1]

    def test_drawn_repositories_are_compared_as_by_git(self):
        letters = set()
        for seed in range(DRAWN):
            with self.subTest(seed):
                draw, lines = self.draw(seed), self.assert_as_gits()
                letters |= {line[:1] + b" " if line[:2] not in CONFLICTS else line[:2] for line in lines}
                paths = self.git("ls-files", "-z").split(b"\0")[:-1] + [line[3:] for line in lines]
                self.assert_as_gits(draw.choice([".", *map(os.fsdecode, paths)]))
        self.assertEqual(letters, {b"A ", b"M ", b"T ", b"D ", b"  ", *CONFLICTS})
