#!/usr/bin/env python3
"""Compares the lines of git_dirty with those of git's status, over drawn repositories.

    python3 tools/stress/compare_dirty.py --seeds 1000 [--first 0] [--keep FOLDER]

draw_repositories.py draws the repository of each seed. The program is run over its top with one thread, and for parts of
the seeds with four threads, with -z, with -q, from a folder of the worktree, and with paths: each time for both columns, and
for each alone. Each run has to print the lines of `git status --porcelain -uno --no-renames --ignore-submodules=dirty`, as
`as_dirty` changes them, and nothing else but notes if git prints warnings. The program's own exit status has to be 1 if there
is a line, and otherwise 0. If a path selects nothing, it has to fail instead.

The environment's GIT_DIRTY names the built program; without it that of this checkout is run. Each difference is printed
with its seed, and the exit status is 1 if there is one, and 2 if the seeds can't be run. With --keep the repositories that
differ stay there.
"""

import collections
import os
import re
import shutil
import sys
import tempfile

sys.path.insert(0, os.path.dirname(os.path.dirname(os.path.abspath(__file__))))

from stress.draw_repositories import Drawing, drawn
from stress.seeds import main
from support.programs import GIT_DIRTY, Runner, room_of_memory
from support.repositories import COLUMNS, as_dirty, status_of, status_words

# How many repositories are made before their worktrees are edited.
PART = 25
# What the program may print to standard error if git prints warnings there, and otherwise.
NOTES, NOTHING = rb"\A(git dirty: note: [^\n]*\n)*\Z", rb"\A\Z"
# Its failure for a path that selects nothing.
REFUSED = rb"(?s)\Agit dirty: no tracked file matches '.*'\n\Z"


class Comparer:
    """Runs git and the program over one drawn repository."""

    # What git may print to standard error after the edits, and words with which git's lines are counted.
    WARNINGS, COUNTED = rb"", ()
    # What is added to the environment of both.
    settings = {"GIT_LITERAL_PATHSPECS": "1"}

    def __init__(self, git, program, drawing):
        self.git, self.program, self.drawing, self.top = git, program, drawing, drawing.top

    def lines(self, folder, *words):
        """Returns what git prints, and what the program may print to standard error. git has to succeed."""
        ended = self.git.run(self.command(folder, *words), {**self.drawing.environment, **self.settings})
        if ended.status != 0 or self.drawing.IS_EDITED and not re.fullmatch(self.WARNINGS, ended.fault):
            raise RuntimeError(f"git {words} in {folder}: {ended.text()}")
        return ended.out, NOTES if ended.fault else NOTHING

    def command(self, folder, *words):
        """Returns the arguments of git's status."""
        return status_words(folder, *words)

    def runs(self):
        """Yields the arguments of runs, and what git prints for each."""
        top, drawing, chance = self.top, self.drawing, self.drawing.chance
        lines = self.lines(top)
        if not drawing.IS_EDITED:
            yield [*COLUMNS[drawing.seed % 2], "-C", top, "--threads", "1"], lines
            return
        folder = drawing.some_folder()
        inside = os.path.join(top, folder)
        whole = [(1, ["-C", top, "--threads", "1"], lines), (0.4, ["-C", top, "--threads", "4"], lines)]
        whole += [(0.3, ["-C", top, "-z"], self.lines(top, "-z")), (0.3, ["-q", "-C", top], lines)]
        whole += [(0.3, ["-C", inside], self.lines(inside))]
        for _, words, its in [run for run in whole if chance(run[0])]:
            yield from (([*columns, *words], its) for columns in COLUMNS)
        if chance(0.5):
            options = ["-z"] if chance(0.3) else []
            yield from self.runs_of_paths(folder, COLUMNS, options, options)

    def runs_of_paths(self, folder, each, ours, gits):
        """Yields the arguments of runs with paths, and what git prints for each. Both have words of their own."""
        inside, paths = os.path.join(self.top, folder), self.drawing.some_paths(folder)
        for columns in each:
            found = [path for path in paths if self.selects(inside, path, columns)]
            if found != paths:
                yield [*columns, "-C", inside, *ours, "--", *paths], (None, REFUSED)
            if found:
                yield [*columns, "-C", inside, *ours, "--", *found], self.lines(inside, *gits, "--", *found)

    def selects(self, folder, path, columns):
        """Returns whether a path selects something: an entry of the index or a file of HEAD is at it or below it, or a node is
        there. The column of the index counts no node, and that of the worktree no HEAD."""
        is_headed = self.drawing.is_committed and columns != ["--worktree"]
        words = ["--literal-pathspecs", "-C", folder, "ls-files", *["--with-tree=HEAD"] * is_headed, "-z", "--", path]
        place = os.path.normpath(os.path.join(folder, path))
        is_folder = os.path.basename(path) in ("", ".", "..")
        is_there = os.path.isdir(place) and not os.path.islink(place) if is_folder else os.path.lexists(place)
        is_there &= columns != ["--staged"] or place == os.path.normpath(self.top)
        return is_there or self.git.run(words, self.drawing.environment).out != b""

    def differences(self):
        """Yields how each run that differs does."""
        for words, (lines, notes) in self.runs():
            ended = self.program.run(words, {**self.drawing.environment, **self.settings})
            if self.drawing.refusal and "--worktree" not in words:
                lines, notes = None, self.drawing.refusal
            lines = None if lines is None else as_dirty(lines, *words)
            printed = b"" if lines is None or "-q" in words else lines
            status = 2 if lines is None else status_of(lines)
            notes = NOTHING if "--staged" in words and notes is NOTES else notes
            if (ended.status, ended.out) != (status, printed) or not re.search(notes, ended.fault):
                drawn_by = "; ".join(self.drawing.notes)
                yield f"seed {self.drawing.seed}, {words}: {ended.text()}\n  git: {printed!r}\n  drawn: {drawn_by}"


def compared(seeds, keep=None, kind=Drawing, program=GIT_DIRTY, comparer=Comparer):
    """Compares the repositories of some seeds. Returns the differences, and how many lines of each kind git has."""
    found, columns = [], collections.Counter()
    room_at = tempfile.TemporaryDirectory(dir=keep or room_of_memory())
    with room_at as room, Runner(shutil.which("git") or "git", 20) as git, Runner(program, 20) as ours:
        for drawing in drawn(kind, seeds, room):
            one = comparer(git, ours, drawing)
            columns.update(line[:2].decode() for line in one.lines(drawing.top, *one.COUNTED)[0].split(b"\n")[:-1])
            columns["files"] += len(drawing.paths)
            differences = [*one.differences()]
            # Some kinds are known after the runs.
            columns.update(drawing.kinds)
            found += differences
            if differences and keep:
                # A file that is moved to another device would be another.
                os.rename(drawing.room, os.path.join(keep, str(drawing.seed)))
    return found, columns


if __name__ == "__main__":
    main(compared, 1000, PART, GIT_DIRTY)
