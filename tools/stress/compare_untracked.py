#!/usr/bin/env python3
"""Compares the lines of git_dirty with those of git's status, over drawn repositories with untracked and ignored files.

    python3 tools/stress/compare_untracked.py --seeds 1000 [--first 0] [--keep FOLDER]

draw_untracked.py draws the repository of each seed. The program is run over its top with -u and with -uall, each with --ignored
and without, and then in some of these forms with -z, with -q, with --worktree, from a folder of the worktree, and with paths.
What is compared and printed is as in compare_dirty.py.
"""

import os
import sys
from functools import partial

sys.path.insert(0, os.path.dirname(os.path.dirname(os.path.abspath(__file__))))

from stress.compare_dirty import PART, Comparer, compared
from stress.draw_untracked import UntrackedDrawing
from stress.seeds import main
from support.programs import GIT_DIRTY

# The program's words for each of git's modes.
MODES = {"-unormal": [["-u"], ["-unormal"], ["--untracked"], ["--untracked=normal"]], "-uall": [["-uall"], ["--untracked=all"]]}
IGNORED = "--ignored=traditional"


class UntrackedComparer(Comparer):
    """Runs git and the program over one drawn repository with untracked files."""

    WARNINGS = rb"(?s:(warning: unable to access '.*?\.gitignore': Too many levels of symbolic links\n"
    WARNINGS += rb"|warning: could not open directory '.*?': (No such file or|Not a) directory\n)*)"
    COUNTED = ("-uall", IGNORED)

    def forms(self):
        """Yields the program's words for each mode, with and without ignored files, and git's."""
        for mode, forms in MODES.items():
            yield self.drawing.random.choice(forms), [mode]
            # Without -u the mode is the first one.
            yield [*self.drawing.random.choice([*forms, []] if mode == "-unormal" else forms), "--ignored"], [mode, IGNORED]

    def runs(self):
        top, drawing, random = self.top, self.drawing, self.drawing.random
        for ours, gits in self.forms():
            yield [*ours, "-C", top, "--threads", random.choice(["1", "1", "4"])], self.lines(top, *gits)
        forms, folder = [*self.forms()], drawing.some_folder()
        inside = os.path.join(top, folder)
        for place, words, more in ((top, ["-z"], ["-z"]), (top, ["-q"], []), (top, ["--worktree"], []), (inside, [], [])):
            ours, gits = random.choice(forms)
            if drawing.chance(0.5):
                yield [*ours, *words, "-C", place], self.lines(place, *gits, *more)
        for _ in range(2):
            (ours, gits), options = random.choice(forms), ["-z"] if drawing.chance(0.2) else []
            yield from self.runs_of_paths(folder, [[]], [*ours, *options], [*gits, *options])


run = partial(compared, kind=UntrackedDrawing, comparer=UntrackedComparer)

if __name__ == "__main__":
    main(run, 1000, PART, GIT_DIRTY)
