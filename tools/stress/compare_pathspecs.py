#!/usr/bin/env python3
"""Compares the lines of git_dirty with those of git's status, over drawn repositories and drawn pathspecs.

    python3 tools/stress/compare_pathspecs.py --seeds 1000 [--first 0] [--keep FOLDER]

draw_pathspecs.py draws the repository of each seed, and four lists of PATHS with their working folders and environments. For
each list the program is run with each of these: both columns, --worktree, --staged, -u, -uall, and -u and -uall with --ignored;
and some of these runs have -z, -q or more threads. What is compared and printed is as in compare_dirty.py.

A path without a pattern that selects nothing is a failure of the program. It has to name such a path, and the others are then
run without it. If one of PATHS excludes, --ignored isn't compared over a repository with an ignored nested one.
"""

import os
import re
import sys
from functools import partial

sys.path.insert(0, os.path.dirname(os.path.dirname(os.path.abspath(__file__))))

from stress.compare_dirty import PART, compared
from stress.compare_untracked import IGNORED, MODES, UntrackedComparer
from stress.draw_pathspecs import PathspecDrawing, is_plain, parts_of
from stress.seeds import main
from support.programs import GIT_DIRTY
from support.repositories import COLUMNS, status_words

# What has to come in the runs, besides what is drawn.
EACH = {"with an ignored repository", "a path that selects nothing", "lines of patterns", "no line of patterns"}


def refused(words):
    """Returns the pattern of a failure that names one of these words."""
    return rb"(?s)\Agit dirty: .*(" + b"|".join(re.escape(os.fsencode(word)) for word in words) + rb").*\n\Z"


class PathspecComparer(UntrackedComparer):
    """Runs git and the program over one drawn repository, for each of its lists of PATHS."""

    settings = {}
    has_ignored_repository = False

    def command(self, folder, *words):
        command = status_words(folder, *words)
        return [word for word in command if word != "--literal-pathspecs"]

    def runs(self):
        forms = [*self.all_forms()]
        for asked in self.drawing.asked:
            self.settings = asked.settings
            # Git has a rule of its own then, which the manual page names.
            is_doubtful = self.has_ignored_repository and any("exclude" in parts_of(word, asked.settings)[0] for word in asked.words)
            for columns, ours, gits in forms:
                if not (is_doubtful and IGNORED in gits):
                    yield from self.runs_of_list(asked, columns, ours, gits)

    def all_forms(self):
        """Yields the columns, other words of the program, and words of git, of each run of a list."""
        yield from ((columns, [], []) for columns in COLUMNS)
        # With -uall a line that ends with a slash is that of a nested repository.
        printed = self.lines(self.top, "-uall", IGNORED, "-z")[0]
        self.has_ignored_repository = any(line[:2] == b"!!" and line.endswith(b"/") for line in printed.split(b"\0"))
        if self.has_ignored_repository:
            self.drawing.kinds.add("with an ignored repository")
        for gits, forms in MODES.items():
            yield [], self.drawing.random.choice(forms), [gits]
            yield [], [*self.drawing.random.choice(forms), "--ignored"], [gits, IGNORED]

    def runs_of_list(self, asked, columns, ours, gits):
        """Yields the arguments of runs of a list, and what git prints for each."""
        place, drawing = os.path.join(self.top, asked.folder), self.drawing
        options = drawing.random.choice([[], [], [], [], ["-z"], ["-q"], ["--threads", "4"]])
        lost = [word for word in asked.words if self.is_lost(word, asked, columns)]
        if lost:
            drawing.kinds.add("a path that selects nothing")
            yield [*columns, *ours, *options, "-C", place, "--", *asked.words], (None, refused(lost))
        kept = [word for word in asked.words if word not in lost]
        if kept:
            lines = self.lines(place, *gits, *(word for word in options if word == "-z"), "--", *kept)
            if not all(is_plain(word, asked.settings) for word in kept):
                drawing.kinds.add("lines of patterns" if lines[0] else "no line of patterns")
            yield [*columns, *ours, *options, "-C", place, "--", *kept], lines

    def is_lost(self, word, asked, columns):
        """Returns whether a word is a path without a pattern, and selects nothing."""
        magic, rest = parts_of(word, asked.settings)
        folder = self.top if "top" in magic else os.path.join(self.top, asked.folder)
        return is_plain(word, asked.settings) and not self.selects(folder, rest or ".", columns)


run = partial(compared, kind=PathspecDrawing, comparer=PathspecComparer)

if __name__ == "__main__":
    main(run, 1000, PART, GIT_DIRTY)
