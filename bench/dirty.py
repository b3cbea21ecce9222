#!/usr/bin/env python3
"""Times git dirty next to git status, in turns, over repositories that bench/folder.py made.

    python3 bench/dirty.py crates/git_dirty/out/git_dirty FOLDER... [--runs 31]

Each folder is measured clean, and then touched, with another time of modification of each file, so that each is read. The
first columns have the least processor time (user and system) of the runs with one thread each, in milliseconds, and the
quotient of both. The next ones have the least time on the clock with the usual settings of both. The last ones have the
greatest peak of memory of the runs with one thread, in MB.
"""

import os

from folder import STATES
from turns import arguments_of, in_turns

COLUMNS = ["folder", *(f"{column} | git | quotient" for column in ("one thread, ms", "clock, ms", "MB"))]


def cells(ours, gits):
    """Returns the cells of a row for two figures, and their quotient."""
    return [f"{ours:.1f}", f"{gits:.1f}", f"{ours / gits:.2f}"]


def measured(program, top, runs):
    """Returns the cells of a folder: processor time, time on the clock, and memory."""
    ours = [program, "-C", top]
    gits = ["-C", top, "status", "--porcelain", "-uno", "--no-renames"]
    # git dirty ends with 1 if a file differs.
    alone = {"ours": [*ours, "--threads", "1"], "git": ["git", "-c", "core.preloadIndex=false", *gits]}
    one = in_turns(alone, runs, (0, 1))
    usual = in_turns({"ours": ours, "git": ["git", *gits]}, runs, (0, 1))
    processor = cells(*(min(run.processor for run in runs) for runs in one.values()))
    clock = cells(*(min(run.clock for run in runs) for runs in usual.values()))
    memory = cells(*(max(run.memory for run in runs) for runs in one.values()))
    return processor + clock + memory


def main():
    arguments = arguments_of(__doc__, "git_dirty", 31).parse_args()
    print("|", " | ".join(COLUMNS), "|")
    print("|" + "---|" * 10)
    for state, bring in STATES.items():
        for top in arguments.folders:
            bring(top)
            row = measured(arguments.program, top, arguments.runs)
            print("|", " | ".join([f"{os.path.basename(top)}, {state}", *row]), "|", flush=True)


if __name__ == "__main__":
    main()
