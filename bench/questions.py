#!/usr/bin/env python3
"""Times the commands that ask whether a tracked file differs from the index, in turns, over repositories that
bench/folder.py made.

    python3 bench/questions.py crates/git_dirty/out/git_dirty FOLDER... [--runs 31]

Each folder is measured clean. A touched one would be clean after the first run of git diff, which stores the new stats even
with GIT_OPTIONAL_LOCKS=0. The columns have the least time on the clock, in milliseconds, with the usual settings of each
command, and its quotient by that of the first one.
"""

import os

from folder import clean
from turns import arguments_of, in_turns


def commands_of(program, top):
    """Returns the commands by their names."""
    git = ["git", "-C", top]
    return {
        "git status --porcelain -uno --no-renames": [*git, "status", "--porcelain", "-uno", "--no-renames"],
        "git diff --quiet --ignore-submodules=dirty": [*git, "diff", "--quiet", "--ignore-submodules=dirty"],
        "git dirty": [program, "-C", top],
        "git dirty -q": [program, "-C", top, "-q"],
        "git dirty -q --threads 1": [program, "-C", top, "-q", "--threads", "1"],
    }


def main():
    arguments = arguments_of(__doc__, "git_dirty", 31).parse_args()
    columns = {}
    for top in arguments.folders:
        clean(top)
        taken = in_turns(commands_of(arguments.program, top), arguments.runs)
        columns[os.path.basename(top)] = {name: min(run.clock for run in runs) for name, runs in taken.items()}
    print("|", " | ".join(["command", *(f"{name} | quotient" for name in columns)]), "|")
    print("|" + "---|" * (1 + 2 * len(columns)))
    for name in commands_of("", ""):
        times = [(times[name], times[name] / next(iter(times.values()))) for times in columns.values()]
        print("|", " | ".join([f"`{name}`", *(f"{time:.1f} | {quotient:.2f}" for time, quotient in times)]), "|")


if __name__ == "__main__":
    main()
