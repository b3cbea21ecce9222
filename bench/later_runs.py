#!/usr/bin/env python3
"""Times the first and the later runs of commands after all files of a repository got a new time.

    python3 bench/later_runs.py crates/git_dirty/out/git_dirty FOLDER... [--runs 5]

FOLDER is a repository that bench/folder.py made. Each command runs --runs times in a row, with git's usual settings, so
that git may store the new times. Each row has the time on the clock of the first run, and the least and the greatest of
the later ones, in milliseconds.
"""

import os

from folder import clean, touch
from turns import arguments_of, run


def commands_of(program, top):
    """Returns the commands by their names."""
    git = ["git", "-C", top]
    return {
        "git diff --quiet --ignore-submodules=dirty": [*git, "diff", "--quiet", "--ignore-submodules=dirty"],
        "git status --porcelain -uno --no-renames": [*git, "status", "--porcelain", "-uno", "--no-renames"],
        "git dirty --refresh": [program, "-C", top, "--refresh"],
        "git dirty": [program, "-C", top],
    }


def main():
    arguments = arguments_of(__doc__, "git_dirty", 5).parse_args()
    print("| folder | command | first run | later runs |\n|---|---|---|---|")
    for top in arguments.folders:
        for hours, (name, command) in enumerate(commands_of(arguments.program, top).items(), 1):
            clean(top)
            touch(top, hours)
            clocks = [run(command, (0,), environment=os.environ).clock for _ in range(arguments.runs + 1)]
            later = f"{min(clocks[1:]):.1f} to {max(clocks[1:]):.1f}"
            print(f"| {os.path.basename(top)} | `{name}` | {clocks[0]:.1f} | {later} |", flush=True)


if __name__ == "__main__":
    main()
