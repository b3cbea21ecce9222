#!/usr/bin/env python3
"""Times git dirty next to git status where both list staged changes and untracked files, over repositories that bench/folder.py
made.

    python3 bench/halves.py crates/git_dirty/out/git_dirty FOLDER... [--runs 21]

Each folder is measured in three states: clean; with one of a hundred files changed and staged; and with an untracked file for
each ten tracked ones, in the same folders. Afterwards it is clean again. The columns have the least time on the clock, in
milliseconds, with the usual settings of each command, and the quotient of each pair. Git's untracked cache is off.
"""

import os
import subprocess

from folder import clean, tracked
from turns import arguments_of, in_turns

OFF = ["-c", "core.untrackedCache=false"]
STAGED = ["--porcelain", "-uno", "--no-renames"]
UNTRACKED = ["--porcelain", "--no-renames"]


def paths_of(top, step):
    """Returns the path of each so many-th tracked file."""
    return [os.path.join(top, path.decode()) for path in tracked(top).split(b"\0")[:-1:step]]


def stage(top):
    """Changes and stages one of a hundred files."""
    for path in paths_of(top, 100):
        with open(path, "a", encoding="ascii") as file:
            file.write("changed\n")
    subprocess.run(["git", "-C", top, "add", "-u"], check=True)


def unstage(top):
    """Brings back the committed files."""
    subprocess.run(["git", "-C", top, "reset", "-q", "--hard"], check=True)
    clean(top)


def put_untracked(top):
    """Puts an untracked file next to each tenth tracked one."""
    for path in paths_of(top, 10):
        with open(f"{path}.new", "w", encoding="ascii"):
            pass


def remove_untracked(top):
    """Removes these files."""
    for path in paths_of(top, 10):
        os.remove(f"{path}.new")


# The states by their names: how a repository is brought into one and back, the words of the program, and those of git's status.
STATES = {
    "clean, tracked files": (clean, clean, [], STAGED),
    "clean, with `-q`": (clean, clean, ["-q"], STAGED),
    "1 % staged": (stage, unstage, [], STAGED),
    "clean, with `-u`": (clean, clean, ["-u"], UNTRACKED),
    "10 % untracked, with `-u`": (put_untracked, remove_untracked, ["-u"], UNTRACKED),
}


def main():
    arguments = arguments_of(__doc__, "git_dirty", 21).parse_args()
    print("| state |", " | ".join(f"{os.path.basename(top)} | git | quotient" for top in arguments.folders), "|")
    print("|" + "---|" * (1 + 3 * len(arguments.folders)))
    for state, (bring, bring_back, ours, gits) in STATES.items():
        cells = []
        for top in arguments.folders:
            bring(top)
            commands = {"ours": [arguments.program, "-C", top, *ours], "git": ["git", *OFF, "-C", top, "status", *gits]}
            taken = in_turns(commands, arguments.runs, (0, 1))
            mine, its = (min(run.clock for run in runs) for runs in taken.values())
            bring_back(top)
            cells.append(f"{mine:.1f} | {its:.1f} | {mine / its:.2f}")
        print(f"| {state} |", " | ".join(cells), "|", flush=True)


if __name__ == "__main__":
    main()
