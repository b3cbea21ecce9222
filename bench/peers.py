#!/usr/bin/env python3
"""Times status_program over a git repository's folder, next to git, libgit2 and a bare loop of lstat, in turns.

    python3 bench/peers.py crates/status_program/out/status_program FOLDER... [--runs 11] [--cells]

FOLDER is a repository that bench/folder.py made. Each is measured clean, and then touched, with another time of
modification of each file, so that each is read. The loop and the driver of libgit2 are in bench/peers and are built with
cc. Without libgit2 (Debian's libgit2-dev) its row is left out. git runs on one thread, writes nothing, and compares what
the program compares.

Each row has the least and the median processor time of the runs, in milliseconds. It also has the least time divided by
the loop's, and divided by that of `git status -uno`. The time of the status alone is the program's time less that of a
run with a prefix that no path has. The loop's time is less that of a loop over no path. So neither has the start of a
process.

With --cells the last lines are the rows of the table by the number of entries in docs/BENCHMARKS.md, if the folders have
the sizes of its columns: the least time in each clean folder, and then in each touched one.
"""

import json
import os
import statistics
import subprocess
import sys
import tempfile

from folder import STATES, tracked
from turns import arguments_of, in_turns

HERE = os.path.dirname(os.path.abspath(__file__))
TOOL = os.path.join(HERE, os.pardir, "tools", "profile_from_git.py")
GIT = ["git", "-c", "core.preloadIndex=false", "-c", "core.trustctime=false", "-c", "core.checkStat=minimal"]
GIT += ["-c", "core.fileMode=false"]
# The names in the page's table of the rows that --cells prints, by their names in a report, in the table's order.
ROWS = {
    "the loop": "the loop",
    "the status alone": "the status alone",
    "the whole program": "the whole program, with its profile",
    "git status": "`git status -uno`",
    "libgit2": "libgit2",
}


def build(folder, name, *words):
    """Returns the path of the program that cc makes of a peer, or None if cc fails."""
    program = os.path.join(folder, name)
    built = subprocess.run(
        ["cc", "-O2", "-o", program, os.path.join(HERE, "peers", name + ".c"), *words], stderr=subprocess.DEVNULL
    )
    return program if built.returncode == 0 else None


def write(folder, name, content):
    """Writes a file into the folder, and returns its path."""
    path = os.path.join(folder, name)
    with open(path, "wb") as out:
        out.write(content)
    return path


def profile_of(folder, top, name, **options):
    """Writes the profile of the repository, with these options besides those of the script. Returns its path."""
    printed = subprocess.run([sys.executable, TOOL, top], stdout=subprocess.PIPE, check=True)
    profile = json.loads(printed.stdout)
    profile["options"] = dict(profile["options"], thread_limit=1, **options)
    return write(folder, name, json.dumps(profile).encode())


def commands(program, top, folder):
    """Returns the commands to run, by name."""
    loop = build(folder, "lstat_loop")
    if loop is None:
        sys.exit("refused: cc doesn't build the loop")
    rows = {
        "no loop": [loop, top, write(folder, "no_paths", b"")],
        "loop": [loop, top, write(folder, "paths", tracked(top))],
        "git status": [*GIT, "-C", top, "status", "-uno", "--porcelain"],
        "git diff-files": [*GIT, "-C", top, "diff-files", "--raw"],
        "no status": [program, "status", profile_of(folder, top, "none", prefix="no path/")],
        "program": [program, "status", profile_of(folder, top, "all")],
    }
    libgit2 = build(folder, "libgit2_status", "-lgit2")
    if libgit2 is not None:
        rows["libgit2"] = [libgit2, top]
    return rows


def lines_of(taken):
    """Returns the least and the median processor time of each row of the report, by name."""
    times = {name: [run.processor for run in runs] for name, runs in taken.items()}
    spans = {name: (min(of_row), statistics.median(of_row)) for name, of_row in times.items()}

    def without(whole, rest):
        return tuple(a - b for a, b in zip(spans[whole], spans[rest]))

    lines = {
        "the loop": without("loop", "no loop"),
        "the status alone": without("program", "no status"),
        "the whole program": spans["program"],
    }
    lines.update({name: spans[name] for name in ("git status", "git diff-files", "libgit2") if name in spans})
    return lines


def report(lines):
    """Prints a line for each row of the report."""
    print(f"{'':19} {'least':>7} {'middle':>7} {'loops':>6} {'gits':>6}")
    for name, (least, middle) in lines.items():
        loops, gits = least / lines["the loop"][0], least / lines["git status"][0]
        print(f"{name:19} {least:7.1f} {middle:7.1f} {loops:6.2f} {gits:6.2f}")


def cell(least):
    """Returns a time with three digits, or with all digits before the point."""
    return f"{least:.{2 if least < 10 else 1 if least < 100 else 0}f}"


def print_cells(measured):
    """Prints the least times of all measurements, in the rows of the page's table."""
    print()
    for name, row in ROWS.items():
        if all(name in lines for lines in measured):
            print("| " + " | ".join([row, *(cell(lines[name][0]) for lines in measured)]) + " |")


def compared(program, top, state, runs):
    """Measures all commands over a folder, which is in this state. Prints and returns the times."""
    with tempfile.TemporaryDirectory() as folder:
        rows = commands(program, top, folder)
        print(f"\n{top}, {state}, {runs} runs, processor time in milliseconds")
        lines = lines_of(in_turns(rows, runs))
    report(lines)
    return lines


def main():
    parser = arguments_of(__doc__, "status_program", 11)
    parser.add_argument("--cells", action="store_true", help="also print the rows of the page's table by size")
    arguments = parser.parse_args()
    measured = {state: [] for state in STATES}
    for top in arguments.folders:
        for state, bring in STATES.items():
            bring(top)
            measured[state].append(compared(arguments.program, top, state, arguments.runs))
    if arguments.cells:
        print_cells(measured["clean"] + measured["touched"])


if __name__ == "__main__":
    main()
