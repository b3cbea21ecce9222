#!/usr/bin/env python3
"""Runs status_program with one allocation refused: the first, then in another run the second, and so on.

    python3 tools/stress/refuse_memory.py [--limits 1 2] [--repeat 3] [--rows modified history]

support/refuse_malloc.c is compiled and preloaded into the built program. It counts the calls for memory and for threads,
and refuses the Nth. In a second sweep it refuses the Nth and all after it. A sweep ends with the first N that no run
reaches. The profiles are those of support/small_profiles.py, each with each limit of threads. How a run may end:

- If nothing was refused, as the profile's row says. It may end so in any case.
- Otherwise with exit status 1 and `out of memory` as the one line of standard error. If a thread was refused, or memory
  to start one, it may also be `status failed: no thread`, or `refused N: run failed` for a run of a replay. For a start
  the program takes memory right before it asks for the thread, and the C library takes some too. If more than one call
  was refused, there may be no line, since writing one takes memory.
- Standard output has a beginning of the lines of the row. A status with untracked files, renames or sorted lines has
  printed nothing if the status failed. It has printed some lines if its recorder or a later line was refused memory:
  then N is among the last calls. A replay's refused run leaves all lines of the runs before it.
- A refresh that failed leaves the file that it writes to unchanged, and no lock. Otherwise it leaves the same file as if
  nothing is refused.

All other ends are wrong, and printed: another line or output, a signal, a hang. The exit status is 0 if no run ended
wrongly, 1 if one did, and 2 if they can't be run. The environment's STATUS_PROGRAM names the built program; without it that
of this checkout is run. It needs Linux with glibc, and a C compiler.
"""

import argparse
import contextlib
import json
import os
import re
import sys
import tempfile
from dataclasses import dataclass

sys.path.insert(0, os.path.dirname(os.path.dirname(os.path.abspath(__file__))))

from stress.seeds import end
from support.programs import STATUS_PROGRAM, Starved
from support.small_profiles import ROWS, put_out, taken_out, wrong_files

MEMORY, THREAD, RUN = "out of memory\n", "status failed: no thread\n", r"refused (\d+): run failed\n"
# A line takes fewer calls than this.
LINE_CALLS = 6


@dataclass(frozen=True)
class Refused:
    """The refused calls of a run: a letter for each, as in support/refuse_malloc.c."""

    letters: str
    # The first refused call, counted from 1, and the letters of all calls of a run in which none is refused.
    at: int
    calls: str

    @property
    def has_thread(self):
        """Returns whether a thread was refused, or memory to start one. If more than one is started, the calls after the first
        start come in any order."""
        starts = [at for at, letter in enumerate(self.calls) if letter == "t"]
        late = len(starts) > 1 and self.at >= starts[0]
        return bool(set(self.letters) & set("tc")) or self.at in starts or late


def runs_before(row, place):
    """Returns the lines of the runs before an event of a replay, or None if the event isn't a run."""
    events = row.profile["events"]
    if place >= len(events) or events[place][0] != "run":
        return None
    runs = sum(event[0] == "run" for event in events[:place])
    return row.out[: row.out.find(f"run {runs + 1}\n")]


def wrong_fault(row, refused, out, fault):
    """Returns what is wrong with the line on standard error, or None."""
    if fault == MEMORY or (fault == "" and len(refused.letters) > 1):
        return None
    if refused.has_thread and row.command != "replay" and fault == THREAD:
        return None
    run = re.fullmatch(RUN, fault)
    if refused.has_thread and row.command == "replay" and run:
        return None if out == runs_before(row, int(run[1])) else "other runs than those before the refused one"
    return "another line on standard error"


def wrong(row, refused, ended):
    """Returns what is wrong with how a run ended, or None."""
    try:
        out, fault = ended.out.decode(), ended.fault.decode()
    except UnicodeDecodeError:
        return "text that isn't UTF-8"
    if (ended.status, out, fault) == (row.status, row.out, row.fault):
        return None
    if not refused.letters:
        return "another answer, and nothing was refused"
    if ended.status != 1:
        return ended.end()
    if not row.out.startswith(out) or out[-1:] not in ("", "\n"):
        return "output that is no beginning of the lines"
    # While a recorder takes entries, no line is printed yet.
    if row.is_joined and out and refused.at <= len(refused.calls) - LINE_CALLS * row.out.count("\n"):
        return "lines of a joined status that failed"
    return wrong_fault(row, refused, out, fault)


class Sweeper:
    """Runs the program on one row's profile, with calls refused."""

    def __init__(self, starved, row, file):
        self.starved, self.row, self.file = starved, row, file
        # The letters of the calls of a run in which none is refused, and the file that a refresh leaves then.
        _, self.calls = self.run(0, False)
        self.new = taken_out(self.file).get(".out")

    def run(self, at, on):
        """Runs with this call refused, and with `on` all after it. Returns how that ends, and what was refused."""
        put_out(self.file, self.row.old)
        return self.starved.run(self.row.words(self.file), at, on)

    def judged(self, at, on):
        """Runs once. Returns what was refused, and what is wrong with the end, or None."""
        ended, letters = self.run(at, on)
        said = wrong(self.row, Refused(letters, at, self.calls), ended)
        if self.row.command == "refresh":
            files = wrong_files(self.file, ended.status, self.row.old, self.new)
            said = said or files
        return letters, f"call {at}: {said}: {ended.text()}" if said else None

    def sweep(self, on, repeat):
        """Returns how many calls came, and the wrong runs."""
        found, at = [], 0
        while True:
            at += 1
            ends = [self.judged(at, on) for _ in range(repeat)]
            found += [said for _, said in ends if said]
            if not any(letters for letters, _ in ends):
                return at - 1, found if at > 1 else [*found, "no call is counted"]


@contextlib.contextmanager
def sweeper(name, limit, program=STATUS_PROGRAM, seconds=10):
    """Yields the sweeper of one row with one limit, whose runs may take so many seconds."""
    row = ROWS[name]
    with tempfile.TemporaryDirectory() as room, Starved(program, room, seconds) as starved:
        profile = row.with_limit(limit)
        if row.files:
            profile |= {"folder": os.path.join(room, profile["folder"])}
            row.make_files(profile["folder"])
        file = os.path.join(room, "profile.json")
        with open(file, "w", encoding="utf-8") as out:
            json.dump(profile, out)
        yield Sweeper(starved, row, file)


def main():
    parser = argparse.ArgumentParser()
    parser.add_argument("--rows", nargs="+", choices=ROWS, default=list(ROWS), help="the profiles (all)")
    parser.add_argument("--limits", nargs="+", type=int, default=[1, 2], help="the limits of threads (1 2)")
    parser.add_argument("--repeat", type=int, default=3, help="how many runs for each N (3)")
    options = parser.parse_args()
    if STATUS_PROGRAM is None:
        parser.error("there is no program: build it, or name it by STATUS_PROGRAM")
    if options.repeat < 1:
        parser.error("--repeat is below 1")
    end(sweep_all, options)


def sweep_all(options):
    """Sweeps the rows that the options name, and prints how that ends. Returns the exit status."""
    all_runs = all_wrong = 0
    for name, limit, on in ((name, limit, on) for name in options.rows for limit in options.limits for on in (False, True)):
        with sweeper(name, limit) as it:
            calls, found = it.sweep(on, options.repeat)
        which, runs = "each from one on" if on else "one", (calls + 1) * options.repeat
        print(f"{name}, limit {limit}, {which}: {calls} calls, {runs} runs, {len(found)} wrong", *found, sep="\n  ", flush=True)
        all_runs, all_wrong = all_runs + runs, all_wrong + len(found)
    print(f"{all_runs} runs, {all_wrong} ended wrongly")
    return int(all_wrong > 0)


if __name__ == "__main__":
    main()
