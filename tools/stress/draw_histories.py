#!/usr/bin/env python3
"""Runs drawn histories through the program, and compares the reports of their runs with a plain comparison of bytes.

    python3 tools/stress/draw_histories.py --seeds 200 [--first 0] [--keep FOLDER]

Seed N draws the profile of a replay: options (of four of them all sixteen settings in turn), 10,000 events over 20 paths, and
for half of the seeds a last event that can't happen. Contents have 0 to 3 bytes, and most ticks are 0. `Plain` keeps the
files and the staged contents in two dicts. It has no clock, no stat and no timestamp, and storing the index and opening it
again changes nothing there. Each run has to print exactly the changes between the dicts. It may also print the updates that a
stat needs: `s` after the `c` of a change of content, and `update` if nothing changed. If the last event can't happen, standard
error has to have `refused N: WORDS`, and otherwise nothing. The printed records are counted: histories that have few show
nothing.

The environment's STATUS_PROGRAM names the built program; without it that of this checkout is run. If a history differs,
its seed is printed, and the exit status is 1. It is 2 if the seeds can't be run. With --keep its profile stays there.
"""

import collections
import json
import os
import random
import sys
import tempfile

sys.path.insert(0, os.path.dirname(os.path.dirname(os.path.abspath(__file__))))

from stress.seeds import main
from support.programs import STATUS_PROGRAM, Runner
from support.small_profiles import is_below, text_of

# How many events a history has, and how many histories a process takes at once.
EVENTS, PART = 10_000, 4
# Some paths are above others, or have another order by bytes than by components.
PATHS = ["a", "a-", "a/b", "a/b/c", "a/bc", "a0", "b", "c", "c/a", "d/a", "d/b/a", "d/b/b", "e", "g", "g/a/b/c", "h i"]
PATHS += ["j\"\\\n\x01", "é", "\uffff", "\U00010000"]
BAD_PATHS = ["", ".", "..", "/a", "a/", "a//b", "a/./b", "a/../b"]
CONTENTS = ["", "a", "b", "aa", "ab", "ba", "foo", "bar", "baz", "é", "\uffff"]
NANOS = [0, 0, 0, 1, 1, 100, 400_000_000, 999_999_999]
SECOND, LAST = 10**9, 2**32 - 1
SETTINGS = ["trust_ctime", "check_stat", "use_nsec", "executable_bit"]


class Plain:
    """The files and the staged contents, by path: the kind, the content, and whether it is executable."""

    def __init__(self, executable_bit):
        self.executable_bit, self.files, self.staged = executable_bit, {}, {}

    def refusal(self, event):
        """Returns why the event can't happen, as far as that depends on paths."""
        word, path = (*event, None)[:2]
        if word not in ("write", "link", "chmod", "remove", "stage"):
            return None
        if any(part in ("", ".", "..") for part in path.split("/")):
            return "bad path"
        if word in ("write", "link") and any(is_below(path, it) or is_below(it, path) for it in self.files):
            return "in the way"
        if word == "chmod" and self.files.get(path, ("none",))[0] != "file":
            return "not a file"
        return "not a file" if word == "remove" and path not in self.files else None

    def follow(self, event):
        """Lets an event happen."""
        word, path = (*event, None)[:2]
        if word == "write":
            self.files[path] = ("file", event[2], self.files.get(path, (None, None, False))[2])
        elif word == "link":
            self.files[path] = ("link", event[2], False)
        elif word == "chmod":
            self.files[path] = (*self.files[path][:2], event[2])
        elif word == "remove":
            del self.files[path]
        elif word == "stage":
            self.staged.pop(path, None)
            self.staged |= {path: self.files[path]} if path in self.files else {}

    def changes(self):
        """Returns the change of each staged path, in the order of the index, or None if nothing changed."""
        paths = sorted(self.staged, key=str.encode)
        return [(text_of(path), self.change(self.files.get(path), self.staged[path])) for path in paths]

    def change(self, now, staged):
        if now is None:
            return "removed"
        counts = self.executable_bit and now[2]
        if now[0] != staged[0]:
            return "type " + ("120000" if now[0] == "link" else "100755" if counts else "100644")
        executable = "x" if self.executable_bit and now[2] != staged[2] else "-"
        content = "c" if now[1] != staged[1] else "-"
        return None if executable + content == "--" else f"modified {executable}{content}"


class Drawn:
    """The history of a seed: the program's profile, the plain changes of each run, and the line of the refusal."""

    def __init__(self, seed, events):
        self.draw = random.Random(seed)
        options = {name: bool(seed >> bit & 1) for bit, name in enumerate(SETTINGS)}
        self.clock = [self.draw.randrange(1, 10), self.draw.choice(NANOS)]
        self.plain, self.runs, self.fault = Plain(options["executable_bit"]), [], ""
        options["use_stdev"] = self.draw.random() < 0.5
        kind = self.draw.choice(["sha1", "sha256"])
        self.profile = {"hash": kind, "clock": self.clock, "timestamp": self.stamp(), "options": options, "events": []}
        for _ in range(events):
            event = self.event()
            while self.plain.refusal(event):
                event = self.event()
            self.happen(event)
        # Each setting has it in one of two sixteens of seeds.
        if (seed // 16 + seed) % 2 == 0:
            event, words = self.refused()
            self.fault = f"refused {len(self.profile['events'])}: {words}\n"
            self.profile["events"].append(event)

    def happen(self, event):
        self.profile["events"].append(event)
        self.plain.follow(event)
        if event[0] == "run":
            self.runs.append(self.plain.changes())
        elif event[0] in ("tick", "nanos"):
            nanos = self.clock[1] + (event[1] if event[0] == "nanos" else 0)
            self.clock = [self.clock[0] + (event[1] if event[0] == "tick" else nanos // SECOND), nanos % SECOND]

    def stamp(self):
        """Returns a time that isn't after the clock. Mostly it is the clock's."""
        seconds, nanos = self.clock
        return self.draw.choice([[seconds - 1, SECOND - 1], [seconds, 0], [seconds, nanos // 2]] + 5 * [[seconds, nanos]])

    def run(self, stamp):
        chunk, limit = self.draw.choice([0, 1, 1, 2, 3, 7]), self.draw.choice([None, 0, 1, 2, 3, 8])
        return ["run", self.draw.choice(["hash", "fast"]), chunk, limit, stamp]

    def event(self):
        """Returns an event that the clock allows. Most ticks are 0, so that writes, stagings and runs share a second."""
        choose, path = self.draw.choice, self.draw.choice(PATHS)
        words = ["write"] * 4 + ["link", "chmod", "chmod", "remove"] + ["stage"] * 5 + ["tick", "nanos", "run", "reopen"]
        word = choose(words)
        if word in ("write", "link"):
            return [word, path, choose(CONTENTS)]
        if word == "chmod":
            return [word, path, choose([True, False])]
        if word in ("remove", "stage"):
            return [word, path]
        if word == "run":
            return self.run(self.stamp())
        if word == "reopen":
            return [word]
        return [word, choose([0, 0, 0, 0, 0, 1]) if word == "tick" else choose(NANOS)]

    def refused(self):
        """Returns an event that can't happen, and why."""
        draw, (seconds, nanos) = self.draw, self.clock
        later = draw.choice([[seconds + 1, 0], [LAST, 0]] + [[seconds, nanos + 1]] * (nanos + 1 < SECOND))
        no_moment = [draw.choice([seconds, LAST]), draw.choice([SECOND, LAST])]
        wrong = {"clock end": [["tick", LAST - seconds + 1]]}
        wrong |= {"stamp later": [self.run(later)], "bad moment": [self.run(no_moment)]}
        bad = draw.choice(BAD_PATHS)
        drawn = [["write", bad, "a"], ["link", bad, "a"], ["chmod", bad, True], ["remove", bad], ["stage", bad]]
        for event in drawn + [self.event() for _ in range(500)]:
            wrong.setdefault(self.plain.refusal(event), []).append(event)
        words = draw.choice(sorted(filter(None, wrong)))
        return draw.choice(wrong[words]), words


def told_runs(output):
    """Returns the lines of each run: index position, status and the path's text."""
    runs, lines = [], output.split("\n")
    if lines.pop() != "":
        raise ValueError("a line has no end")
    for line in lines:
        if line == f"run {len(runs) + 1}":
            runs.append([])
            continue
        place, rest = line.split(" ", 1)
        at = rest.index(' "')
        runs[-1].append((int(place), rest[:at], rest[at + 1 :]))
    return runs


def difference(drawn, ended):
    """Returns how a run of the program differs from a history, or None if it doesn't."""
    if (ended.status, ended.fault.decode(errors="replace")) != (int(drawn.fault != ""), drawn.fault):
        return f"{ended.end()} and {ended.fault!r}, and not {drawn.fault!r}"
    try:
        runs = told_runs(ended.out.decode())
    except (IndexError, ValueError) as error:
        return f"a line has another form: {error}"
    if len(runs) != len(drawn.runs):
        return f"{len(runs)} runs, and not {len(drawn.runs)}"
    for number, (told, changes) in enumerate(zip(runs, drawn.runs), 1):
        wanted = [(place, change, path) for place, (path, change) in enumerate(changes) if change]
        seen = [(place, plain_words(words), path) for place, words, path in told if words != "update"]
        if seen != wanted:
            return f"run {number}: {sorted(set(seen) ^ set(wanted)) or 'the order differs'}"
        updates = [(place, path) for place, words, path in told if words == "update"]
        clean = [(place, path) for place, (path, change) in enumerate(changes) if not change]
        places = [place for place, _, _ in told]
        if not set(updates) <= set(clean) or places != sorted(set(places)):
            return f"run {number}: an update of what isn't staged or changed, or lines out of order"
    return None


def counted(output):
    """Returns how many lines of the runs have a change, a change with a size that is set to zero, and an update."""
    words = [words for run in told_runs(output) for _, words, _ in run]
    updates = words.count("update")
    zeroed = sum(it.startswith("modified ") and it.endswith("s") for it in words)
    return {"changes": len(words) - updates, "zeroed": zeroed, "updates": updates}


def plain_words(words):
    """Returns the words without the `s` of a stat that gets the size 0, which only comes after a change of content."""
    if words.startswith("modified ") and (words.endswith("-") or words.endswith("cs")):
        return words[:-1]
    return words


def run(seeds, keep=None, program=STATUS_PROGRAM, events=EVENTS):
    """Runs the histories of some seeds. Returns how they differ, and the counts of `counted` of those that don't."""
    found, counts = [], collections.Counter()
    with tempfile.TemporaryDirectory() as room, Runner(program, 100) as runner:
        for seed in seeds:
            drawn, place = Drawn(seed, events), os.path.join(keep or room, f"history-{seed}.json")
            with open(place, "w", encoding="utf-8") as file:
                json.dump(drawn.profile, file)
            ended = runner.run(["replay", place])
            if wrong := difference(drawn, ended):
                found.append(f"seed {seed}: {wrong}")
            else:
                counts.update(counted(ended.out.decode()))
                counts["histories of few changes"] += counted(ended.out.decode())["changes"] < 500
                os.remove(place)
    return found, counts


if __name__ == "__main__":
    main(run, 200, PART, STATUS_PROGRAM)
