"""Runs a part of the seeds of each script, and shows that each notices a program that ends otherwise:

    python3 tools/run_tests.py stress.test_drawn
"""

import os
import re
import tempfile
import unittest
from functools import partial

from stress import compare_commits, compare_dirty, compare_includes, compare_pathspecs, compare_sparse, compare_untracked
from stress import draw_histories, draw_pathspecs, draw_untracked, mutate_index, mutate_objects, mutate_settings
from stress.draw_attributes import AttributeDrawing
from stress.draw_commits import EACH
from stress.draw_sparse import SPARSE
from stress.seeds import run_all
from support.programs import GIT_DIRTY, STATUS_PROGRAM, Ended
from support.repositories import COLUMNS, CONFLICTS, as_dirty, merged, read, write

# How many repositories are drawn, of each kind, and how many index files, settings and objects are mutated.
REPOSITORIES, ATTRIBUTES, COMMITS, SPARSES, UNTRACKED = 1000, 200, 400, 200, 200
# For each of these repositories four lists of pathspecs are drawn.
PATHSPECS = 250
MUTATED, MUTATED_SETTINGS, MUTATED_OBJECTS = 10000, 10000, 2000
# How often the configuration files that include others are drawn.
INCLUDES = 1000

# What spoils the end of a program, whose output is in the file `out`, and whose exit status is $status.
SPOILERS = ["sed 1d out; exit $status", "sed '$d' out; exit $status", "cat out; echo x; exit $status"]
SPOILERS += ["cat out out; exit $status", "sed '1s/.$//' out; exit $status", "cat out; exit $((status + 1))", "cat out; exit 101"]
SPOILERS += ["cat out; kill -9 $$", "cat out; echo x >&2; exit $status", "head -c -1 out; exit $status", "tac out; exit $status"]
# Spoils the end of a program by the file `spoiler`. The file `runs` has of each run whether that changes nothing, as 0, and
# the exit status.
SPOILT = """'{program}' "$@" >'{room}/out'
export status=$?
cd '{room}'
{{ sh spoiler >spoilt; }} 2>words
[ $? = $status ] && [ ! -s words ] && cmp -s out spoilt
echo $? $status >>runs
. ./spoiler"""


def put_script(room, script):
    """Makes a program of the shell's. Returns its path."""
    place = os.path.join(room, "program")
    write(place, f"#!/bin/sh\n{script}\n")
    os.chmod(place, 0o755)
    return place


def lines_of(drawn):
    """Returns the output of a program that knows only the changes of a history."""
    lines = []
    for number, changes in enumerate(drawn.runs, 1):
        lines.append(f"run {number}\n")
        for place, (path, change) in enumerate(changes):
            if change:
                words = change + "-" if change.startswith("modified") else change
                lines.append(f"{place} {words} {path}\n")
    return "".join(lines)


@unittest.skipUnless(STATUS_PROGRAM and GIT_DIRTY, "no built program")
class Drawn(unittest.TestCase):
    def run_seeds(self, run, count, size):
        """Runs so many seeds, of which none may end wrongly. Returns the counts."""
        found, counts = run_all(run, range(count), size)
        self.assertEqual(found[:5], [], f"{len(found)} are wrong")
        return counts

    def test_drawn_histories_miss_no_change(self):
        counts = self.run_seeds(draw_histories.run, 16, draw_histories.PART)
        # Updates that a stat needs also occur often enough to show something.
        self.assertGreaterEqual(min(counts["zeroed"], counts["updates"]), 200, counts)
        self.assertEqual(counts["histories of few changes"], 0)

    def test_all_settings_events_and_refusals_of_histories_are_drawn(self):
        drawn = [draw_histories.Drawn(seed, 200) for seed in range(128)]
        self.assertEqual(len({tuple(it.profile["options"][name] for name in draw_histories.SETTINGS) for it in drawn}), 16)
        events = [event for it in drawn for event in it.profile["events"]]
        wanted = {"tick", "nanos", "write", "link", "chmod", "remove", "stage", "run", "reopen"}
        self.assertEqual({event[0] for event in events}, wanted)
        self.assertEqual({event[1] for event in events if event[0] == "run"}, {"hash", "fast"})
        paths = {event[1] for event in events if event[0] == "write"} - set(draw_histories.BAD_PATHS)
        self.assertEqual((len(paths), paths), (20, set(draw_histories.PATHS)))
        self.assertEqual({len(event[2].encode()) for event in events if event[0] == "write"}, {0, 1, 2, 3})
        ticks = [event[1] for event in events if event[0] == "tick"]
        self.assertGreater(ticks.count(0), len(ticks) // 2)
        wanted = {"", "clock end", "bad path", "in the way", "not a file", "bad moment", "stamp later"}
        self.assertEqual({it.fault.split(": ")[-1].strip() for it in drawn}, wanted)

    def test_drawn_repositories_are_reported_as_by_git(self):
        columns = self.run_seeds(compare_dirty.compared, REPOSITORIES, compare_dirty.PART)
        del columns["files"]
        each = {staged + other for staged in " AMT" for other in " MDT"} - {"  "} | {"D ", " A"}
        self.assertEqual(set(columns), each | {letters.decode() for letters in CONFLICTS})
        self.assertGreater(min(columns.values()), REPOSITORIES // 100)

    def test_drawn_files_are_converted_as_by_git(self):
        """Each repository has about 38 files."""
        columns = self.run_seeds(partial(compare_dirty.compared, kind=AttributeDrawing), ATTRIBUTES, compare_dirty.PART)
        self.assertGreater(min(columns["AM"], columns["files"] - columns["AM"]), 10 * ATTRIBUTES)

    def test_drawn_commits_are_compared_as_by_git(self):
        counts = self.run_seeds(compare_commits.run, COMMITS, compare_dirty.PART)
        self.assertEqual({one for one in EACH | {"AA", "UU", "UD"} if not counts[one]}, set())

    def test_drawn_sparse_checkouts_are_compared_as_by_git(self):
        counts = self.run_seeds(compare_sparse.run, SPARSES, compare_dirty.PART)
        self.assertEqual({one for one in SPARSE if not counts[one]}, set())

    def test_drawn_untracked_files_are_listed_as_by_git(self):
        counts = self.run_seeds(compare_untracked.run, UNTRACKED, compare_dirty.PART)
        self.assertEqual({one for one in draw_untracked.EACH if not counts[one]}, set())
        self.assertGreater(min(counts["??"], counts["!!"]), 2 * UNTRACKED)

    def test_drawn_pathspecs_select_what_they_do_in_git(self):
        counts = self.run_seeds(compare_pathspecs.run, PATHSPECS, compare_dirty.PART)
        each = draw_pathspecs.EACH | compare_pathspecs.EACH
        self.assertEqual({one for one in each if counts[one] < PATHSPECS // 20}, set())

    def test_mutated_objects_are_refused_or_read_as_by_git(self):
        kinds = self.run_seeds(mutate_objects.run, MUTATED_OBJECTS, mutate_objects.PART // 2)
        self.assertGreater(kinds["git's lines"], MUTATED_OBJECTS // 8)
        self.assertGreater(kinds["the lines of the old objects, which git refuses"], 0)
        self.assertGreater(len(kinds), 20)

    def test_mutated_index_files_are_refused_or_reported_as_by_git(self):
        shapes = self.run_seeds(mutate_index.run, MUTATED, mutate_index.PART)
        self.assertGreater(shapes["git's lines"], MUTATED // 10)
        self.assertGreater(len(shapes), 10)

    def test_mutated_settings_are_read_or_refused_as_by_git(self):
        kinds = self.run_seeds(mutate_settings.run, MUTATED_SETTINGS, mutate_settings.PART)
        self.assertGreater(min(kinds["git's lines"], kinds["both fail"]), MUTATED_SETTINGS // 4)

    def test_drawn_files_are_included_as_by_git(self):
        kinds = self.run_seeds(compare_includes.run, INCLUDES, compare_includes.PART)
        self.assertEqual({one for one in compare_includes.EACH if not kinds[one]}, set())
        self.assertGreater(kinds["git's lines"], INCLUDES // 2)


@unittest.skipUnless(STATUS_PROGRAM and GIT_DIRTY, "no built program")
class Spoilt(unittest.TestCase):
    """Programs whose ends are spoilt. Each script has to notice it."""

    # For each seed a script runs its program once, and some print at least two lines. The last line of the history of seed 2
    # isn't one that depends on times alone.
    SCRIPTS = [(partial(draw_histories.run, events=200), STATUS_PROGRAM, [2])]
    SCRIPTS += [(partial(compare_dirty.compared, kind=AttributeDrawing), GIT_DIRTY, range(2))]
    SCRIPTS += [(mutate_index.run, GIT_DIRTY, range(20)), (mutate_settings.run, GIT_DIRTY, range(20))]
    SCRIPTS += [(mutate_objects.run, GIT_DIRTY, [31, 46]), (compare_includes.run, GIT_DIRTY, range(8))]

    def test_each_spoilt_end_is_noticed(self):
        for number, (run, program, seeds) in enumerate(self.SCRIPTS):
            for spoiler in ["cat out; exit $status", *SPOILERS]:
                with self.subTest(number, spoiler=spoiler), tempfile.TemporaryDirectory() as room:
                    write(f"{room}/spoiler", spoiler)
                    texts, _ = run(seeds, program=put_script(room, SPOILT.format(program=program, room=room)))
                    ends = dict(zip(seeds, read(f"{room}/runs").decode().splitlines(), strict=True))
                    spoilt = {seed for seed, end in ends.items() if not end.startswith("0 ")}
                    # If the program refuses an index, it may print any whole lines.
                    wanted = {seed for seed in spoilt if not ends[seed].endswith(" 2")}
                    found = {int(re.match(r"seed (\d+)[:,]", text)[1]) for text in texts}
                    self.assertTrue(wanted <= found <= spoilt, (wanted, found, spoilt))
                    self.assertEqual(wanted != set(), spoiler in SPOILERS)

    # Changes of the output of a history.
    CHANGES = [("removed", "update"), ("c- ", "-- "), ("xc", "-c"), ("100644", "100755"), ("run 9", "run 8"), ('"e"', '"f"')]
    CHANGES += [("run 1\n", 'run 1\n99 update "a"\n'), ("run 1\n", "run 1\n0 removed\n"), ("run 1\n", "run 1\n\n")]
    CHANGES.append(("run 1\n", ""))

    def test_each_change_of_a_history_is_noticed(self):
        drawn = draw_histories.Drawn(24, 2000)
        out = lines_of(drawn)

        def is_same(out, status=0, fault=""):
            return draw_histories.difference(drawn, Ended(status, out.encode(), fault.encode())) is None

        # A size that is set to zero, and an update of an unchanged file, depend on times alone.
        place, path = next((at, path) for at, (path, change) in enumerate(drawn.runs[0]) if not change)
        before = [line for line in out.split("\nrun 2\n")[0].split("\n")[1:] if int(line.split(" ")[0]) < place]
        front = "".join(line + "\n" for line in ["run 1", *before])
        update = f"{place} update {path}\n"
        self.assertTrue(is_same(out) and is_same(out.replace("c- ", "cs ")) and is_same(front + update + out.removeprefix(front)))
        self.assertFalse(is_same(front + update + update + out.removeprefix(front)))
        for old, new in self.CHANGES:
            self.assertTrue(old in out and not is_same(out.replace(old, new, 1)), old)
        self.assertFalse(is_same(out + f"run {len(drawn.runs) + 1}\n") or is_same(out[: out.rindex("run ")]))
        self.assertFalse(is_same(out, 1, "refused 9: bad path\n"))
        drawn = draw_histories.Drawn(0, 50)
        out = lines_of(drawn)
        self.assertTrue(is_same(out, 1, drawn.fault) and drawn.fault.startswith("refused 50: "))
        self.assertFalse(is_same(out) or is_same(out, 1, drawn.fault.replace("50", "49")))

    def test_each_line_counts(self):
        """Each line that is left out, printed twice, or has a blank at its end is noticed, and so are bytes that are no text."""
        history = draw_histories.Drawn(24, 200)
        out = lines_of(history).encode()

        def said(out, fault=b"", status=0):
            return draw_histories.difference(history, Ended(status, out, fault))

        self.assertIsNone(said(out))
        for line in re.finditer(b".*\n", out):
            front, rest = out[: line.start()], out[line.end() :]
            for changed in (b"", line[0] * 2, line[0][:-1] + b" \n", line[0][:-1] + b"\xff\n"):
                self.assertIsNotNone(said(front + changed + rest), line)
        ends = [(b"\xff",), (out, b"\xff\n"), (out, b"out of memory\n"), (out, b"", 1), (out, b"", None)]
        self.assertEqual([end for end in ends if said(*end) is None], [])

    def test_lines_are_taken_from_git(self):
        """What git prints, and the lines of each column."""
        rows = [(b"AM a\n", b" M a\n", b"A  a\n"), (b"M  a\n", b"", b"M  a\n"), (b"", b"", b"")]
        rows += [(b" A a\nAD b\n", b" A a\n D b\n", b"A  b\n"), (b'AT "\\n"\n', b' T "\\n"\n', b'A  "\\n"\n')]
        rows += [(b"UU a\nDD b\nA  c\n", b"UU a\nDD b\n", b"UU a\nDD b\nA  c\n")]
        for printed, *ones in rows:
            for columns, wanted in zip(COLUMNS, (printed, *ones)):
                self.assertEqual(as_dirty(printed, *columns), wanted)
                self.assertEqual(as_dirty(printed.replace(b"\n", b"\0"), "-z", *columns), wanted.replace(b"\n", b"\0"))
            self.assertEqual(merged(ones[1], ones[0]), printed)
        self.assertEqual(merged(b'M  a\nUU b\nD  "\\303"\n', b' T a\nDD "\\n"\n'), b'DD "\\n"\nMT a\nD  "\\303"\n')

    # Exit statuses, outputs and faults over an index for which git prints INDEX_LINES.
    INDEX_LINES = b"AM a\nA  b\n"
    INDEX_RIGHT = [(1, INDEX_LINES, b"")] + [(2, out, b"git dirty: bad checksum\n") for out in (b"", b" M a\n")]
    INDEX_OTHER = [(1, b" M a\n", b""), (1, b"AM b\nA  b\n", b""), (0, b"", b"")]
    # These are wrong whatever git prints.
    INDEX_WRONG = [(0, b" M a\n", b""), (1, b"", b""), (2, b" M", b"git dirty: a\n")]
    INDEX_WRONG += [(status, b"", b"git dirty: a\n") for status in (None, -6, -11, 0, 1, 3, 101)]
    INDEX_WRONG += [(2, b"", fault) for fault in (b"", b"bad\n", b"thread 'main' panicked\n")]
    INDEX_WRONG += [(2, b"", b"git dirty: a" + more) for more in (b"", b"\nb", b"\nb\n")]

    def test_ends_over_a_mutated_index_are_right_or_wrong(self):
        wrong = lambda end, lines=self.INDEX_LINES: mutate_index.judged(Ended(*end), lambda: Ended(0, lines, b""))[0]
        self.assertEqual([end for end in self.INDEX_RIGHT if wrong(end)], [])
        self.assertEqual([end for end in self.INDEX_OTHER if not wrong(end)], [])
        self.assertEqual([end for end in self.INDEX_WRONG if not wrong(end) or not wrong(end, end[1])], [])
        for columns, end in zip(COLUMNS, ((1, self.INDEX_LINES), (1, b" M a\n"), (1, b"A  a\nA  b\n"))):
            judged = partial(mutate_index.judged, Ended(*end, b""), lambda: Ended(0, self.INDEX_LINES, b""))
            self.assertEqual([judged(columns=its)[0] is None for its in COLUMNS], [its == columns for its in COLUMNS])

    def test_an_index_that_git_refuses_is_no_success(self):
        refused = lambda: Ended(128, b"", b"fatal: bad\n")
        for known in (None, "a folder as an entry"):
            self.assertIsNotNone(mutate_index.judged(Ended(1, b" M b\n", b""), refused, known)[0])
        other = lambda: Ended(0, b"AM b\n", b"")
        self.assertIsNone(mutate_index.judged(Ended(1, b" M a\n", b""), other, "a folder as an entry")[0])
        self.assertIsNotNone(mutate_index.judged(Ended(1, b" M a\n", b""), other)[0])
