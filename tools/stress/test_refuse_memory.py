"""Sweeps the rows of refuse_memory.py, and small C programs, right and wrong ones, in place of the program:

    python3 tools/run_tests.py stress.test_refuse_memory
"""

import os
import subprocess
import tempfile
import unittest

from stress import refuse_memory
from stress.refuse_memory import sweeper
from support.programs import STATUS_PROGRAM, Ended
from support.repositories import write
from support.small_profiles import ROWS, put_out, wrong_files

# The rows that have one piece at most.
ONE_PIECE = ("malformed",)
# The rows that the gate sweeps, and numbers of calls than which more are refused, so that a profile that shrinks is noticed.
# These are about nine tenths of the calls that there were.
FEWEST = {"modified": 35, "conflict": 55, "renames": 80, "listed": 75, "folder": 47, "refreshed": 105, "refreshed_over": 105}
FEWEST |= {"reopened": 692}

# Takes memory twice, starts a thread, which takes memory too, and then prints the line of the first row.
STAND_IN = r"""
#include <pthread.h>
#include <stdio.h>
#include <stdlib.h>
#include <string.h>
#include <unistd.h>
static void say(int to, const char *text) { if (write(to, text, strlen(text)) < 0) _exit(9); }
static int refused(void) { REFUSED; say(2, "out of memory\n"); return 1; }
static void *work(void *unused) { void *got = malloc(7); free(got); return got ? unused : &say; }
int main(void) {
    void *one = malloc(1), *two = realloc(one, 2), *end;
    if (!one || !two) return refused();
    pthread_t thread;
    if (pthread_create(&thread, 0, work, 0)) { say(2, "status failed: no thread\n"); return 1; }
    pthread_join(thread, &end);
    if (end) return refused();
    say(1, "0 modified -c- \"a\"\n");
    free(two);
    return 0;
}
"""
WRONG = {
    "ignores the refusal": "return 0",
    "prints another record": 'say(1, "0 removed \\"a\\"\\n")',
    "prints half a line": 'say(1, "0 modified")',
    "prints too much": 'say(1, "0 modified -c- \\"a\\"\\n1 removed \\"b\\"\\n")',
    "says something else": 'say(2, "status failed: not found\\n"); return 1',
    "says no thread if memory was refused": 'say(2, "status failed: no thread\\n"); return 1',
    "says nothing": "return 1",
    "says it twice": 'say(2, "out of memory\\n")',
    "has another exit status": 'say(2, "out of memory\\n"); return 2',
    "crashes": "*(volatile int *)0 = 0",
    "aborts": "abort()",
    "hangs": "for (;;) pause()",
}

# Takes memory twice, prints the line of the first row, and writes the file that its arguments name.
WRITER = r"""
#include <fcntl.h>
#include <stdio.h>
#include <stdlib.h>
#include <string.h>
#include <unistd.h>
static char lock[4096], *out;
static void say(int to, const char *text) { if (write(to, text, strlen(text)) < 0) _exit(9); }
static void put(const char *path, const char *text) {
    int file = open(path, O_WRONLY | O_CREAT | O_TRUNC, 0600);
    say(file, text);
    close(file);
}
static int refused(void) { REFUSED; say(2, "out of memory\n"); return 1; }
int main(int count, char **words) {
    if (count < 6) return 2;
    out = words[3];
    snprintf(lock, sizeof lock, "%s.lock", out);
    void *one = malloc(1), *two = realloc(one, 2);
    if (!one || !two) return refused();
    say(1, "0 modified -c- \"a\"\n");
    put(lock, "new\n");
    return rename(lock, out) ? 9 : 0;
}
"""
WRONG_FILES = {
    "leaves a lock": 'put(lock, "")',
    "leaves a new file": 'put(out, "new\\n")',
    "leaves an empty file": 'put(out, "")',
    "says that it passed and leaves half": 'say(1, "0 modified -c- \\"a\\"\\n"); put(out, "ne"); return 0',
    "says that it passed and takes the file away": 'say(1, "0 modified -c- \\"a\\"\\n"); unlink(out); return 0',
}

MEMORY, NO_THREAD, FIRST_RUN = "out of memory\n", "status failed: no thread\n", 'run 1\n0 modified -cs "a"\n1 update "b"\n'
FOLDER_LINES, RENAME = ROWS["folder"].out.splitlines(keepends=True), ROWS["renames"].out.splitlines(keepends=True)[0]
# A row, refused calls, an exit status, an output and a fault; and if it matters the first refused call, and all calls.
RIGHT = [("folder", "m", 1, "".join(FOLDER_LINES[:count]), MEMORY) for count in range(5)]
RIGHT += [("renames", "m", 1, "", MEMORY, 10), ("renames", "m", 1, RENAME, MEMORY, 71), ("renames", "m", 1, RENAME, MEMORY, 89)]
RIGHT += [("modified", letters, 1, "", NO_THREAD) for letters in ("t", "c", "mt")] + [("modified", "mm", 1, "", "")]
RIGHT += [("modified", "m", 1, "", NO_THREAD, 2, "mmtcm")]
RIGHT += [("modified", "m", 1, "", NO_THREAD, at, "mmtcmmtc") for at in (2, 4, 6)]
RIGHT += [("history", "t", 1, "", "refused 6: run failed\n"), ("history", "t", 1, FIRST_RUN, "refused 8: run failed\n")]
WRONG_ENDS = [("modified", "", 1, "", MEMORY), ("malformed", "", 1, "", MEMORY), ("modified", "m", 1, "", "")]
ONE, TWO, THREE = FOLDER_LINES[:3]
WRONG_ENDS += [("folder", "m", 1, out, MEMORY) for out in (TWO, ONE + THREE, ONE[:-1], "\n")]
WRONG_ENDS += [("renames", "m", 1, RENAME, MEMORY, 10), ("renames", "m", 1, RENAME, MEMORY, 70)]
WRONG_ENDS += [("renames", "m", 1, RENAME + RENAME, MEMORY, 89), ("history", "t", 1, "", NO_THREAD)]
WRONG_ENDS += [("modified", letters, 1, "", NO_THREAD) for letters in ("m", "mm")]
WRONG_ENDS += [("modified", "m", 1, "", NO_THREAD, at, "mmtcm") for at in (1, 3)]
WRONG_ENDS += [("modified", "m", 1, "", NO_THREAD, 1, "mmtcmmtc"), ("history", "m", 1, "", "refused 6: run failed\n")]
WRONG_ENDS += [("history", "t", 1, FIRST_RUN, f"refused {at}: run failed\n") for at in (6, 7)]
WRONG_ENDS += [("history", "t", 1, "", f"refused {at}: run failed\n") for at in (8, 99)]
WRONG_ENDS += [("modified", "m", status, "", MEMORY) for status in (0, 2)]
WRONG_ENDS += [("modified", "m", status, "", "") for status in (0, -11, None)] + [("modified", "m", 1, "", "x\n")]
WRONG_ENDS += [("malformed", "m", 1, "", "bad profile: worktree\n")]


class Judging(unittest.TestCase):
    def is_right(self, name, letters, status, out, fault, at=1, calls="m" * 100):
        ended = Ended(status, out.encode(), fault.encode())
        return refuse_memory.wrong(ROWS[name], refuse_memory.Refused(letters, at, calls), ended) is None

    def test_ends_are_right_or_wrong(self):
        for name, row in ROWS.items():
            for letters in ("", "m", "c", "mtm"):
                self.assertTrue(self.is_right(name, letters, row.status, row.out, row.fault), name)
        self.assertEqual([row for row in RIGHT if not self.is_right(*row)], [])
        self.assertEqual([row for row in WRONG_ENDS if self.is_right(*row)], [])
        for ended in (Ended(1, b"\xff\n", MEMORY.encode()), Ended(1, b"", b"\xff\n")):
            self.assertIsNotNone(refuse_memory.wrong(ROWS["modified"], refuse_memory.Refused("m", 1, "m" * 9), ended))


class Files(unittest.TestCase):
    # An exit status, the text before a refresh and the right one after it, and what is left.
    RIGHT = [(1, None, "new", None), (1, "old", "new", "old"), (0, "old", "new", "new"), (0, None, None, "any")]
    WRONG = [(1, None, "new", left) for left in ("old", "")] + [(1, "old", "new", left) for left in ("new", "", "ol", None)]
    WRONG += [(0, "old", "new", "old"), (0, None, "new", "ne"), (0, None, "new", None), (0, None, None, None)]

    def said(self, status, old, new, left, lock=None):
        """Returns what is wrong if a refresh leaves this text, and maybe a lock. Asserts that no file stays."""
        with tempfile.TemporaryDirectory() as room:
            file = f"{room}/profile.json"
            put_out(file, left)
            if lock is not None:
                write(f"{file}.out.lock", lock)
            found = wrong_files(file, status, old, new)
            self.assertEqual(os.listdir(room), [])
        return found

    def test_what_a_refresh_leaves_is_right_or_wrong(self):
        self.assertEqual([row for row in self.RIGHT if self.said(*row)], [])
        self.assertEqual([row for row in self.WRONG if not self.said(*row)], [])
        for status in (0, 1, -9):
            self.assertEqual(self.said(status, "new", "new", "new", lock=""), "a lock is left")


class StandIns(unittest.TestCase):
    def swept(self, refused, source=STAND_IN, row="modified", seconds=10):
        """Sweeps over a stand-in that does this after a refusal. Returns how many calls came, and the wrong runs."""
        with tempfile.TemporaryDirectory() as room:
            program = os.path.join(room, "stand_in")
            write(program + ".c", source.replace("REFUSED", refused))
            subprocess.run(["cc", "-pthread", "-o", program, program + ".c"], check=True)
            with sweeper(row, 1, program, seconds) as it:
                return [it.sweep(on, 1) for on in (False, True)]

    def test_those_with_right_results_pass(self):
        # Two calls of its own, the thread, the C library's call for that, and the thread's own call.
        self.assertEqual(self.swept(""), [(5, []), (5, [])])
        for row in ("refreshed", "refreshed_over"):
            for calls, found in self.swept("", WRITER, row):
                self.assertEqual((calls > 0, found), (True, []))

    def test_each_wrong_one_is_noticed(self):
        rows = [(STAND_IN, "modified", *it, "") for it in WRONG.items()]
        rows += [(WRITER, row, *it, "a ") for row in ("refreshed", "refreshed_over") for it in WRONG_FILES.items()]
        rows.append((WRITER, "refreshed_over", "takes the old file away", "unlink(out)", "a "))
        for source, row, name, refused, words in rows:
            with self.subTest(name, row=row):
                found = [text for _, texts in self.swept(refused, source, row, 0.2) for text in texts]
                self.assertTrue(any(text.startswith(f"call 1: {words}") for text in found), found)

    def test_one_that_says_nothing_and_takes_no_memory_is_noticed(self):
        for _, found in self.swept("", "int main(void) { return 0; }"):
            self.assertRegex(found[0], "^call 1: another answer, and nothing was refused")
            self.assertEqual(found[1], "no call is counted")


@unittest.skipUnless(STATUS_PROGRAM, "no built program")
class Program(unittest.TestCase):
    def assert_swept(self, name, limits=(1, 2), repeat=1):
        """Asserts that each run ends as it may, and each sweep has enough calls."""
        for limit in limits:
            with sweeper(name, limit) as it:
                for on in (False, True):
                    calls, found = it.sweep(on, repeat)
                    self.assertEqual((found[:5], calls > FEWEST[name]), ([], True), f"{name} {limit} {on}: {calls} calls")

    def test_what_a_joined_status_recorded_before_it_was_refused_memory_is_printed(self):
        # The recorder takes memory for four entries, and then for the fifth, before the first line takes any.
        for row in ("listed", "renames"):
            with self.subTest(row), sweeper(row, 1) as it:
                ends = [it.run(at + 1, False)[0] for at in range(len(it.calls))]
                lines = ROWS[row].out.splitlines(keepends=True)
                printed = [ended.out.decode() for ended in ends if ended.status != 0 and ended.out]
                self.assertEqual(printed[0], "".join(lines[:4]))

    def test_only_a_limit_above_one_starts_a_thread_except_for_a_walk(self):
        # A status with untracked files walks the worktree in a thread, whatever the limit is.
        for name, row in ROWS.items():
            for limit in (1, 2):
                with self.subTest(row=name, limit=limit), sweeper(name, limit) as it:
                    starts = it.calls.count("t") - row.is_joined
                    self.assertEqual(starts > 0, limit == 2 and name not in ONE_PIECE, starts)
                    self.assertTrue(starts in range(limit + 1) or not row.is_joined)


# The sweep of each row is a test of its own. Each reopening of a history stores and reads each entry, so it is swept once.
for name in FEWEST:
    how = {"modified": {"repeat": 2}, "reopened": {"limits": (1,)}}.get(name, {})
    setattr(Program, f"test_each_call_is_refused: {name}", lambda self, name=name, how=how: self.assert_swept(name, **how))
