"""No end of `git dirty --refresh` leaves half an index:

    python3 tools/run_tests.py git_dirty.test_refresh_kills
"""

import os
import random
import re
import signal
import stat
import subprocess
import tempfile
import time
from pathlib import Path

from git_dirty.refreshing import EXISTS, Many, Refresh
from support.programs import GIT_DIRTY, Starved, content, room_of_memory
from support.repositories import SETTINGS

# How many refreshes are killed at drawn moments.
KILLS = 200


class Kills(Many):
    """Refreshes that are killed at drawn moments, or before they write."""

    PLACE = room_of_memory()

    def test_a_kill_leaves_the_old_index_or_the_new_one(self):
        drawn, found = random.Random(1), set()
        for _ in range(KILLS):
            self.put(self.old)
            child = subprocess.Popen([GIT_DIRTY, "--refresh"], cwd=self.top, stdout=subprocess.DEVNULL)
            time.sleep(drawn.uniform(0, 1.5 * self.seconds))
            child.send_signal(signal.SIGKILL)
            child.wait(60)
            read = self.read()
            self.assertIn(read, (self.old, self.new))
            found.add(read)
            if os.path.exists(self.place() + ".lock"):
                os.remove(self.place() + ".lock")
        self.assertEqual(found, {self.old, self.new})

    def test_a_kill_before_writing(self):
        """No lock is there while files are compared and lines are printed."""
        self.add_many()
        old, stat = self.read(), self.stat()
        child, reader = self.start()
        self.assertFalse(os.path.exists(self.place() + ".lock"))
        child.kill()
        self.assertEqual(self.end(child, reader), (-signal.SIGKILL, ""))
        self.assertEqual((self.read(), self.stat(), os.path.exists(self.place() + ".lock")), (old, stat, False))


class Steps(Many):
    """Refreshes that are killed before each call by which they change files (kill_at.c)."""

    # A call writes so many bytes at most, and the index has this mode. No bit of a mode is taken from new files.
    MOST, MODE = 1000, 0o664
    SOURCE = Path(__file__).with_name("kill_at.c")

    def refresh_until(self, at):
        """Refreshes the old index, and kills the process before this call. Returns the exit status, and the calls up to it."""
        self.put(self.old)
        os.chmod(self.place(), self.MODE)
        with tempfile.TemporaryFile() as report:
            numbers = {"KILL_AT": str(at), "KILL_MOST": str(self.MOST), "KILL_REPORT": str(report.fileno())}
            environment = {**os.environ, **SETTINGS, **numbers, "LD_PRELOAD": self.library}
            how = {"cwd": self.top, "env": environment, "pass_fds": [report.fileno()], "umask": 0, "timeout": 60}
            ran = subprocess.run([GIT_DIRTY, "--refresh"], capture_output=True, check=False, **how)
            self.assertEqual((ran.stdout, ran.stderr), (b"", b""))
            return ran.returncode, content(report.fileno()).decode().splitlines()

    def steps(self):
        """Returns the calls of a refresh. Its own time is that of a lock which it makes and removes first."""
        writes = ["write"] * -(-len(self.new) // self.MOST)
        return ["open new 600", "unlink", "open new 600", "fchmod", *writes, "futimens", "fsync", "chown", "rename"]

    def test_a_kill_at_each_step_of_writing(self):
        """The index is left. So is a lock, which nobody else may open until it has the index's permissions."""
        new, at = self.entries(), 0
        self.put(self.old)
        old = self.entries()
        while True:
            at += 1
            status, calls = self.refresh_until(at)
            if status == 0:
                break
            with self.subTest(at, call=calls[-1]):
                self.assertEqual((status, calls), (-signal.SIGKILL, self.steps()[:at]))
                self.assertEqual((self.read() == self.old, self.entries()), (True, old))
                self.assertEqual(self.run_in(["git", "fsck", "--no-dangling"]).returncode, 0)
                made, removed = calls[:-1].count("open new 600"), calls[:-1].count("unlink")
                self.assertEqual(os.path.exists(self.place() + ".lock"), made > removed)
                if made > removed:
                    mode = stat.S_IMODE(os.stat(self.place() + ".lock").st_mode)
                    self.assertEqual(mode, self.MODE if "fchmod" in calls[:-1] else 0o600)
                    self.assert_fails(self.refresh(), re.escape(EXISTS.format(self.place() + ".lock")))
                    os.remove(self.place() + ".lock")
                self.assert_ends(self.refresh(), b"")
                self.assertEqual((self.read(), os.path.exists(self.place() + ".lock")), (self.new, False))
        self.assertEqual((calls, at), (self.steps(), len(self.steps()) + 1))
        self.assertEqual((self.read(), self.entries(), old != new), (self.new, new, True))

    def test_a_refresh_that_has_nothing_to_write(self):
        """Only the lock by which it learns the time is made."""
        self.old = self.new
        self.assertEqual(self.refresh_until(0), (0, self.steps()[:2]))


class Memory(Refresh):
    def test_each_allocation_is_refused(self):
        """The index is written whole, or memory runs out and it is unchanged."""
        old = self.read()
        self.assert_ends(self.refresh(), b"")
        new, ends, at, refused = self.read(), set(), 0, "m"
        with Starved(GIT_DIRTY, self.room) as starved:
            while refused:
                at += 1
                self.put(old)
                ended, refused = starved.run(["-C", self.top, "--refresh", "--threads", "1"], at, **SETTINGS)
                self.assertEqual((ended.out, os.path.exists(self.place() + ".lock")), (b"", False))
                self.assertEqual(self.read(), old if ended.status else new, at)
                self.assertRegex(ended.fault, rb"\A(git dirty|error): (?i:out of memory)\n\Z" if ended.status else rb"\A\Z")
                ends.add(ended.status)
        self.assertEqual(ends, {0, 2})
        self.assertGreater(at, 15)
