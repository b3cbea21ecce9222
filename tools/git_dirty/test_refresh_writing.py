"""A refresh leaves the old index or the new one, whatever fails:

    python3 tools/run_tests.py git_dirty.test_refresh_writing
"""

import os
import subprocess
import threading
import time

from git_dirty.refreshing import CHANGED, EXISTS, Many, Refresh
from support.index_bytes import MTIME
from support.programs import GIT_DIRTY, limit_files
from support.repositories import THEN

# How many refreshes run while another process writes the index.
ROUNDS = 30


class Writing(Refresh):
    """How the index file is replaced."""

    def test_an_index_that_changed_meanwhile(self):
        self.add_many()
        self.write("n", "foo")
        child, reader = self.start()
        self.git("add", "n")
        old, stat = self.read(), self.stat()
        self.assertEqual(self.end(child, reader), (2, f"git dirty: {CHANGED}\n"))
        self.assertEqual((self.read(), self.stat()), (old, stat))
        self.assertFalse(os.path.exists(self.place() + ".lock"))
        child, reader = self.start()
        os.remove(self.place())
        self.assertEqual(self.end(child, reader), (2, f"git dirty: {CHANGED}\n"))
        self.assertFalse(os.path.exists(self.place()) or os.path.exists(self.place() + ".lock"))

    def test_a_lock_that_is_taken_meanwhile(self):
        self.add_many()
        old, stat = self.read(), self.stat()
        child, reader = self.start()
        self.write(".git/index.lock", "x")
        status, said = self.end(child, reader)
        self.assertEqual((status, said.startswith("git dirty: " + EXISTS.format(self.place() + ".lock"))), (2, True), said)
        self.assertEqual((self.read(), self.stat(), self.read(self.place() + ".lock")), (old, stat, b"x"))

    def test_owner_and_group_are_kept(self):
        """Root may give a file to all, and another user to the user's groups."""
        is_root = os.geteuid() == 0
        owners = [(os.geteuid(), group) for group in {os.getegid(), *os.getgroups()}]
        owners += [(1234, 1235), (1234, os.getegid()), (0, 1235)] if is_root else []
        # Without the right to read any file, root reads what all may read.
        for mode in (0o644, 0o664) if is_root else (0o600, 0o640):
            for owner in owners:
                with self.subTest(owner, mode=oct(mode)):
                    self.assert_owned(owner, owner, mode)

    def test_an_index_of_another_user_becomes_the_user_s(self):
        """Unless the user may give it away, as root may."""
        is_root, own = os.geteuid() == 0, (os.geteuid(), os.getegid())
        front = ["setpriv", "--bounding-set=-chown", "--inh-caps=-all"] if is_root else []
        for owner in ((1234, 1235), (1234, own[1]), (own[0], 1235)) if is_root else (own,):
            with self.subTest(owner):
                self.assert_owned(owner, own, 0o644, front)

    def assert_owned(self, owner, left, mode, front=()):
        """Asserts that the index of this owner, group and mode has these ones after a refresh, with the words in front."""
        old = self.read()
        os.remove(self.place())
        self.put(old)
        os.chmod(self.place(), mode)
        os.chown(self.place(), *owner)
        self.touch("a", later=1 + self.stored("a")[MTIME] - THEN)
        self.assert_ends(self.run_in([*front, GIT_DIRTY, "--refresh"]), b"")
        found = os.stat(self.place())
        self.assertEqual((found.st_uid, found.st_gid, found.st_mode & 0o7777), (*left, mode))
        self.assertTrue(self.is_stored("a"))

    def test_a_full_disk(self):
        old, stat = self.read(), self.stat()
        for size in (0, 1, 100, len(old) - 1):
            how = {"cwd": self.top, "capture_output": True, "timeout": 60, "preexec_fn": limit_files(size)}
            ran = subprocess.run([GIT_DIRTY, "--refresh"], **how)
            self.assert_unchanged(ran, f"^git dirty: Unable to write '{self.place()}.lock': file too large$", old, stat)


class Together(Many):
    """Other processes at the same index."""

    def test_two_at_once(self):
        words = (CHANGED, EXISTS.format(self.place() + ".lock"))
        for _ in range(ROUNDS):
            self.put(self.old)
            pair = [subprocess.Popen([GIT_DIRTY, "--refresh"], cwd=self.top, stderr=subprocess.PIPE) for _ in range(2)]
            ended = [(child.communicate(timeout=60)[1].decode(), child.returncode) for child in pair]
            for said, status in ended:
                self.assertEqual(status, 2 if said else 0)
                self.assertTrue(not said or any(word in said for word in words), said)
            self.assertIn(("", 0), ended)
            self.assertEqual((self.read(), os.path.exists(self.place() + ".lock")), (self.new, False))

    def test_beside_git_add(self):
        """No addition that succeeded is lost."""
        words, lost, is_over = (CHANGED, EXISTS.format(self.place() + ".lock")), [], threading.Event()
        self.addCleanup(is_over.set)

        def add():
            for number in range(10**6):
                if is_over.is_set():
                    break
                # A file that is replaced whole, by one of the same size, can be read at any moment.
                self.write(os.path.join(self.room, "n"), f"{number:09}")
                os.replace(os.path.join(self.room, "n"), self.path("n"))
                ran = self.run_in(["git", "add", "n"])
                wanted = self.run_in(["git", "hash-object", "n"]).stdout.split()[0]
                if ran.returncode == 0 and wanted not in self.run_in(["git", "ls-files", "-s", "n"]).stdout:
                    lost.append(number)

        adding = threading.Thread(target=add)
        adding.start()
        ends, number, until = set(), 0, time.monotonic() + 3
        while number < ROUNDS or time.monotonic() < until:
            number += 1
            self.touch("a") if number % 2 else self.set_time(THEN, "a")
            ran = self.refresh()
            ends.add(ran.returncode)
            said = ran.stderr.decode()
            self.assertEqual(ran.returncode == 2, said != "")
            self.assertTrue(not said or any(word in said for word in words), said)
        is_over.set()
        adding.join()
        self.assertEqual(lost, [])
        self.assertTrue(ends & {0, 1})
        self.assertEqual(self.run_in(["git", "fsck", "--no-dangling"]).returncode, 0)
        self.assertEqual(len(self.git("ls-files").split()), 33)
