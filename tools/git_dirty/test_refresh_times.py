"""The time of a refreshed index hides no racy change from git. Rows of refresh_rows.txt say which time it is:

    python3 tools/run_tests.py git_dirty.test_refresh_times
"""

import os
import time

from git_dirty.refreshing import EXISTS, Careful
from support.index_bytes import MTIME, SIZE
from support.repositories import THEN


class Times(Careful):
    """The time that the new index gets. Entries that aren't older than the index are racy, and git reads their files."""

    UNRACY = "its time is in the first second of 1970, when no entry is racy to git"

    def partial(self):
        """Makes repositories of which a refresh compares a part, with an index that is later than the files. Yields their
        names, and the words of a refresh."""
        rows = {"paths": lambda: None, "assume-valid": lambda: self.git("update-index", "--assume-unchanged", "d/b")}
        rows["skip-worktree"] = lambda: self.git("update-index", "--skip-worktree", "d/b")
        rows["a filter"] = lambda: self.write(".git/info/attributes", "b filter=x\n")
        rows["untracked files"] = lambda: self.git("update-index", "--force-untracked-cache")
        for name, make in rows.items():
            self.make(name)
            self.stage({"c": "foo"})
            make()
            os.utime(self.place(), (THEN + 10, THEN + 10))
            yield name, ["--", "a", "c"] if name == "paths" else []

    def test_nothing_is_written_again_with_the_old_time(self):
        """A file that is later than the index stays racy, and has nothing to be stored. A lock doesn't matter then."""
        for name, words in self.partial():
            with self.subTest(name):
                self.touch("a", later=20)
                self.assert_time(False, *words)
                old, stat = self.read(), self.stat()
                for lock in (False, True):
                    if lock:
                        self.write(".git/index.lock", "x")
                    for text, lines in (("foo", b""), ("bars", b" M c\n")):
                        self.write("c", text)
                        self.touch("c")
                        self.assert_ends(self.refresh(*words), lines)
                        self.assertEqual((self.read(), self.stat(), os.path.exists(self.place() + ".lock")), (old, stat, lock))
                # With another stat to be stored it does.
                self.touch("a", later=8)
                self.assert_fails(self.refresh(*words), EXISTS.format(self.place() + ".lock"), b" M c\n")
                self.assertEqual((self.read(), self.stat()), (old, stat))

    def test_an_edit_beside_an_index_of_the_future(self):
        """The time is that of the lock then too if not all entries were compared. So the edit, which leaves size and second, is
        racy. With the old time it isn't."""
        for name, words in self.partial():
            with self.subTest(name):
                later = self.refresh_and_edit(words)
                self.assert_as_git(" M a\n", "a")
                self.assertIn(b" M a\n", self.shown()[0])
                os.utime(self.place(), ns=(later, later))
                self.assertNotIn(b" M a\n", self.shown()[0])

    def refresh_and_edit(self, words):
        """Refreshes an index of the future, and edits a file in the same second. Returns the index's old time."""
        old = self.read()
        for _ in range(20):
            later = time.time_ns() + 3600 * 10**9
            self.write("a", "foo")
            second = os.stat(self.path("a")).st_mtime_ns // 10**9
            self.put(old, nanos=later)
            self.assert_time(True, *words)
            self.write("a", "bar")
            if os.stat(self.path("a")).st_mtime_ns // 10**9 == second:
                self.assertEqual((self.stored("a")[MTIME], self.nanos() // 10**9), (second, second))
                return later
        self.fail("a refresh takes longer than a second")

    def test_an_index_of_the_first_second(self):
        """To git no entry is racy then. So an edit after a refresh that stays in this second would be hidden."""
        for name, words in self.partial():
            old = self.read()
            for nanos in (0, 999_999_999) if name == "paths" else (0,):
                with self.subTest(name, nanos=nanos):
                    self.put(old, nanos=nanos)
                    self.assert_left(self.UNRACY, paths=words)
                    self.store("a")
                    careless = self.read()
                    self.write("a", "bar")
                    self.touch("a")
                    for content, is_seen in ((careless, False), (old, True)):
                        self.put(content, nanos=nanos)
                        self.assertEqual(b" M a\n" in self.shown()[0], is_seen)
                    self.write("a", "foo")
                    self.touch("a")

    def test_a_racy_file_that_became_executable(self):
        """Its size becomes 0, so the change is seen without the other one. Git leaves the entry, and misses the change."""
        for how in ("git", "git dirty"):
            self.make(how)
            self.stage({"r": "foo"})
            self.make_racy("r")
            self.edit_racy("r")
            os.chmod(self.path("r"), 0o755)
            self.assertIn(b" M r\n", self.shown()[0])
            if how == "git":
                self.git("update-index", "-q", "--refresh", "--force-write-index")
            else:
                self.assert_ends(self.refresh(), b" M r\n")
            self.assertEqual(self.stored("r")[SIZE], 3 if how == "git" else 0)
            os.chmod(self.path("r"), 0o644)
            self.assertEqual((b" M r\n" in self.shown()[0], self.changed()), (False, []) if how == "git" else (True, [b"r"]))
        self.assert_as_git(" M r\n")

    def test_the_time_is_before_the_first_comparison(self):
        self.add_many()
        before, (child, reader) = time.time_ns(), self.start()
        between = time.time_ns()
        time.sleep(0.1)
        self.end(child, reader)
        self.assertTrue(before - 50_000_000 <= self.nanos() <= between)

    def test_a_racy_change_of_a_skipped_entry_stays_visible(self):
        for word in ("assume-unchanged", "skip-worktree"):
            with self.subTest(word):
                self.make(word)
                self.stage({"r": "foo"})
                self.store("a", "r")
                self.git("update-index", f"--{word}", "r")
                self.store("r")
                self.set_time(THEN, "r")
                self.store("r")
                self.edit_racy("r")
                self.assert_freed(word, misled=True)
                self.assert_ends(self.refresh(), b"")
                self.assertTrue(self.is_stored("a"))
                self.assert_freed(word, misled=False)

    def assert_freed(self, word, misled):
        """Asserts that git sees the change once the flag is gone, or would be misled if the index had the time of now."""
        old, nanos = self.read(), self.nanos()
        if misled:
            self.put(old)
        self.git("update-index", f"--no-{word}", "r")
        self.assertEqual(b" M r\n" in self.shown()[0], not misled)
        self.put(old, nanos=nanos)

    def test_an_untracked_file_of_the_second_of_the_index(self):
        """Its folder has the time of the index, so git lists the folder although it seems to be unchanged."""
        self.git("update-index", "--force-untracked-cache")
        self.write("e/f", "foo")
        self.set_time(THEN, "d", "e", ".")
        self.assertIn(b"?? e/\n", self.git("status", "--porcelain"))
        self.write("d/n", "foo")
        self.set_time(THEN, "d", ".", ".git/index")
        self.assertIn(b"?? d/n\n", self.shown()[0])
        self.assert_misled("a")
        self.touch("a")
        shown = self.shown()
        self.assert_ends(self.refresh(), b"")
        self.assertEqual((self.shown(), self.is_stored("a")), (shown, True))

    def test_an_edit_in_the_second_of_the_refresh(self):
        """The edit leaves size and second of the file, and the index is written in the next second."""
        self.add_many()
        self.git("config", "--unset", "core.trustctime")
        child, reader, second = self.started_and_edited()
        self.wait()
        self.assertEqual(self.end(child, reader), (1, ""))
        self.assertEqual(self.stored("a")[MTIME], second)
        self.assertIn(b" M a\n", self.shown()[0])
        self.assert_as_git(" M a\n", "a")
        self.store()
        self.assertNotIn(b" M a\n", self.shown()[0])

    def started_and_edited(self):
        """Starts a refresh that waits, and edits a file that it has compared. Returns the second in which all of it was done."""
        for _ in range(20):
            self.wait()
            self.write("a", "foo")
            second, (child, reader) = int(os.stat(self.path("a")).st_mtime), self.start()
            self.write("a", "bar")
            if int(os.stat(self.path("a")).st_mtime) == second:
                return child, reader, second
            self.end(child, reader)
        self.fail("a refresh takes longer than a second to start")
