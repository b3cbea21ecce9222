"""The entries that `git dirty --refresh` writes, and that no file is read afterwards:

    python3 tools/run_tests.py git_dirty.test_refresh
"""

import os
import subprocess
import time
from pathlib import Path

from git_dirty.case import CRLF
from git_dirty.refreshing import Refresh
from support.programs import GIT_DIRTY


class Settled(Refresh):
    """After a refresh no file is read."""

    # The status of git, which writes no index, and that of the program.
    STATUS, DIRTY = ["git", "--no-optional-locks", "status", "--porcelain"], [GIT_DIRTY, "--threads", "2"]
    SOURCE = Path(__file__).with_name("log_opens.c")

    def opened(self, *command, lines=b""):
        """Returns the files of the worktree that a command opens, each as often as it does. The command prints these lines."""
        log = os.path.join(self.room, "log")
        self.put(b"", log)
        ran = self.run_in(command, LD_PRELOAD=self.library, OPENS_LOG=log)
        self.assertEqual((ran.stdout, ran.stderr, ran.returncode in (0, 1)), (lines, b"", True))
        paths = [line.removeprefix(self.top + "/") for line in self.read(log).decode().splitlines()]
        self.assertIn(".git/index", paths)
        in_worktree = [path for path in paths if not path.startswith((".git/", "/"))]
        return sorted(path for path in in_worktree if os.path.isfile(self.path(path)))

    def assert_settled(self):
        self.assertEqual(self.counts()[1:], (0, 0, 0))
        self.assertEqual(self.git("diff-files"), b"")
        lines = self.run_in(self.STATUS).stdout
        self.assertEqual((self.opened(*self.STATUS, lines=lines), self.opened(*self.DIRTY)), ([], []))

    def test_a_refresh_settles_touched_files(self):
        self.assertEqual(self.counts(), (2, 2, 0, 2))
        self.assert_ends(self.refresh(), b"")
        self.assert_settled()

    def test_a_copy_of_a_repository(self):
        self.git("update-index", "--refresh")
        self.commit()
        copy = os.path.join(self.room, "copy")
        subprocess.run(["cp", "-a", self.top, copy], check=True)
        self.top = copy
        self.assertEqual(self.counts(), (2, 2, 0, 2))
        self.assert_refreshes_as_git()
        self.assert_settled()

    def test_a_copy_of_many_files(self):
        """All are read before the refresh, each once by it, and none afterwards."""
        names = [f"{folder}/{number}" for folder in ("e", "e/f", "g h", "é") for number in range(50)]
        for name in names:
            self.write(name, name)
        os.chmod(self.path("e/1"), 0o755)
        self.write(".git/info/attributes", "g* text\n")
        os.symlink("foo", self.path("l"))
        self.git("add", ".")
        self.commit()
        self.settle()
        self.assert_settled()
        copy = os.path.join(self.room, "copy")
        subprocess.run(["cp", "-a", self.top, copy], check=True)
        self.top, names = copy, sorted(["a", "d/b", *names])
        self.assertEqual(self.opened(*self.STATUS), names)
        for words in ([], ["--refresh"]):
            self.assertEqual(self.opened(*self.DIRTY, *words), names)
        self.assert_settled()
        self.assertEqual(self.opened(*self.DIRTY, "--refresh"), [])
        # A file that is changed is read as long as its size is that in the index.
        self.write("e/1", "e/0")
        self.assertEqual(self.opened(*self.STATUS, lines=b" M e/1\n"), ["e/1"])
        self.assertEqual(self.opened(*self.DIRTY, "--refresh", lines=b" M e/1\n"), ["e/1"])

    def test_attribute_files_are_read_alone(self):
        for name in (".gitattributes", "e/.gitattributes"):
            self.write(name, "*.txt text\n")
        self.git("add", ".")
        for name in ("e/f.txt", "g.txt"):
            self.write(name, CRLF)
        self.git("add", ".")
        self.commit()
        self.settle()
        names, attributes = self.git("ls-files").decode().split(), [".gitattributes", "e/.gitattributes"]
        self.touch(*names)
        # They are compared too.
        self.assertEqual(self.opened(*self.STATUS), sorted(names + attributes))
        self.assertEqual(self.opened(*self.DIRTY, "--refresh"), sorted(names + attributes))
        self.assertEqual((self.opened(*self.STATUS), self.opened(*self.DIRTY)), ([], attributes))

    def test_an_edit_during_the_refresh_is_seen_afterwards(self):
        """The file's time doesn't show it, and is before the index is written, but not before the refresh began."""
        self.add_many()
        self.git("config", "core.trustctime", "false")
        second = int(time.time()) + 1
        self.set_time(second, "a")
        child, reader = self.start()
        self.write("a", "bar")
        self.set_time(second, "a")
        time.sleep(second + 1.05 - time.time())
        self.assertEqual(self.end(child, reader), (1, ""))
        self.assert_as_git(" M a\n", "a")
        self.assertIn(b" M a\n", self.git("status", "--porcelain"))
