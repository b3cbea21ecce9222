"""Shared by the tests of `git dirty --refresh`: repositories with old stats, and comparisons with what git leaves and shows.

The index file after a refresh is compared with the one that `git update-index --refresh` leaves of the same file. No refresh
may hide a change from git. So tests that it doesn't show first that git would be misled by an index with the stats of all
files, or with a later time.
"""

import array
import fcntl
import os
import re
import shutil
import subprocess
import termios
import time
from dataclasses import replace

from git_dirty.case import Dirty
from support.index_bytes import MODE, parts_of
from support.programs import GIT_DIRTY
from support.repositories import SETTINGS, STATUS_OF_HEADS, THEN, as_dirty, merged, read, wait_for_later_second, write

EXISTS, CHANGED = "Unable to create '{}': File exists", "the index changed meanwhile, so nothing was written"


def stat_of(place):
    """Returns the stat of a file as git stores it."""
    found = os.lstat(place)
    times = [number for nanos in (found.st_ctime_ns, found.st_mtime_ns) for number in divmod(nanos, 10**9)]
    mode = 0o120000 if os.path.islink(place) else 0o100755 if found.st_mode & 0o100 else 0o100644
    numbers = [*times, found.st_dev, found.st_ino, mode, found.st_uid, found.st_gid, found.st_size]
    return tuple(number % (1 << 32) for number in numbers)


class Refresh(Dirty):
    """A test with two files whose stats are old, so that a refresh writes the index."""

    def setUp(self):
        super().setUp()
        self.settle()
        self.touch("a", "d/b")

    def touch(self, *names, later=7):
        """Gives files other times than those in the index."""
        self.set_time(THEN + later, *names)

    def wait(self):
        """Waits until a refresh, which counts as somewhat earlier, is of a later second than the files."""
        wait_for_later_second()
        time.sleep(0.05)

    def place(self):
        return self.path(".git/index")

    def read(self, place=None):
        return read(place or self.place())

    def put(self, content, place=None, nanos=None):
        """Writes an index file, with this time if there is one."""
        write(place or self.place(), content)
        if nanos is not None:
            os.utime(place or self.place(), ns=(nanos, nanos))

    def nanos(self):
        """Returns the time of the index."""
        return os.stat(self.place()).st_mtime_ns

    def is_stored(self, name, kind="sha1"):
        """Returns whether the index has the stat of a file, whose mode may be another by core.fileMode or core.symlinks."""
        stored, found = (stat[:MODE] + stat[MODE + 1 :] for stat in (self.stored(name, kind), stat_of(self.path(name))))
        return stored == found

    def stored(self, name, kind="sha1"):
        """Returns the stat of a file in the index."""
        return {entry.path: entry.stat for entry in parts_of(kind, self.read()).entries}[name.encode()]

    def entries(self, **settings):
        """Returns the entries of the index with all that git records of them."""
        return self.run_in(["git", "ls-files", "--stage", "--debug", "-v"], **settings).stdout.decode()

    def refresh(self, *words, **settings):
        return self.run_in([GIT_DIRTY, "--refresh", *words], **settings)

    def assert_refreshes_as_git(self, lines=""):
        """Asserts that the program prints these lines, and leaves of the index what git leaves. It is as long as before, except
        where git cut the names of version 4 otherwise."""
        old, nanos, shown = self.read(), self.nanos(), self.shown()
        self.run_in(["git", "update-index", "-q", "--refresh"])
        wanted, raw = self.entries(), self.git("diff-files")
        self.put(old, nanos=nanos)
        self.assert_ends(self.refresh(), self.both(lines))
        self.assertEqual((self.entries(), self.git("diff-files")), (wanted, raw))
        self.assertEqual(self.shown(), shown)
        new, as_long = self.read(), old[7] < 4 or b"IEOT" not in old
        self.assertEqual((new[:8], len(new) == len(old), os.path.exists(self.place() + ".lock")), (old[:8], as_long, False))
        kind = self.git("rev-parse", "--show-object-format").decode().strip()
        self.assertEqual(parts_of(kind, new).extensions, parts_of(kind, old).extensions)
        self.assertEqual(self.run_in(["git", "fsck", "--no-dangling"]).returncode, 0)
        self.assert_ends(self.ran("--worktree"), lines.encode())

    def both(self, lines, **settings):
        """Returns these lines of the second column with git's letters of the first one."""
        return merged(as_dirty(self.run_in(STATUS_OF_HEADS, **settings).stdout, "--staged"), lines.encode())

    # Commands of git that print the same before and after a refresh.
    SHOWN = [["status", "--porcelain"], ["diff", "--raw"], ["ls-files", "--stage", "-v"], ["diff", "--cached", "--raw"]]

    def shown(self, **settings):
        """Returns what git prints of the repository, over copies of its index: git diff refreshes the index in any case."""
        copy, found = os.path.join(self.room, "shown"), []
        for words in self.SHOWN:
            shutil.copy2(self.place(), copy)
            found.append(self.run_in(["git", "--no-optional-locks", *words], **settings, GIT_INDEX_FILE=copy))
        self.assertEqual([ran.returncode for ran in found], [0] * len(found))
        return [ran.stdout for ran in found]

    def assert_unchanged(self, ran, words, old, stat):
        """Asserts that the program failed with these words, and left the index file and no lock."""
        self.assert_fails(ran, words)
        self.assertEqual((self.read(), self.stat()), (old, stat))
        self.assertFalse(os.path.exists(self.place() + ".lock"))

    def stat(self):
        found = os.stat(self.place())
        return found.st_ino, found.st_mtime_ns, found.st_ctime_ns, found.st_mode

    def counts(self, *words):
        """Returns how many entries are compared, how many files are read, and how many entries are racy or have an old stat."""
        said = self.ran("--stats", *words).stderr.decode()
        found = re.fullmatch(r"git dirty: (\d+) entries, .* (\d+) files read .* (\d+) racy, (\d+) with an old stat\n", said)
        return tuple(map(int, found.groups()))

    def start(self, *words):
        """Starts a refresh that waits until its output is read, with its status made and no lock taken."""
        reader, writer = os.pipe()
        self.addCleanup(os.close, reader)
        size = fcntl.fcntl(writer, fcntl.F_SETPIPE_SZ, 4096)
        how = {"cwd": self.top, "stdout": writer, "stderr": subprocess.PIPE, "env": {**os.environ, **SETTINGS}}
        child = subprocess.Popen([GIT_DIRTY, "--refresh", *words], **how)
        os.close(writer)
        self.addCleanup(child.stderr.close)
        self.addCleanup(child.kill)
        waiting, until = array.array("i", [0]), time.monotonic() + 30
        while waiting[0] < size and time.monotonic() < until:
            fcntl.ioctl(reader, termios.FIONREAD, waiting)
            time.sleep(0.001)
        self.assertEqual(waiting[0], size)
        return child, reader

    def end(self, child, reader):
        """Reads the output of a refresh that waits. Returns the exit status and the error output."""
        while os.read(reader, 1 << 16):
            pass
        said = child.stderr.read().decode()
        return child.wait(60), said

    def add_many(self):
        """Adds files that are then removed, so that their lines fill a pipe."""
        names = [f"{number:0100}" for number in range(60)]
        self.add(*names)
        self.settle()
        for name in names:
            os.remove(self.path(name))
        self.touch("a", "d/b")


class Many(Refresh):
    """A test with 32 files whose stats are old, and with the bytes of the index before and after a refresh."""

    def setUp(self):
        super().setUp()
        names = [f"many/{number}" for number in range(30)]
        self.add(*names)
        self.settle()
        self.touch("a", "d/b", *names)
        self.old = self.read()
        begun = time.monotonic()
        self.assert_ends(self.refresh(), b"")
        self.seconds, self.new = time.monotonic() - begun, self.read()
        self.assertNotEqual(self.new, self.old)


class Careful(Refresh):
    """Compares what git shows before and after a refresh, and after one that takes no care."""

    def make(self, name, kind="sha1"):
        super().make(name, kind)
        self.git("config", "core.trustctime", "false")

    def stage(self, files):
        """Stages files by their texts, and two others, and gives them another time than their entries have."""
        files = {"a": "foo", "d/b": "foo", **files}
        for name, text in files.items():
            self.write(name, text)
        self.git("add", "--", *files)
        self.commit_index()
        self.settle()
        self.touch(*files)

    def edit_racy(self, name):
        """Changes a file of three bytes so that only the time of the index shows it."""
        self.write(name, "bar")
        for place in (self.path(name), self.place()):
            os.utime(place, (THEN, THEN))

    def make_racy(self, *names):
        """Gives files, their stats in the index and the index the same time."""
        self.set_time(THEN, *names)
        self.store(*names)
        os.utime(self.place(), (THEN, THEN))

    def store(self, *names):
        """Stores the stats of files whether they are changed or not. The index gets the time of now."""
        parts, entries = parts_of("sha1", self.read()), []
        for entry in parts.entries:
            stat = stat_of(self.path(entry.path.decode())) if entry.path.decode() in names else entry.stat
            # The mode isn't a part of the stat: with core.symlinks=false a file may be a link's.
            entries.append(replace(entry, stat=(*stat[:MODE], entry.stat[MODE], *stat[MODE + 1 :])))
        self.put(parts.with_entries(entries).file())

    def assert_time(self, is_new, *words):
        """Asserts that a refresh writes the index, with a new time or with the old one."""
        old, nanos, before = self.read(), self.nanos(), time.time_ns()
        self.assertIn(self.refresh(*words).returncode, (0, 1))
        self.assertNotEqual(self.read(), old)
        # The clock of files is a few milliseconds late.
        self.assertTrue(before - 50_000_000 <= self.nanos() <= time.time_ns() if is_new else self.nanos() == nanos)

    def assert_misled(self, *names, **settings):
        """Asserts that git shows other changes if the stats of these files are stored, and leaves the index."""
        old, nanos, shown = self.read(), self.nanos(), self.shown(**settings)
        self.store(*names)
        self.assertNotEqual(self.shown(**settings)[:2], shown[:2])
        self.put(old, nanos=nanos)

    def assert_seen(self, path, lines="", *words, **settings):
        """Asserts that git lists a path before and after a refresh, which prints these lines, and shows the same."""
        shown = self.shown(**settings)
        self.assertIn(path.encode(), self.changed())
        ran, both = self.refresh(*words, **settings), self.both(lines, **settings)
        self.assertEqual((ran.stdout, ran.returncode), (both, int(both != b"")))
        self.assertEqual(self.shown(**settings), shown)
        self.assertIn(path.encode(), self.changed())
        self.assertEqual(self.run_in(["git", "fsck", "--no-dangling"]).returncode, 0)

    def changed(self):
        """Returns the paths of files that are changed, or that have another stat than in the index."""
        return self.git("diff-files", "--name-only", "-z").split(b"\0")[:-1]

    def assert_left(self, why, lines="", paths=(), columns=(), **settings):
        """Asserts that a refresh fails for this reason after these lines, and leaves the index file. `columns` may have the word
        for the worktree's column, without which it fails for another reason."""
        old, stat, shown = self.read(), self.stat(), self.shown(**settings)
        wanted = f"git dirty: the index isn't refreshed, since {why}: use git update-index --refresh\n"
        both = lines.encode() if columns else self.both(lines, **settings)
        for words, printed in (([], both), (["--stats"], both), (["--worktree"], lines.encode()), (["-q"], b"")):
            ran = self.refresh(*{*columns, *words}, *paths, **settings)
            self.assertEqual((ran.returncode, ran.stdout), (2, printed))
            said = ran.stderr.decode().splitlines(True)
            self.assertEqual([line for line in said if " note: " not in line and " entries, " not in line], [wanted])
            self.assertEqual((self.read(), self.stat()), (old, stat))
            self.assertFalse(os.path.exists(self.place() + ".lock"))
        self.assertEqual(self.shown(**settings), shown)

    def assert_left_until_refreshed(self, why, lines="", **settings):
        """Asserts that a refresh fails, and does so no more once git has refreshed the index."""
        self.assert_left(why, lines, **settings)
        shown = self.shown(**settings)
        self.run_in(["git", "update-index", "-q", "--refresh"], **settings)
        self.assertEqual(self.shown(**settings), shown)
        stat, ran = self.stat(), self.refresh(**settings)
        self.assertEqual((ran.returncode, self.stat()), (int(self.both(lines, **settings) != b""), stat), ran.stderr)
