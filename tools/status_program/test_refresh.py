"""Tests of the program's command `refresh`, and of the file that it leaves:

    python3 tools/run_tests.py status_program.test_refresh
"""

import errno
import json
import os
import stat
import subprocess
import tempfile
import unittest
from functools import partial
from pathlib import Path

from support.programs import STATUS_PROGRAM, compile_library, limit_files
from support.repositories import FOO, put_socket, read, write
from support.small_profiles import MALFORMED, MODIFIED, RENAMES, entry, node, put_out, wrong_files

TOUCHED = {"timestamp": [9, 0], "options": {"counts": True}, "index": [entry("a", "foo"), entry("b", "foo")]}
TOUCHED["worktree"] = [node("a", "foo", mtime=[7, 1]), node("b", "bars")]


@unittest.skipUnless(STATUS_PROGRAM, "no built program")
class Refreshed(unittest.TestCase):
    def setUp(self):
        room = tempfile.TemporaryDirectory()
        self.addCleanup(room.cleanup)
        self.room, self.file, self.out = (os.path.join(room.name, name) for name in ("", "profile.json", "out.json"))
        self.write(MODIFIED)

    def write(self, profile):
        write(self.file, json.dumps(profile))

    def run_program(self, *words, **settings):
        ran = subprocess.run([STATUS_PROGRAM, *words], capture_output=True, timeout=60, **settings)
        return ran.returncode, ran.stdout.decode(), ran.stderr.decode()

    def refresh(self, file=None, out=None, secs="10", nsecs="0", **settings):
        return self.run_program("refresh", file or self.file, out or self.out, secs, nsecs, **settings)

    def content(self, name):
        return read(name).decode()

    def left(self):
        return sorted(os.listdir(self.room))

    def test_a_touched_file_is_read_once(self):
        self.write(TOUCHED)
        lines = '0 update "a"\n1 modified -c- "b"\ntotal: to process 2, processed 2, skipped 0, lstat 2, to update 1, '
        self.assertEqual(self.refresh(), (0, lines + "racy 0, read 2, bytes 7\n", ""))
        lines = '1 modified -c- "b"\ntotal: to process 2, processed 2, skipped 0, lstat 2, to update 0, racy 0, '
        self.assertEqual(self.run_program("status", self.out), (0, lines + "read 1, bytes 4\n", ""))
        first = json.loads(self.content(self.out))["index"][0]
        self.assertEqual((first["mtime"], first["size"], first["id"]), ([7, 1], 3, FOO))

    def test_the_profile_itself_can_be_written(self):
        self.assertEqual(self.refresh(out=self.file, secs="4294967295", nsecs="999999999")[0], 0)
        again = json.loads(self.content(self.file))
        self.assertEqual((again["timestamp"], again["worktree"]), ([4294967295, 999999999], MODIFIED["worktree"]))
        self.assertEqual(self.left(), ["profile.json"])

    def test_the_stats_of_a_folder_are_stored(self):
        for name, text, second in (("changed", "bar", 9), ("racy", "foo", 9), ("touched", "foo", 7)):
            path = os.path.join(self.room, name)
            write(path, text)
            os.utime(path, ns=(second * 10**9 + 5, second * 10**9 + 5))
        index = [entry(name, "foo", mtime=[9, 0]) for name in ("changed", "gone", "racy", "touched")]
        options, folder = {"trust_ctime": False, "check_stat": False}, os.path.dirname(self.file)
        self.write({"timestamp": [9, 0], "options": options, "index": index, "folder": folder})
        lines = '0 modified -cs "changed"\n1 removed "gone"\n2 update "racy"\n3 update "touched"\n'
        self.assertEqual(self.refresh(), (0, lines, ""))
        left = [(it["mtime"], it["size"]) for it in json.loads(self.content(self.out))["index"]]
        self.assertEqual(left, [([9, 0], 0), ([9, 0], 3), ([9, 5], 3), ([7, 5], 3)])
        lines = '0 modified -c- "changed"\n1 removed "gone"\n'
        self.assertEqual(self.run_program("status", self.out), (0, lines, ""))

    def test_a_status_that_fails_leaves_the_file(self):
        failing = {"timestamp": [9, 0], "index": [entry("a", "foo"), entry("a//b", "foo")], "worktree": []}
        rows = [(failing, '0 removed "a"\n', "status failed: not normal\n"), (MALFORMED, "", "bad profile: index\n")]
        for profile, lines, said in [*rows, (RENAMES, "", "bad profile: options\n")]:
            self.write(profile)
            write(self.out, "old")
            self.assertEqual(self.refresh(), (1, lines, said))
            self.assertEqual((self.content(self.out), self.left()), ("old", ["out.json", "profile.json"]))

    def assert_unwritten(self, out):
        """Asserts that the status is printed, and that OUT can't be written. No file is added or removed."""
        before = self.left()
        self.assertEqual(self.refresh(out=out), (1, '0 modified -c- "a"\n', f"cannot write {out}\n"))
        self.assertEqual(self.left(), before)

    def test_a_file_that_there_is_no_room_for_is_not_written(self):
        # The system takes as many bytes of the new file as there is room for, and refuses the next write.
        out, line = f"{self.file}.out", '0 modified -c- "a"\n'
        self.assertEqual(self.refresh(), (0, line, ""))
        new = self.content(self.out)
        for old in (None, "old"):
            for room in (0, 1, len(new) - 1, len(new)):
                with self.subTest(old=old, room=room):
                    put_out(self.file, old)
                    ran, is_full = self.refresh(out=out, preexec_fn=limit_files(room)), room < len(new)
                    self.assertEqual(ran, (1, line, f"cannot write {out}\n") if is_full else (0, line, ""))
                    self.assertIsNone(wrong_files(self.file, ran[0], old, new))

    def test_a_file_that_cannot_be_written_is_named(self):
        """In a folder that isn't there, and at what is no regular file, or a link to such a node or to nothing."""
        self.assert_unwritten(os.path.join(self.room, "gone", "out.json"))
        self.assert_unwritten(os.path.join(self.file, "out.json"))
        outer, inner = os.openpty()
        # The output of the program is a pipe here. No other file can be made in a folder of devices.
        targets = ("gone", "out.json", ".", os.ttyname(inner), "/dev/stdout", "/proc/self/fd/1")
        for make in (os.mkdir, os.mkfifo, put_socket, *(partial(os.symlink, target) for target in targets)):
            with self.subTest(make):
                make(self.out)
                before = os.lstat(self.out)
                self.assert_unwritten(self.out)
                self.assertEqual(os.lstat(self.out)[:3], before[:3])
                (os.rmdir if make is os.mkdir else os.remove)(self.out)
        os.close(outer)
        os.close(inner)

    def test_a_link_is_followed(self):
        os.mkdir(os.path.join(self.room, "folder"))
        real = os.path.join(self.room, "folder", "real.json")
        write(real, "old")
        os.symlink("folder/real.json", os.path.join(self.room, "middle"))
        os.symlink("middle", self.out)
        self.assertEqual(self.refresh()[0], 0)
        self.assertEqual(json.loads(self.content(real))["timestamp"], [10, 0])
        self.assertEqual((os.readlink(self.out), os.path.islink(real)), ("middle", False))
        self.assertEqual(os.listdir(os.path.dirname(real)), ["real.json"])
        # The lock is next to the file, like git's.
        lock = os.path.realpath(real) + ".lock"
        write(lock, "another's")
        self.assert_unwritten(self.out)
        self.assertEqual(self.content(lock), "another's")

    def test_permissions_are_kept(self):
        self.addCleanup(os.umask, os.umask(0o027))
        self.assertEqual(self.refresh()[0], 0)
        self.assertEqual(self.mode(), 0o640)
        for mode in (0o600, 0o444, 0o666, 0o755):
            os.chmod(self.out, mode)
            self.assertEqual(self.refresh()[0], 0)
            self.assertEqual(self.mode(), mode)
        # Only the bits for reading, writing and running are kept, as for a file that is written anew.
        os.chmod(self.out, 0o4755)
        self.assertEqual((self.refresh()[0], self.mode()), (0, 0o755))

    def mode(self):
        return stat.S_IMODE(os.stat(self.out).st_mode)

    def test_a_lock_of_another_is_respected(self):
        before, lock = self.content(self.file), self.file + ".lock"
        write(lock, "another's")
        self.assert_unwritten(self.file)
        self.assertEqual((self.content(self.file), self.content(lock)), (before, "another's"))

    def test_an_empty_argument_prints_the_usage(self):
        status, out, said = self.refresh(nsecs="")
        self.assertEqual((status, out, said[:31], self.left()), (2, "", "usage: status_program status FI", ["profile.json"]))


@unittest.skipUnless(STATUS_PROGRAM, "no built program")
class Failing(unittest.TestCase):
    """Lets each call for the written file fail in turn. The file then is unchanged."""

    EMPTY = '{"timestamp":[9,0],"index":[],"worktree":[]}'
    NEW = '{"index":[],"timestamp":[10,0],"worktree":[]}\n'
    # Three calls write it.
    MOST, WRITING = "16", ["write", "write", "write", "fsync", "rename"]
    # A lock is never open to more than the file that it replaces.
    REPLACING = ["open", "fchmod 600", *WRITING]

    @classmethod
    def setUpClass(cls):
        room = tempfile.TemporaryDirectory()
        cls.addClassCleanup(room.cleanup)
        cls.library = compile_library(room.name, Path(__file__).with_name("fail_call.c"))
        cls.file = os.path.join(room.name, "profile.json")
        write(cls.file, cls.EMPTY)

    def put(self, before):
        """Makes a folder. If `before` says so, it has a file that only its owner may read, or a link to one. Returns the
        folder, the path that the program has to write, and the file at that path."""
        room = tempfile.TemporaryDirectory()
        self.addCleanup(room.cleanup)
        folder = os.path.realpath(room.name)
        out = target = os.path.join(folder, "out")
        if before == "link":
            target = os.path.join(folder, "target")
            os.symlink("target", out)
        if before:
            write(target, "old")
            os.chmod(target, 0o600)
        return folder, out, target

    def run_failing(self, folder, out, at, error):
        """Runs the program with this call failing. Returns how it ends, and the calls that came."""
        with tempfile.TemporaryFile() as report:
            number = report.fileno()
            settings = {"LD_PRELOAD": self.library, "FAIL_BELOW": folder, "FAIL_AT": at, "FAIL_ERROR": error}
            settings |= {"FAIL_MOST": self.MOST, "FAIL_REPORT": number}
            how = {"pass_fds": (number,), "env": {name: str(value) for name, value in settings.items()}}
            command = [STATUS_PROGRAM, "refresh", self.file, out, "10", "0"]
            ran = subprocess.run(command, capture_output=True, timeout=60, **how)
            report.seek(0)
            return (ran.returncode, ran.stdout.decode(), ran.stderr.decode()), report.read().decode().splitlines()

    def assert_files(self, folder, out, target, before, is_written):
        """Asserts that the file has its new or old text, and the old permissions. A link is still one. No lock is left."""
        self.assertEqual(os.path.islink(out), before == "link")
        there = {os.path.basename(out), os.path.basename(target)} if before or is_written else set()
        self.assertEqual(set(os.listdir(folder)), there)
        if there:
            self.assertEqual(read(target).decode(), self.NEW if is_written else "old")
        if before:
            self.assertEqual(stat.S_IMODE(os.lstat(target).st_mode), 0o600)

    def assert_each_leaves_the_file(self, before, calls):
        for error in (errno.ENOMEM, errno.ENOSPC):
            for at in range(1, len(calls) + 2):
                with self.subTest(before=before, error=error, at=at):
                    folder, out, target = self.put(before)
                    ended, came = self.run_failing(folder, out, at, error)
                    is_written = at > len(calls)
                    fault = "out of memory\n" if error == errno.ENOMEM else f"cannot write {out}\n"
                    self.assertEqual(ended, (0, "", "") if is_written else (1, "", fault))
                    # The new file that was opened is removed again.
                    self.assertEqual(came, calls[:at] + ["unlink"] * (not is_written and "open" in calls[: at - 1]))
                    self.assert_files(folder, out, target, before, is_written)

    def test_a_call_that_fails_leaves_no_file_where_none_was(self):
        self.assert_each_leaves_the_file(None, ["lstat", "open", *self.WRITING])

    def test_a_call_that_fails_leaves_the_file(self):
        self.assert_each_leaves_the_file("file", ["lstat", *self.REPLACING])

    def test_a_call_that_fails_leaves_the_file_that_a_link_leads_to(self):
        self.assert_each_leaves_the_file("link", ["lstat", "stat", "realpath", *self.REPLACING])
