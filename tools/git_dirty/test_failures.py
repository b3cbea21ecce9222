"""Index files that are cut off, runs without memory, and what is printed without a repository:

    python3 tools/run_tests.py git_dirty.test_failures
"""

import os
import re
import tempfile

from git_dirty.case import Dirty
from support.programs import GIT_DIRTY, TOP, Starved
from support.repositories import SETTINGS, STATUS, as_dirty


class Failures(Dirty):
    def test_an_index_that_is_cut_off(self):
        whole = self.index()
        for size in range(0, len(whole), 7):
            self.put_index(whole[:size])
            self.assert_fails(self.ran(), "index")
        for size in range(0, 40):
            self.write(".git/index", whole[:size])
            self.assert_fails(self.ran(), "index")

    def test_a_required_extension_that_is_not_known_is_quoted(self):
        plain = self.index()
        for name, quoted in ((b"k\n1\xff", r'"k\\n1\\xff"'), (b"abcd", '"abcd"'), (b'z"\0y', r'"z\\"\\(0|x00)y"')):
            with self.subTest(name):
                self.put_index(plain + name + bytes(4))
                self.assertEqual(self.run_in(STATUS).returncode, 128)
                self.assert_fails(self.ran(), "(?i)" + quoted)

    def test_help_has_an_example(self):
        ran = self.ran("--help", folder="/")
        self.assertEqual((ran.returncode, ran.stderr), (0, b""))
        for word in ("git dirty", "-C", "-z", "-q", "--refresh", "--staged", "--worktree", "--threads", "--stats", "--version", "git LFS"):
            self.assertIn(word, ran.stdout.decode())
        self.assertEqual(self.ran("-h", folder="/").stdout, ran.stdout)

    def test_the_version_is_the_day_of_the_changelog(self):
        day = re.search(r"^## ([-\d]+)", (TOP / "CHANGELOG.md").read_text(encoding="utf-8"), re.M)[1]
        for word in ("-V", "--version"):
            ran = self.ran(word, folder="/")
            self.assertEqual((ran.returncode, ran.stdout, ran.stderr), (0, f"git-dirty {day}, unreleased\n".encode(), b""))


class Memory(Dirty):
    """Runs the program over a small repository with one allocation refused, and with all from one on."""

    def setUp(self):
        super().setUp()
        for name in ("c", "e é", "x/y/z"):
            self.write(name, "foo")
        os.symlink("foo", self.path("l"))
        self.make_module("m")
        self.git("add", ".")
        self.put_entries(*(("100644", self.blob(), stage, "conflict") for stage in (1, 2, 3)))
        self.commit(folder="m")
        for name in ("a", "e é"):
            self.write(name, "bars")
        os.remove(self.path("d/b"))
        for name in (".gitignore", "u", "n/o/u", "n/a.o", "x/a.o"):
            self.write(name, "*.o")
        self.make_module("r")

    def has_begun(self, calm, out):
        """Returns whether an output has the beginning of the calm run's lines of the worktree, and only lines of its index."""
        zero = ["-z"] * (b"\0" in calm)
        # Untracked files are listed after the others, also if the comparison of these failed.
        parts = [re.match(rb"(?s)(.*?)((?:(?:\?\?|!!) .*)?)\Z", it).groups() for it in (calm, out)]
        (calm, all_others), (out, others) = parts
        (whole, part), staged = ([as_dirty(it, *zero, columns) for it in (calm, out)] for columns in ("--worktree", "--staged"))
        lines, found = ({*re.split(b"[\0\n]", it)} for it in staged)
        return whole.startswith(part) and found <= lines and all_others.startswith(others)

    def wrong(self, calm, ended, letters, on):
        """Returns what is wrong with an end, or None."""
        if (ended.status, ended.out, ended.fault) == calm:
            return None
        if not letters:
            return "another end, and nothing was refused"
        if ended.status != 2:
            return ended.end()
        if not self.has_begun(calm[1], ended.out) or ended.out[-1:] not in (b"", b"\n", b"\0"):
            return "output that is no beginning of the lines"
        # The first word is that of the parser of the arguments while these are read.
        if re.fullmatch(rb"(git dirty|error): (?i:out of memory)\n", ended.fault) or (on and ended.fault == b""):
            return None
        is_thread = re.fullmatch(rb"git dirty: .*thread.*\n", ended.fault)
        return None if is_thread and set(letters) & set("tc") else "another line on standard error"

    def sweep(self, words, on):
        """Returns how many calls there are, and the wrong ends."""
        found, at = [], 0
        with tempfile.TemporaryDirectory() as room, Starved(GIT_DIRTY, room) as starved:
            calm = starved.runner.run(words, SETTINGS)
            calm = (calm.status, calm.out, calm.fault)
            self.assertEqual((calm[0], calm[2]), (1, b""))
            while True:
                at += 1
                ended, letters = starved.run(words, at, on, **SETTINGS)
                if wrong := self.wrong(calm, ended, letters, on):
                    found.append(f"call {at}: {wrong}: {ended.text()}")
                if not letters:
                    return at - 1, found

    def assert_swept(self, *words):
        for on in (False, True):
            calls, found = self.sweep(["-C", self.top, *words], on)
            self.assertEqual(found[:5], [], f"{len(found)} of {calls} are wrong, on {on}")
            self.assertGreater(calls, 15)

    def test_each_allocation_is_refused(self):
        for words in (["--threads", "1"], ["--threads", "2"], ["--threads", "1", "-z", "a", "d", "m"], ["--staged"], ["--worktree", "--threads", "1"]):
            self.assert_swept(*words)

    def test_each_allocation_of_a_run_with_untracked_files_is_refused(self):
        for words in (["-u", "--threads", "1"], ["-uall", "--ignored", "--threads", "2"], ["-u", "--ignored", "-z", "n/o/u", "a"]):
            self.assert_swept(*words)

    def test_one_thread_starts_no_other(self):
        for number in range(120):
            self.write(f"{number // 2}/{number}", "foo")
        self.git("add", ".")
        with tempfile.TemporaryDirectory() as room, Starved(GIT_DIRTY, room) as starved:
            letters = [starved.run(["-C", self.top, "--threads", limit], **SETTINGS)[1] for limit in "124"]
        self.assertEqual(["t" in found for found in letters], [False, True, True])
