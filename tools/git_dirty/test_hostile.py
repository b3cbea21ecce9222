"""Repositories that may be hostile: paths that lead out of the worktree, and other nodes in place of each file that git_dirty may
open. It ends soon, takes little memory, opens no file elsewhere, and prints git's lines or fails with words:

    python3 tools/run_tests.py git_dirty.test_hostile
"""

import contextlib
import os
import re
import resource
import shutil
import subprocess
import tempfile
import time
from dataclasses import replace
from pathlib import Path

from git_dirty.case import CRLF, LF, Dirty
from stress.compare_dirty import NOTES
from support.programs import GIT_DIRTY, Ended
from support.repositories import SETTINGS, STATUS, STATUS_OF_HEADS, as_dirty, read, write

# What a run may take, and the size of a file that is too large to be read whole.
SECONDS, MEMORY, LARGE = 5, 200 << 20, 2 << 30


def peak_of(process):
    """Returns the most memory that a running process had so far."""
    found = re.search(r"^VmHWM:\s*(\d+)", Path(f"/proc/{process}/status").read_text(encoding="utf-8"), re.M)
    return int(found[1]) << 10 if found else 0


def put_large(place):
    write(place, "")
    os.truncate(place, LARGE)


class Watched(Dirty):
    """Runs the program with a library that notes which files it opens, and with limits."""

    SOURCE = Path(__file__).with_name("log_opens.c")
    # Differences from git, which are rows of rows.txt: a pipe in place of a tracked file, and a link in place of a `.git`.
    ROWS = {("d/b", "a named pipe"), ("t/.git", "a link out")}
    # The kinds of nodes that replace a file.
    KINDS = ["a named pipe", "a link to /dev/zero", "a link out", "a folder", "2 GiB", "unreadable", "gone"]

    def watched(self, *words, **settings):
        """Returns how a run ended, and the files that it opened, by their paths without links."""
        log = self.put_user_file("log", b"")
        settings = {**os.environ, **SETTINGS, **settings, "LD_PRELOAD": self.library, "OPENS_LOG": log}
        if "XDG_CONFIG_HOME" in settings:
            del settings["GIT_CONFIG_GLOBAL"]
        with tempfile.TemporaryFile() as out, tempfile.TemporaryFile() as fault:
            child = subprocess.Popen([GIT_DIRTY, *words], cwd=self.top, env=settings, stdout=out, stderr=fault)
            end, is_killed = time.monotonic() + SECONDS, False
            while (found := os.wait4(child.pid, os.WNOHANG))[0] == 0:
                if not is_killed and (time.monotonic() > end or peak_of(child.pid) > MEMORY):
                    child.kill()
                    is_killed = True
                time.sleep(0.002)
            child.returncode = os.waitstatus_to_exitcode(found[1])
            for file in (out, fault):
                file.seek(0)
            ended = Ended(child.returncode, out.read(), fault.read())
        self.assertFalse(is_killed, f"it hangs, or takes too much memory: {ended.text()}")
        return ended, {os.path.realpath(os.path.join(self.top, line)) for line in os.fsdecode(read(log)).splitlines()}

    def assert_opens_inside(self, opened, *others):
        """Asserts that of the test's folder only these files and what is in the worktree were opened."""
        outside = {place for place in opened if place.startswith((self.room + "/", "/dev/zero"))}
        outside = {place for place in outside if not place.startswith(self.path("")) and place not in others}
        self.assertEqual(outside, set())

    @contextlib.contextmanager
    def replaced(self, place, kind):
        """Puts a node of this kind in place of what is at a path, for a while."""
        if kind == "unreadable":
            mode = os.stat(place).st_mode
            os.chmod(place, 0)
            try:
                yield
            finally:
                os.chmod(place, mode)
            return
        content, kept = read(place) if os.path.isfile(place) else b"", os.path.join(self.room, "kept")
        if os.path.lexists(place):
            os.rename(place, kept)
        out = self.put_user_file("out/file", content)
        make = {"a named pipe": os.mkfifo, "a folder": os.mkdir, "2 GiB": put_large}
        make |= {"a link to /dev/zero": lambda place: os.symlink("/dev/zero", place)}
        make |= {"a link out": lambda place: os.symlink(out, place)}
        make.get(kind, lambda place: None)(place)
        try:
            yield
        finally:
            if kind == "a folder":
                os.rmdir(place)
            elif kind != "gone":
                os.remove(place)
            if os.path.lexists(kept):
                os.rename(kept, place)


class Outside(Watched):
    """Entries whose paths lead out of the worktree."""

    def setUp(self):
        super().setUp()
        for name in ("f", "d/b", ".gitattributes", "d/.gitattributes"):
            self.put_user_file(f"outside/{name}", "* text\n")

    def assert_ends_inside(self, lines):
        for words in ([], ["-q"], ["--refresh"], ["--threads", "4"]):
            ended, opened = self.watched(*words)
            self.assertEqual((ended.status, ended.out, ended.fault), (1, b"" if "-q" in words else lines, b""))
            self.assert_opens_inside(opened)

    def test_folders_that_are_links_are_not_searched(self):
        os.symlink("../outside", self.path("link"))
        self.put_entries(*(("100644", self.blob(), 0, name) for name in ("link/f", "link/d/b")))
        self.assert_ends_inside(self.git_lines())
        shutil.rmtree(self.path("d"))
        os.symlink("../outside/d", self.path("d"))
        self.assertEqual(self.git_lines(), b" D d/b\nAD link/d/b\nAD link/f\n")
        self.assert_ends_inside(b" D d/b\nAD link/d/b\nAD link/f\n")

    def test_paths_that_leave_the_worktree_are_refused(self):
        """Git's commands don't write such an index."""
        parts = self.index_parts()
        for path in ("../outside/f", f"{self.room}/outside/f", "d/../../outside/f", "d/../../outside/d/b", "./../outside/f"):
            with self.subTest(path):
                name = os.fsencode(path)
                entries = [*parts.entries, replace(parts.entries[0], path=name, flags=len(name))]
                self.put_index(parts.with_entries(sorted(entries, key=lambda entry: entry.path)).content())
                for words in ([], ["-q"], ["--refresh"]):
                    ended, opened = self.watched(*words)
                    self.assertEqual((ended.status, ended.fault.count(b"\n")), (2, 1), ended.text())
                    self.assert_opens_inside(opened)


class Modules(Watched):
    def test_other_nodes_are_not_opened_if_there_is_no_submodule(self):
        """With a submodule they are rows of rows.txt."""
        self.write(".gitmodules", '[submodule "m"]\n\tpath = m\n\tignore = all\n')
        self.write("a", "bars")
        for kind in self.KINDS:
            with self.subTest(kind), self.replaced(self.path(".gitmodules"), kind):
                self.assertEqual(as_dirty(self.run_in(STATUS).stdout), b" M a\n")
                (ended, opened), (quiet, others) = self.watched(), self.watched("-q")
                self.assertEqual((ended.status, ended.out, ended.fault), (1, b" M a\n", b""), ended.text())
                self.assertEqual((quiet.status, quiet.out, quiet.fault), (1, b"", b""))
                self.assert_opens_inside(opened | others)
                self.assertEqual([place for place in opened | others if "modules" in place], [])


# What git may take, so that it ends where it would read zeros without an end.
GITS_MEMORY = 1 << 30


def limit_memory():
    resource.setrlimit(resource.RLIMIT_AS, (GITS_MEMORY, GITS_MEMORY))


class ReplacedFiles(Watched):
    # The places of files, from the worktree's top. Branches of submodules are loose in `s` and packed in `p`, and the git
    # folder of `t` is elsewhere.
    FILES = [".git/index", ".git/config", ".git/config.worktree", ".git/HEAD", ".git/commondir", ".git/info/attributes"]
    FILES += [".git/refs/heads/master", ".git/packed-refs", ".git/objects/info/alternates"]
    FILES += [".gitattributes", "e/.gitattributes", ".gitmodules", "d/b", "s/.git", "s/.git/HEAD", "s/.git/config"]
    FILES += ["s/.git/refs/heads/master", "s/.git/commondir", "p/.git/packed-refs", "t/.git", ".git/modules/t/HEAD"]
    FILES += [".git/modules/t/config", "../attributes", "../home/.gitconfig", "../xdg/git/config", "../xdg/git/attributes"]
    # Those of a linked worktree.
    LINKED = [".git", *(f"../top/.git/worktrees/linked/{name}" for name in ("HEAD", "commondir", "gitdir", "index"))]
    LINKED += ["../top/.git/config", "../top/.git/info/attributes", "../top/.git/HEAD"]
    # Files at which git doesn't wait for a pipe's writer.
    WITHOUT_WAIT = {".gitmodules", "s/.git", "t/.git", ".git", "../xdg/git/attributes", LINKED[3], "../top/.git/HEAD"}
    # Links to which git doesn't follow.
    UNFOLLOWED = re.compile(r"[.]gitattributes|[.]gitmodules|HEAD|d/b")
    # Files without which the lines are those of git, if git doesn't end.
    PASSED = re.compile(r"attributes\Z|[.]gitmodules\Z")

    def setUp(self):
        super().setUp()
        self.add("é")
        self.put_entries(*(("100644", self.blob(LF), 0, name) for name in ("e/x", "x", "y", "z")))
        for name in ("e/x", "x", "y", "z"):
            self.write(name, CRLF)
        self.make_module("s", "p", "t")
        self.git("add", "s", "p", "t")
        for name in "spt":
            self.commit(folder=name)
        self.git("-C", "p", "pack-refs", "--all")
        os.makedirs(self.path(".git/modules"))
        os.rename(self.path("t/.git"), self.path(".git/modules/t"))
        self.write("t/.git", "gitdir: ../.git/modules/t\n")
        # By each of these files a line is another one, or isn't printed.
        self.write(".gitattributes", "/x text\n")
        self.write("e/.gitattributes", "x text\n")
        self.write(".git/info/attributes", "y text\n")
        self.write(".gitmodules", '[submodule "s"]\n\tpath = s\n\tignore = none\n')
        self.put_config("[extensions]\n\tworktreeConfig = true\n")
        self.write(".git/config.worktree", "[core]\n\tfileMode = false\n")
        self.put_user_file("home/.gitconfig", "[core]\n\tquotePath = false\n")
        self.put_user_file("xdg/git/config", f"[core]\n\tattributesFile = {self.put_user_file('attributes', 'z text')}\n")
        self.put_user_file("xdg/git/attributes", "z -text\n")
        self.write("é", "bars")
        os.chmod(self.path("a"), 0o755)
        self.settings = {"HOME": os.path.join(self.room, "home"), "XDG_CONFIG_HOME": os.path.join(self.room, "xdg")}

    def answer(self):
        """Returns git's lines, or why it fails. None if it doesn't end, or reads without an end."""
        command = ["env", "-u", "GIT_CONFIG_GLOBAL", *STATUS_OF_HEADS]
        settings = {**os.environ, **SETTINGS, **self.settings}
        ran = subprocess.run(command, cwd=self.top, env=settings, capture_output=True, timeout=60, preexec_fn=limit_memory)
        if ran.returncode == 0:
            return as_dirty(ran.stdout)
        return None if b"Out of memory" in ran.stderr else ran.stderr.decode(errors="replace")

    def sweep(self, names):
        for name in names:
            place, gone = os.path.normpath(self.path(name)), None
            for kind in reversed(self.KINDS):
                if kind in ("unreadable", "gone") and not os.path.exists(place) or (name, kind) in self.ROWS:
                    continue
                with self.subTest(name=name, kind=kind), self.replaced(place, kind):
                    gits = None if kind == "a named pipe" and name not in self.WITHOUT_WAIT else self.answer()
                    gone = gits if kind == "gone" else gone
                    self.assert_is(gits if gits is not None or not self.PASSED.search(name) else gone, name, kind)

    def assert_is(self, gits, name, kind):
        """Asserts that the program prints git's lines. If git fails or doesn't end, the program has to fail. It may also fail
        for a tracked file, a submodule or a file of HEAD's commit that it can't read."""
        ended, opened = self.watched(**self.settings)
        quiet, others = self.watched("-q", **self.settings)
        *notes, last = [b"", *ended.fault.splitlines(True)]
        if ended.status == 2:
            self.assertRegex(last, rb"\Agit dirty: (?!note: )[^\n]+\n\Z")
            if isinstance(gits, bytes):
                self.assertNotIn(kind, ("gone", "a link out"))
                self.assertRegex(last, rb"\Agit dirty: (can't read (\"d/b\"|the submodule \"[spt]\"|HEAD's commit): |unable to .*(master|refs)')")
        else:
            self.assertEqual((ended.status, ended.out), (int(gits != b""), gits), ended.text())
            self.assertEqual((quiet.status, quiet.out, quiet.fault), (ended.status, b"", b""))
            notes.append(last)
        self.assertRegex(b"".join(notes), NOTES)
        self.assertIn(quiet.status, (0, 1, 2))
        followed = [] if self.UNFOLLOWED.search(name) else [os.path.join(self.room, "out/file")]
        documented = ("attributes", "home/.gitconfig", "xdg/git/config", "xdg/git/attributes")
        main = {place for place in opened | others if place.startswith(os.path.join(self.room, "top/.git/"))}
        documented = [os.path.join(self.room, place) for place in documented]
        self.assert_opens_inside((opened | others) - main, *documented, *followed)

    def test_a_repository_with_submodules(self):
        lines = self.answer()
        self.assertEqual(lines.decode(), "A  e/x\nAM p\nAM s\nAM t\nA  x\nA  y\nA  z\n M é\n")
        self.sweep(self.FILES)
        self.assertEqual(self.answer(), lines)

    def test_a_linked_worktree(self):
        self.commit()
        self.git("worktree", "add", "-q", "--detach", "../linked")
        self.top = os.path.join(self.room, "linked")
        for name in ("a", "y"):
            self.write(name, CRLF)
        self.sweep(self.LINKED)
