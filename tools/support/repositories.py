"""Git repositories of tests and scripts: their files, git's commands and its status.

Settings of the user, or of a hook that runs the tests, must not change what git does, so they leave the environment here.
"""

import ast
import hashlib
import os
import socket
import subprocess
import tempfile
import time
import unittest

from support.programs import compile_library

# The second around which files were changed.
THEN = 1_600_000_000
FOO = "19102815663d23f8b75a47e7a01965dcdc96468c"
# The columns of conflicts.
CONFLICTS = {b"DD", b"AU", b"UD", b"UA", b"DU", b"AA", b"UU"}
# The letters of untracked files, and of ignored ones.
UNTRACKED, IGNORED = b"??", b"!!"
# The words for both columns, and for each alone.
COLUMNS = ([], ["--worktree"], ["--staged"])
SETTINGS = {"GIT_CONFIG_GLOBAL": os.devnull, "GIT_CONFIG_NOSYSTEM": "1", "LC_ALL": "C", "HOME": "/nonexistent"}
for name in [name for name in os.environ if name.startswith("GIT_") and name != "GIT_DIRTY" or name == "XDG_CONFIG_HOME"]:
    del os.environ[name]
os.environ.update(GIT_CONFIG_GLOBAL=os.devnull, GIT_CONFIG_NOSYSTEM="1")
# Git starts the program of this folder in place of git-lfs.
os.environ["PATH"] = os.pathsep.join([os.path.join(os.path.dirname(os.path.abspath(__file__)), "bin"), os.environ["PATH"]])
# Git's status, and with the words by which it compares submodules as the program does: they are stronger than settings.
STATUS = ["git", "--no-optional-locks", "status", "--porcelain", "-uno", "--no-renames"]
STATUS_OF_HEADS = [*STATUS, "--ignore-submodules=dirty"]


def status_words(top, *words):
    """Returns the arguments of git's status that a program's lines are compared with."""
    return ["--literal-pathspecs", "-C", top, "-c", "core.preloadIndex=false", *STATUS_OF_HEADS[1:], *words]


def as_dirty(printed, *words):
    """Returns git's lines as the program prints them with these words: --staged and --worktree blank the other column of tracked
    files, except in conflicts, and lines without a letter are left out."""
    end, found = b"\0" if "-z" in words else b"\n", []
    for line in printed.split(end)[:-1]:
        front = line[:1] + b" " if "--staged" in words else b" " + line[1:2] if "--worktree" in words else line[:2]
        front = line[:2] if line[:2] in CONFLICTS | {UNTRACKED, IGNORED} else front
        if front != b"  ":
            found.append(front + line[2:] + end)
    return b"".join(found)


def status_of(lines):
    """Returns the program's exit status after these lines. Those of ignored files don't count."""
    end = b"\0" if b"\0" in lines else b"\n"
    return int(any(line[:2] != IGNORED for line in lines.split(end)[:-1]))


def merged(staged, lines):
    """Returns these lines of the second column with the letters of the first one. Conflicts are those of the second."""
    found = {line[3:]: line[:2] for line in staged.splitlines(True) if line[:2] not in CONFLICTS}
    both = [line for line in lines.splitlines(True) if line[:2] in CONFLICTS]
    for line in {*lines.splitlines(True)}.difference(both):
        # A blank is less than a letter.
        found[line[3:]] = bytes(map(max, line[:2], found.get(line[3:], b"  ")))
    both = [front + b" " + path for path, front in found.items()] + both
    return b"".join(sorted(both, key=lambda it: ast.literal_eval(f"b{it[3:].decode()}") if it[3:4] == b'"' else it[3:-1]))


def wait_for_later_second():
    """Waits until a file that is changed gets a later second than all that were changed before."""
    # The system's clock of files is a few milliseconds late.
    time.sleep(1.02 - time.time() % 1)


def id_of(kind, content, name="blob"):
    """Returns git's id of an object with this content, a text or bytes, by the kind of ids."""
    content = content.encode() if isinstance(content, str) else content
    return hashlib.new(kind, f"{name} {len(content)}\0".encode() + content).hexdigest()


def make_git_folder(place, head):
    """Makes what git takes for a repository with this HEAD."""
    os.makedirs(os.path.join(place, "objects"))
    os.makedirs(os.path.join(place, "refs/heads"))
    write(os.path.join(place, "HEAD"), head + "\n")


def read(place):
    """Returns the bytes of a file."""
    with open(place, "rb") as file:
        return file.read()


def write(place, content):
    """Writes a text or bytes to a file, and makes the folders above it."""
    os.makedirs(os.path.dirname(place), exist_ok=True)
    with open(place, "wb") as file:
        file.write(content.encode() if isinstance(content, str) else content)


def put_socket(place):
    """Makes a socket. The path of one may only be short, so it is made in its folder."""
    folder = os.open(os.path.dirname(place), os.O_RDONLY)
    try:
        with socket.socket(socket.AF_UNIX) as it:
            name = f"s{os.getpid()}"
            it.bind(f"/proc/self/fd/{folder}/{name}")
            os.rename(name, place, src_dir_fd=folder)
    finally:
        os.close(folder)


class Case(unittest.TestCase):
    """A test with a repository of its own, at `top`."""

    # The program that is tested, a C file that is compiled to the class's `library`, if there is one, and the folder that the
    # room is in, or None for the system's folder of temporary files.
    PROGRAM = SOURCE = PLACE = None

    @classmethod
    def setUpClass(cls):
        super().setUpClass()
        if not cls.PROGRAM:
            raise unittest.SkipTest("no built program")
        if cls.SOURCE:
            room = tempfile.TemporaryDirectory()
            cls.addClassCleanup(room.cleanup)
            cls.library = compile_library(room.name, cls.SOURCE)

    def setUp(self):
        room = tempfile.TemporaryDirectory(dir=self.PLACE)
        self.addCleanup(room.cleanup)
        self.room = os.path.realpath(room.name)
        self.make("top")

    def make(self, name, kind="sha1"):
        """Makes a repository, which is at `top` from now on."""
        self.top = os.path.join(self.room, name)
        os.mkdir(self.top)
        self.git("init", "-q", f"--object-format={kind}")

    def git(self, *words, stdin=None):
        named = ["-c", "user.name=n", "-c", "user.email=e", "-c", "core.hooksPath=/dev/null"]
        return subprocess.run(["git", "-C", self.top, *named, *words], input=stdin, capture_output=True, check=True).stdout

    def commit(self, *words, folder="."):
        """Commits what is staged, or nothing, in a folder."""
        self.git("-C", folder, "commit", "-q", "--allow-empty", "-m", "a commit", *words)

    def make_module(self, *names):
        """Makes repositories with a commit."""
        for name in names:
            self.git("init", "-q", name)
            self.commit(folder=name)

    def path(self, name):
        return os.path.join(self.top, name)

    def write(self, name, content):
        write(self.path(name), content)

    def put_entries(self, *entries):
        """Puts entries into the index: a mode, an id, a stage and a path each. Mode 0 removes a path."""
        lines = "".join(f"{mode} {name} {stage}\t{path}\0" for mode, name, stage, path in entries)
        self.git("update-index", "-z", "--index-info", stdin=os.fsencode(lines))
