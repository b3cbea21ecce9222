"""What the tests of git_dirty share: runs of git and of the program over one repository, and comparisons of their ends."""

import os
import shutil
import subprocess
import unittest.mock

from support.index_bytes import KINDS, checksum_of, parts_of
from support.programs import GIT_DIRTY
from support.repositories import COLUMNS, SETTINGS, STATUS_OF_HEADS, THEN, Case, as_dirty, read, status_of, write

PLAIN = "[core]\n\trepositoryformatversion = 0\n"
LF, CRLF = b"1\n2\n", b"1\r\n2\r\n"


class Dirty(Case):
    """A test with a repository of its own, and two files that are committed."""

    PROGRAM = GIT_DIRTY

    def setUp(self):
        super().setUp()
        self.add("a", "d/b")

    def add(self, *names):
        """Makes files, stages them, and commits what is staged."""
        for name in names:
            self.write(name, "foo")
        self.git("add", "--", *names)
        self.commit_index()

    def commit_index(self):
        """Commits what is staged, and leaves the index file."""
        copy = shutil.copy(self.path(".git/index"), os.path.join(self.room, "committed"))
        with unittest.mock.patch.dict(os.environ, GIT_INDEX_FILE=copy):
            self.commit()

    def set_time(self, second, *names):
        """Gives files and links this time."""
        for name in names:
            os.utime(self.path(name), (second, second), follow_symlinks=False)

    def run_in(self, command, folder=None, timeout=60, **settings):
        """Runs a command in a folder, by default the top, with these settings added to its environment, or removed if None."""
        environment = {name: value for name, value in {**os.environ, **SETTINGS, **settings}.items() if value is not None}
        return subprocess.run(command, cwd=folder or self.top, env=environment, capture_output=True, timeout=timeout)

    def ran(self, *words, folder=None, **settings):
        return self.run_in([self.PROGRAM, *words], folder, **settings)

    def git_lines(self, *words, folder=None, **settings):
        """Returns git's lines as the program prints them with these words."""
        ran = self.run_in([*STATUS_OF_HEADS, *(word for word in words if [word] not in COLUMNS)], folder, **settings)
        self.assertEqual((ran.returncode, ran.stderr), (0, b""))
        return as_dirty(ran.stdout, *words)

    def assert_ends(self, ran, lines):
        """Asserts that the program printed these lines and nothing else, with their exit status."""
        self.assertEqual((ran.returncode, ran.stdout, ran.stderr), (status_of(lines), lines, b""))

    def assert_as_git(self, lines, *words, **settings):
        """Asserts that git and the program print these lines, and the program those of each column."""
        self.assertEqual(self.git_lines(*words, **settings).decode(), lines)
        for columns in COLUMNS:
            self.assert_ends(self.ran(*columns, *words, **settings), self.git_lines(*columns, *words, **settings))

    def assert_fails(self, ran, words, lines=b""):
        """Asserts that the program failed with one line, which matches these words, after these lines."""
        said = ran.stderr.decode()
        self.assertEqual((ran.returncode, ran.stdout, said.count("\n"), said[:11]), (2, lines, 1, "git dirty: "), said)
        self.assertRegex(said, words)

    def put_index(self, content, kind="sha1"):
        """Writes an index file with a right checksum."""
        self.write(".git/index", content + checksum_of(content, kind))

    def index(self, kind="sha1"):
        """Returns the bytes of the index file without its checksum."""
        return read(self.path(".git/index"))[: -KINDS[kind]]

    def index_parts(self):
        return parts_of("sha1", read(self.path(".git/index")))

    def put_config(self, text, front=PLAIN):
        self.write(".git/config", front + text)

    def put_user_file(self, name, content):
        """Writes a file below the test's folder. Returns its path."""
        write(os.path.join(self.room, name), content)
        return os.path.join(self.room, name)

    def blob(self, content=b"foo"):
        """Stores a blob, and returns its id."""
        return self.git("hash-object", "-w", "--stdin", stdin=content).decode().strip()

    def settle(self):
        """Gives files and index times long ago, so that no entry is racy, and stores the files' stats."""
        self.set_time(THEN, *self.git("ls-files", "-z").decode().split("\0")[:-1])
        self.git("update-index", "--refresh")
