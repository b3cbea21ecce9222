"""Untracked files in large and deep trees, in folders that can't be read, and in folders that others change meanwhile:

    python3 tools/run_tests.py git_dirty.test_untracked

test_untracked_rows has those of small repositories, and stress.test_drawn drawn ones.
"""

import os
import random
import re
import subprocess
import threading

from git_dirty.case import Dirty
from support.repositories import make_git_folder, write

# How many names a folder has, how many folders are within each other, and how long their names are if git can't call for a path
# in the last ones, which has more than 4,095 bytes.
NAMES, DEEP, TOO_DEEP, LONG, LONG_NAME = 100_000, 1000, 1100, 50, "n" * 100
# The paths that change in a run, and how.
CHANGING = ["n", "m", "d/n", "n/o", "n/o/p", "n/.gitignore", "u"]
CHANGES = ["file", "file", "folder", "folder", "link", "repository", "move", "move", "file away", "all away"]
FORMS = (["-u"], ["-uall"], ["-u", "--ignored"], ["-uall", "--ignored"])
# What a run prints to standard error that ends with status 2, and otherwise.
FAULT, NOTES = rb"\A(git dirty: note: [^\n]*\n)*git dirty: [^\n]+\n\Z", rb"\A(git dirty: note: [^\n]*\n)*\Z"


class Untracked(Dirty):
    def assert_lists(self, *words):
        """Asserts that the program prints git's lines. Returns them."""
        git = ["-unormal" if word == "-u" else word for word in words]
        lines = self.git_lines(*git)
        ran = self.ran(*words)
        self.assertTrue(ran.stdout == lines, f"{words}: {ran.stdout[:200]}, git {lines[:200]}")
        self.assert_ends(ran, lines)
        return lines

    def exclude(self, text):
        self.write(".git/info/exclude", text)

    # Large trees.

    def test_nothing_is_listed_in_a_clean_repository(self):
        self.exclude("*.o\n")
        self.write("a.o", "foo")
        os.makedirs(self.path("e/f"))
        for words in (["-u"], ["-uall"]):
            self.assertEqual(self.assert_lists(*words), b"")

    def test_a_folder_of_many_names(self):
        os.mkdir(self.path("n"))
        for number in range(NAMES):
            os.close(os.open(self.path(f"n/{number}"), os.O_CREAT | os.O_WRONLY))
        self.exclude("*7\n")
        self.assertEqual(self.assert_lists("-u"), b"?? n/\n")
        self.assertEqual(self.assert_lists("-uall").count(b"\n"), NAMES * 9 // 10)
        self.assertEqual(self.assert_lists("-u", "--ignored").count(b"\n"), 1 + NAMES // 10)
        # Then most of them are tracked.
        self.git("add", "--", *(f"n/{number}" for number in range(0, NAMES, NAMES // 4) if number % 10 != 7))
        self.assertEqual(self.assert_lists("-uall", "--ignored", "--worktree").count(b"\n"), NAMES - 4)

    def make_deep(self, count, name="n"):
        """Makes so many folders of this name within each other, with a file in the last one."""
        self.addCleanup(subprocess.run, ["rm", "-rf", self.path(name)], check=True)
        folder = os.open(self.top, os.O_RDONLY)
        for _ in range(count):
            os.mkdir(name, dir_fd=folder)
            inner = os.open(name, os.O_RDONLY, dir_fd=folder)
            os.close(folder)
            folder = inner
        os.close(os.open("f", os.O_CREAT | os.O_WRONLY, dir_fd=folder))
        os.close(folder)

    def test_folders_within_each_other(self):
        self.make_deep(DEEP)
        self.assertEqual(self.assert_lists("-u"), b"?? n/\n")
        self.assertEqual(self.assert_lists("-uall"), b"?? " + b"n/" * DEEP + b"f\n")
        self.exclude("n\n")
        self.assertEqual(self.assert_lists("-u", "--ignored"), b"!! n/\n")
        self.assertEqual(self.assert_lists("-uall", "--ignored"), b"!! " + b"n/" * DEEP + b"f\n")

    def assert_all_fail(self, name, words):
        """Asserts that each form fails with these words, and none if the folder of this name is ignored."""
        for form in FORMS:
            with self.subTest(form):
                self.assert_fails(self.ran(*form), words)
        self.exclude(f"{name}\n")
        for form in ([], ["-uno"], ["-u"], ["-uall"]):
            self.assert_ends(self.ran(*form), b"")

    def test_too_many_folders_within_each_other_are_a_failure(self):
        # Git lists them.
        self.make_deep(TOO_DEEP)
        self.assert_all_fail("n", "more than 1,024 folders")

    def test_a_folder_whose_path_is_too_long_is_a_failure(self):
        # Git passes over it with a warning.
        self.make_deep(LONG, LONG_NAME)
        self.assert_all_fail(LONG_NAME, f"{LONG_NAME}/{LONG_NAME}")

    # Folders that can't be read.

    def test_an_unreadable_folder_is_a_failure(self):
        os.mkdir(self.path("closed"))
        self.addCleanup(os.chmod, self.path("closed"), 0o700)
        os.chmod(self.path("closed"), 0)
        for words in (*FORMS, ["-u", "closed"], ["-uall", "--", "a", "closed"]):
            with self.subTest(words):
                self.assert_fails(self.ran(*words), r"\Wclosed\W.*permission denied")
                self.assertEqual(self.ran("-q", *words).returncode, 2)
        for words in ([], ["-uno"], ["-u", "a"], ["-uall", "d"]):
            self.assert_ends(self.ran(*words), b"")
        self.exclude("closed\n")
        for words in (["-u"], ["-uall"]):
            self.assert_ends(self.ran(*words), b"")

    def test_an_unreadable_folder_of_tracked_files_is_a_failure(self):
        self.addCleanup(os.chmod, self.path("d"), 0o700)
        # The tracked file can be looked up, and the folder can't be listed.
        os.chmod(self.path("d"), 0o300)
        self.assert_ends(self.ran(), b"")
        for words in FORMS:
            self.assert_fails(self.ran(*words), r"\Wd\W.*permission denied")

    def test_a_folder_that_can_be_listed_alone_is_listed_or_a_failure(self):
        self.write("closed/u", "foo")
        self.addCleanup(os.chmod, self.path("closed"), 0o700)
        os.chmod(self.path("closed"), 0o400)
        for words in FORMS:
            ran = self.ran(*words)
            if ran.returncode == 2:
                self.assert_fails(ran, r"\Wclosed\W")
            else:
                self.assert_ends(ran, b"?? closed/\n" if "-u" in words else b"?? closed/u\n")

    def test_rules_that_cannot_be_read_are_passed_over_or_a_failure(self):
        self.write("u", "foo")
        self.put_config("\texcludesFile = mine\n")
        for name in (".gitignore", "mine", ".git/info/exclude"):
            with self.subTest(name):
                self.write(name, "u\n")
                os.chmod(self.path(name), 0)
                ran, lines = self.ran("-u", "u"), b"?? u\n"
                os.remove(self.path(name))
                if ran.returncode == 2:
                    self.assert_fails(ran, re.escape(name))
                else:
                    self.assertEqual((ran.returncode, ran.stdout), (1, lines))
                    self.assertRegex(ran.stderr, NOTES)

    # Folders that change.

    def disturb(self, ended):
        """Makes, moves and removes files and folders until `ended` is set."""
        draws = random.Random(0)
        while not ended.is_set():
            one, other = (self.path(draws.choice(CHANGING)) for _ in range(2))
            change = draws.choice(CHANGES)
            try:
                if change == "file":
                    write(one, "u\n")
                elif change == "folder":
                    os.makedirs(one)
                elif change == "link":
                    os.symlink("d", one)
                elif change == "repository":
                    make_git_folder(f"{one}/.git", "ref: refs/heads/main")
                elif change == "move":
                    os.rename(one, other)
                elif change == "file away":
                    os.remove(one)
                else:
                    subprocess.run(["rm", "-rf", one, other], check=False)
            except OSError:
                pass

    def test_folders_that_change_meanwhile(self):
        for number in range(40):
            self.write(f"k/{number}/u", "foo")
        ended = threading.Event()
        other = threading.Thread(target=self.disturb, args=(ended,))
        other.start()
        try:
            for number in range(300):
                ran = self.ran(*FORMS[number % len(FORMS)], *["--threads", "1"] * (number % 3 == 0))
                self.assertIn(ran.returncode, (0, 1, 2), ran)
                self.assertRegex(ran.stderr, FAULT if ran.returncode == 2 else NOTES)
                self.assertTrue(ran.returncode == 2 or re.search(rb"^\?\? k/", ran.stdout, re.M), ran)
        finally:
            ended.set()
            other.join()
