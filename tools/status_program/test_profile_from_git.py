"""Tests of profile_from_git.py, and of statuses by it, whose lines are compared with git's:

    python3 tools/run_tests.py status_program.test_profile_from_git
"""

import json
import os
import subprocess
import sys
from pathlib import Path

from git_dirty.rows import RowCase, rows_of
from profile_from_git import profile_of
from support.programs import STATUS_PROGRAM, TOP
from support.repositories import FOO, THEN, Case, as_dirty

# git compares what the program compares over a folder.
COMPARED = "-c core.trustctime=0 -c core.checkStat=minimal -c core.fileMode=0 status --porcelain -uno --no-renames"
FLAGS = {"assumed": ["assume-valid"], "intended": ["intent-to-add"], "skipped": ["skip-worktree"]}
LETTERS = {"removed": " D", "modified": " M", "type": " T", "intent": " A", "conflict": "UU"}


def status_of(top):
    """Runs the program over a repository. Returns git's letters for its lines without `update`, and its fault line."""
    profile = json.dumps(profile_of(top)).encode()
    ran = subprocess.run([STATUS_PROGRAM, "status", "/dev/stdin"], input=profile, capture_output=True, timeout=60)
    found = [line.split(" ")[1:] for line in ran.stdout.decode().splitlines() if " update " not in line]
    return "".join(f"{LETTERS[words[0]]} {json.loads(words[-1])}\n" for words in found), ran.stderr.decode()


class Profiles(Case):
    PROGRAM = STATUS_PROGRAM

    def setUp(self):
        super().setUp()
        for name in ("assumed", "d/changed", "executable", "moved", "racy", "skipped", "touched", "é\n"):
            self.write(name, "foo")
            os.utime(self.path(name), (THEN, THEN))
        os.chmod(self.path("executable"), 0o755)
        os.symlink("moved", self.path("link"))
        self.git("add", ".")
        self.write("intended", "foo")
        for words in ("add -N intended", "update-index --assume-unchanged assumed", "update-index --skip-worktree skipped"):
            self.git(*words.split())
        self.put_entries(*(("100644", FOO, stage, "conflict") for stage in (1, 2, 3)), ("160000", FOO, 0, "sub"))
        os.utime(self.path(".git/index"), ns=(THEN * 10**9 + 7, THEN * 10**9 + 7))

    def test_the_profile_has_what_git_lists(self):
        command = [sys.executable, TOP / "tools/profile_from_git.py", self.path("d")]
        profile = json.loads(subprocess.run(command, capture_output=True, check=True, timeout=60).stdout)
        entries = [{"mode": "100644", "stage": 0, "flags": [], **entry} for entry in profile.pop("index")]
        options = {"trust_ctime": False, "check_stat": False}
        self.assertEqual(profile, {"hash": "sha1", "timestamp": [THEN, 7], "options": options, "folder": self.top})
        listed = "".join(map("{mode} {id} {stage}\t{path}\0".format_map, entries))
        self.assertEqual(listed, self.git("ls-files", "--stage", "-z").decode())
        self.assertEqual({it["path"]: it["flags"] for it in entries if it["flags"]}, FLAGS)
        self.assertEqual([(it["size"], it["mtime"]) for it in entries if it["path"] == "racy"], [(3, [THEN, 0])])

    def test_the_program_reports_what_git_reports(self):
        for name in ("assumed", "d/changed", "racy", "skipped", "touched"):
            self.write(name, "foo" if name == "touched" else "bar")
        os.utime(self.path("racy"), (THEN, THEN))
        os.replace(self.path("moved"), self.path("link"))
        lines, fault = status_of(self.top)
        self.assertEqual((lines, fault), ("UU conflict\n M d/changed\n A intended\n T link\n D moved\n M racy\n D sub\n", ""))
        self.assertEqual(lines, as_dirty(self.git(*COMPARED.split()), "--worktree").decode())


class Unseen(RowCase):
    """The rows of unseen_rows.txt, each of which is a test of its own."""

    PROGRAM = STATUS_PROGRAM

    def setUp(self):
        super().setUp()
        self.git("config", "core.autocrlf", "false")
        self.settle()

    def check_columns(self, *_):
        lines, fault = status_of(self.top)
        self.assertEqual((lines, fault != ""), (self.ours.lines.decode(), self.ours.fails is not None))
        self.assertRegex(fault, self.ours.fails or r"\A\Z")


for one in rows_of(Path(__file__).with_name("unseen_rows.txt").read_text(encoding="utf-8")):
    setattr(Unseen, f"test_unseen_rows.txt: {one.name}", lambda self, row=one: self.run_row(row))
