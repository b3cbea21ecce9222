"""Tests of the gate, .ci/run, with commands that only print and end:

    python3 tools/run_tests.py gate.test_gate
"""

import ast
import os
import shutil
import subprocess
import tempfile
import unittest
from pathlib import Path

from support.programs import TOP

# The built programs, the words of a command that writes one, and those of commands that end well.
PROGRAMS = ["crates/status_program/out/status_program", "crates/git_dirty/out/git_dirty"]


def building(program):
    return f"mkdir -p {os.path.dirname(program)}; : > {program}; chmod +x {program}; "


BUILDS = "".join(map(building, PROGRAMS))
RT_WELL = BUILDS + "echo proving; echo '12 passed, 0 failed (5 minutes)'"
TESTS_WELL = "echo 'tools: 7 passed, 0 failed'"


class Gate(unittest.TestCase):
    def gate(self, rt=RT_WELL, tests=TESTS_WELL, without=()):
        """Runs the gate in a folder of its own with these commands. Returns the exit status, and the lines that were printed."""
        with tempfile.TemporaryDirectory() as room:
            top, commands = Path(room, "top"), Path(room, "commands")
            for folder in (top / ".ci", top / "tools", commands):
                folder.mkdir(parents=True)
            shutil.copy(TOP / ".ci" / "run", top / ".ci" / "run")
            for name in ("bash", "cat", "cc", "chmod", "dirname", "git", "man", "mkdir", "mktemp", "rm", "tail", "tee"):
                if name not in without:
                    os.symlink(shutil.which(name), commands / name)
            for name, words in (("rt", rt), ("python3", tests)):
                if name not in without:
                    (commands / name).write_text(f"#!/bin/sh\n{words}\n", encoding="utf-8")
                    (commands / name).chmod(0o755)
            how = {"env": {"PATH": str(commands), "TMPDIR": room}, "capture_output": True, "text": True, "timeout": 60}
            ran = subprocess.run([shutil.which("bash"), top / ".ci" / "run"], check=False, **how)
            self.assertEqual(ran.stderr, "")
            return ran.returncode, ran.stdout.splitlines()

    def assert_fails(self, ended, last, *faults):
        status, lines = ended
        told = [line.removeprefix("gate: FAILED: ") for line in lines if line.startswith("gate: FAILED: ")]
        self.assertEqual((status, lines[-1], told), (1, last, list(faults)))

    def test_it_counts_both(self):
        printed = ["proving", "12 passed, 0 failed (5 minutes)", TESTS_WELL[6:-1], "19 passed, 0 failed"]
        self.assertEqual(self.gate(), (0, printed))

    def test_failures_of_each_are_counted(self):
        self.assert_fails(self.gate(rt=BUILDS + "echo '10 passed, 2 failed'; exit 1"), "17 passed, 2 failed")
        self.assert_fails(self.gate(tests="echo 'tools: 6 passed, 1 failed'; exit 1"), "18 passed, 1 failed")

    def test_an_exit_status_without_a_failure_is_one(self):
        words = "rt ci ended with exit status 3, and its last line reports no failure"
        self.assert_fails(self.gate(rt=RT_WELL + "; exit 3"), "19 passed, 1 failed", words)

    def test_an_end_without_numbers_is_a_failure(self):
        words = "tools/run_tests.py ended with exit status 0, without a line 'N passed, M failed'"
        self.assert_fails(self.gate(tests="echo 'OK, 7 passed, 0 failed'"), "12 passed, 1 failed", words)
        words = "rt ci ended with exit status 137, without a line 'N passed, M failed'"
        self.assert_fails(self.gate(rt=BUILDS + "exit 137"), "7 passed, 1 failed", words)

    def test_a_part_that_is_missing_is_a_failure(self):
        self.assert_fails(self.gate(without=("git",)), "19 passed, 1 failed", "missing: git")
        for built, missing in zip(PROGRAMS, reversed(PROGRAMS)):
            ended = self.gate(rt=building(built) + "echo '12 passed, 0 failed'")
            self.assert_fails(ended, "19 passed, 1 failed", f"missing: the built program, {missing}")

    def test_the_tests_are_passed_the_built_programs(self):
        _, lines = self.gate(tests="echo $STATUS_PROGRAM; echo $GIT_DIRTY; " + TESTS_WELL)
        folder = lines[-4].removesuffix(PROGRAMS[0])
        self.assertTrue(os.path.isabs(folder))
        self.assertEqual(lines[-4:-2], [folder + program for program in PROGRAMS])

    def test_nothing_passes_without_rt(self):
        words = "rt ci ended with exit status 127, without a line 'N passed, M failed'"
        missing = [f"missing: the built program, {program}" for program in PROGRAMS]
        self.assert_fails(self.gate(without=("rt",)), "7 passed, 4 failed", "missing: rt", words, *missing)

    def test_it_is_short_and_leaves_nothing_out(self):
        text = (TOP / ".ci" / "run").read_text(encoding="utf-8")
        self.assertLess(text.count("\n"), 60)
        self.assertIn('\ncount "rt ci" rt ci\n', text)


class Names(unittest.TestCase):
    def test_no_test_hides_another_one_of_its_name(self):
        for path in sorted(TOP.glob("tools/**/*.py")):
            for node in ast.walk(ast.parse(path.read_text(encoding="utf-8"))):
                if isinstance(node, (ast.Module, ast.ClassDef)):
                    names = [it.name for it in node.body if isinstance(it, (ast.ClassDef, ast.FunctionDef))]
                    with self.subTest(path=path.relative_to(TOP).as_posix(), node=getattr(node, "name", "")):
                        self.assertEqual(sorted(names), sorted(set(names)))
