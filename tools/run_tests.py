#!/usr/bin/env python3
"""Runs the tests of tools/, and prints how many passed, failed and were not run:

    python3 tools/run_tests.py [-k WORDS] [TEST ...]

A TEST is a module, class or test of a folder, as git_dirty.test_rows; without one all are run. With -k only those are run
whose names have these words, as those of rows do. The environment's
STATUS_PROGRAM and GIT_DIRTY name the built programs; without them those of this checkout are run. A test that wasn't run
counts as failed, and so does one that is expected to fail. Root may read and write any file, so as root the tests run
without that right, by setpriv. The exit status is 0 if tests ran and none failed.
"""

import collections
import os
import signal
import subprocess
import sys
import tempfile
import unittest

HERE = os.path.dirname(os.path.abspath(__file__))
# The words that start a command of root's without the right to read and write any file. Programs that the command starts
# can't have that right either, since it is taken from the bounding set.
ORDINARY = ["setpriv", "--bounding-set=-dac_override,-dac_read_search", "--inh-caps=-all"]
# An argument that follows these words, so that they aren't tried twice.
TRIED = "--ordinary"


def may_read_all():
    """Returns whether this process may read and write any file, as root does."""
    with tempfile.NamedTemporaryFile() as file:
        os.chmod(file.name, 0)
        return os.access(file.name, os.R_OK | os.W_OK)


class Result(unittest.TextTestResult):
    """Collects the tests that passed, with all their subtests."""

    def __init__(self, *words, **settings):
        super().__init__(*words, **settings)
        self.passed = []

    def addSuccess(self, test):
        super().addSuccess(test)
        self.passed.append(test.id())


def said(result):
    """Returns the lines to print for a result, and how many tests failed or weren't run."""
    # A row's name has its file.
    rows = sum(".txt: " in name for name in result.passed)
    not_run = collections.Counter(reason for _, reason in result.skipped)
    wrong = (result.failures, result.errors, result.unexpectedSuccesses, result.expectedFailures, result.skipped)
    failed = sum(map(len, wrong)) or int(not result.passed)
    lines = [f"tools: {count} not run: {reason}" for reason, count in not_run.items()]
    lines += [f"tools: {len(result.passed) - rows} Python tests passed", f"tools: {rows} rows passed"]
    return [*lines, f"tools: {len(result.passed)} passed, {failed} failed"], failed


def main(words):
    if TRIED not in words and may_read_all():
        return subprocess.run([*ORDINARY, sys.executable, os.path.abspath(__file__), TRIED, *words], check=False).returncode
    names = [word for word in words if word != TRIED]
    loader = unittest.defaultTestLoader
    if names[:1] == ["-k"]:
        loader.testNamePatterns, names = [f"*{names[1]}*"], names[2:]
    # In a job in the background, or under nohup, these signals are ignored, and processes started here would ignore them
    # too. Tests send them.
    signal.signal(signal.SIGINT, signal.default_int_handler)
    signal.signal(signal.SIGHUP, signal.SIG_DFL)
    tests = loader.loadTestsFromNames(names) if names else loader.discover(HERE)
    lines, failed = said(unittest.TextTestRunner(stream=sys.stderr, resultclass=Result).run(tests))
    print("\n".join(lines))
    return int(failed > 0)


if __name__ == "__main__":
    sys.exit(main(sys.argv[1:]))
