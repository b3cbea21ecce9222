"""What the scripts that measure share: they run commands in turns, and note the time and the memory of each run."""

import argparse
import os
import subprocess
import time
from dataclasses import dataclass

# git writes nothing to the repository.
ENVIRONMENT = dict(os.environ, GIT_OPTIONAL_LOCKS="0")


@dataclass(frozen=True)
class Run:
    """The processor time (user and system) and the time on the clock in milliseconds, and the peak of memory in MB."""

    processor: float
    clock: float
    memory: float


def run(command, statuses, environment=None):
    """Runs a command, which has to end with one of these exit statuses. Without an environment git may write nothing."""
    begun = time.perf_counter()
    child = subprocess.Popen(command, stdout=subprocess.DEVNULL, env=environment or ENVIRONMENT)
    _, status, used = os.wait4(child.pid, 0)
    clock = time.perf_counter() - begun
    child.returncode = os.waitstatus_to_exitcode(status)
    if child.returncode not in statuses:
        raise SystemExit(f"refused: {' '.join(command)} ended with {child.returncode}")
    return Run((used.ru_utime + used.ru_stime) * 1000, clock * 1000, used.ru_maxrss / 1024)


def in_turns(commands, runs, statuses=(0,)):
    """Runs each of these commands so many times, in turns. Returns the runs of each by its name."""
    taken = {name: [] for name in commands}
    for _ in range(runs):
        for name, command in commands.items():
            taken[name].append(run(command, statuses))
    return taken


def arguments_of(script, program, runs):
    """Returns a parser of what these scripts are passed: a program, repositories and a number of runs."""
    lines = argparse.RawDescriptionHelpFormatter
    parser = argparse.ArgumentParser(description=script, formatter_class=lines)
    parser.add_argument("program", type=built, help=f"the built {program}")
    folders = "a repository that bench/folder.py made; its files get other times"
    parser.add_argument("folders", nargs="+", type=os.path.abspath, metavar="folder", help=folders)
    parser.add_argument("--runs", type=positive, default=runs, help=f"how many runs of each command ({runs})")
    return parser


def built(path):
    """Returns the absolute path of a program."""
    if not os.access(path, os.X_OK):
        raise argparse.ArgumentTypeError(f"no program at {path}: build it first, with rt run")
    return os.path.abspath(path)


def positive(text):
    """Returns a number above 0."""
    number = int(text)
    if number < 1:
        raise argparse.ArgumentTypeError("it has to be above 0")
    return number
