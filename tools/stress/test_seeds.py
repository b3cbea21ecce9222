"""A seed always makes the same case, and how the scripts themselves end:

    python3 tools/run_tests.py stress.test_seeds
"""

import os
import random
import shutil
import stat
import subprocess
import sys
import tempfile
import time
import unittest
from functools import partial

from stress import draw_histories, mutate_index
from stress.draw_attributes import AttributeDrawing
from stress.draw_commits import CommitDrawing
from stress.draw_repositories import Drawing, drawn
from support.index_bytes import MODE, MTIME, SIZE, parts_of
from support.programs import TOP
from support.repositories import read, write

STARTED = int(time.time())


def node_at(place):
    """Returns a node's mode, its time unless it was made just now, and what is in it."""
    its = os.lstat(place)
    text = os.readlink(place) if stat.S_ISLNK(its.st_mode) else read(place) if stat.S_ISREG(its.st_mode) else None
    return its.st_mode, min(its.st_mtime, STARTED), text


def nodes_of(top):
    """Returns all nodes below a folder but its objects and its index, which has inodes and times of the moment."""
    places = [os.path.join(above, name) for above, folders, files in os.walk(top) for name in folders + files]
    left_out = f"{top}/.git/index", f"{top}/.git/objects/"
    return [(place, node_at(place)) for place in sorted(places) if not place.startswith(left_out)]


def entries_of(drawing):
    """Returns what a drawing sets in the entries of its index."""
    entries = parts_of(drawing.kind, read(drawing.path(".git/index"))).entries
    stats = [(it.stat[MODE], it.stat[SIZE], min(it.stat[MTIME], STARTED)) for it in entries]
    return [(it.path, it.name, it.flags, it.more) for it in entries], stats


def repositories(kind, room):
    """Draws a few repositories of a kind in a folder, which is removed. Returns what is in each."""
    os.mkdir(room)
    found = [(it.notes, nodes_of(it.top), entries_of(it), it.random.random()) for it in drawn(kind, range(4), room)]
    shutil.rmtree(room)
    return found


def history(seed):
    it = draw_histories.Drawn(seed, 50)
    return it.profile, it.runs, it.fault


def program(place):
    """Returns settings that name this as the program."""
    return {"STATUS_PROGRAM": place, "GIT_DIRTY": place}


class Seeds(unittest.TestCase):
    def assert_same(self, name, make):
        """Asserts that cases are the same if they are made again, and that more than nine tenths of them differ."""
        cases, again = [*make()], [*make()]
        with self.subTest(name):
            self.assertEqual(repr(cases), repr(again))
            self.assertGreater(len({repr(case) for case in cases}), len(cases) * 9 // 10)

    def test_a_seed_always_makes_the_same_case(self):
        with tempfile.TemporaryDirectory() as room:
            base = mutate_index.Base(f"{room}/base", "sha1")
            makers = {"histories": history, "index files": lambda seed: mutate_index.mutated(random.Random(seed), base)}
            for name, make in makers.items():
                self.assert_same(name, partial(map, make, range(200)))
            for kind in (Drawing, AttributeDrawing, CommitDrawing):
                self.assert_same(kind.__name__, partial(repositories, kind, f"{room}/drawn"))


class Scripts(unittest.TestCase):
    """How the scripts end. The program that they run is /bin/false, whose end is always wrong."""

    # What each script keeps of seed 0.
    KEPT = {"compare_dirty": ["0"], "mutate_index": ["0.index"], "draw_histories": ["history-0.json"]}
    SWEEP = ["refuse_memory", "--rows", "malformed", "--limits", "1", "--repeat", "1"]

    def ran(self, script, *words, out=subprocess.PIPE, **settings):
        """Runs a script. Returns its exit status, its last line, and its words on standard error."""
        environment = {**os.environ, "PYTHONUNBUFFERED": "", **program("/bin/false"), **settings}
        command = [sys.executable, TOP / "tools/stress" / f"{script}.py", *words]
        ran = subprocess.run(command, stdout=out, stderr=subprocess.PIPE, env=environment, timeout=60, text=True)
        return ran.returncode, (ran.stdout or "\n").splitlines()[-1], ran.stderr

    def assert_refused(self, words, *command, **settings):
        """Asserts that a script ends with status 2 and these words on standard error, and without an error of Python's."""
        status, _, said = self.ran(*command, **settings)
        self.assertEqual((status, words in said, "Traceback" in said), (2, True, False), (command, said))

    def test_wrong_ends_are_told_and_kept(self):
        for script, kept in self.KEPT.items():
            with self.subTest(script), tempfile.TemporaryDirectory() as room:
                status, line, said = self.ran(script, "--seeds", "1", "--keep", f"{room}/made/kept")
                self.assertRegex(line, r"^1 seeds, [1-9]\d* wrong$")
                self.assertEqual((status, said, sorted(os.listdir(f"{room}/made/kept"))), (1, "", kept))
                self.assertEqual(self.ran(script, "--seeds", "0"), (0, "0 seeds, 0 wrong", ""))
        status, line, said = self.ran(*self.SWEEP)
        self.assertRegex(line, "[1-9] ended wrongly$")
        self.assertEqual((status, said), (1, ""))

    def test_a_script_that_cannot_run_or_print_says_why(self):
        nothing, one = ([*([script, "--seeds", count] for script in self.KEPT), self.SWEEP] for count in "01")
        reader, writer = os.pipe()
        os.close(reader)
        with open("/dev/full", "wb") as full, os.fdopen(writer, "wb") as closed, tempfile.TemporaryDirectory() as room:
            write(f"{room}/text", "no program")
            os.chmod(f"{room}/text", 0o755)
            rows = [("there is no program", nothing, program("/nowhere"))]
            rows += [("Exec format error", one, program(f"{room}/text"))]
            # Two scripts run git, and one a C compiler.
            rows += [("No such file or directory: '", [*one[:2], self.SWEEP], {"PATH": room, "CC": ""})]
            rows += [("No space left on device", nothing, {"out": full}), ("Broken pipe", nothing, {"out": closed})]
            rows += [("Not a directory: '/dev/null/x'", [[*words, "--keep", "/dev/null/x"] for words in one[:-1]], {})]
            rows += [("--seeds is below 0", [[script, "--seeds", "-1"] for script in self.KEPT], {})]
            for words, commands, settings in [*rows, ("--repeat is below 1", [[*self.SWEEP[:-1], "0"]], {})]:
                for command in commands:
                    self.assert_refused(words, *command, **settings)
