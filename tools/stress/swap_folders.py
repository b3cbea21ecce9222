#!/usr/bin/env python3
"""Runs status_program over a folder while others change it, and counts how often a file outside was opened.

    python3 tools/stress/swap_folders.py [--runs 2000]

Files are rewritten, removed and made again, and folders are swapped for links that lead outside, to files of the same
names. Each run has to end with status 0 or 1. Its lines have ascending index positions and counts that add up, or there
is one line of a fault. Then as many runs are made while nothing changes, with a link in place of one folder: each has to
end with status 0, and no file outside may be opened.

Prints how many runs ended in which way. The exit status is 0 if all this is so, 1 if it isn't, and 2 if the program can't
be run. The environment's STATUS_PROGRAM names the built program; without it that of this checkout is run. It needs Linux:
openings are counted by inotify.
"""

import argparse
import ctypes
import json
import os
import random
import re
import struct
import sys
import tempfile
from dataclasses import dataclass
from multiprocessing import Event, Process

sys.path.insert(0, os.path.dirname(os.path.dirname(os.path.abspath(__file__))))

from stress.seeds import end
from support.programs import STATUS_PROGRAM, Runner
from support.repositories import FOO, write

FOLDERS, FILES = 10, 20
IN_OPEN, IN_NONBLOCK = 0x20, 0o4000
TOTAL = re.compile(r"total: to process (\d+), processed (\d+), skipped 0, lstat (\d+), .* read (\d+), bytes \d+")


class Openings:
    """Counts how often files in a folder are opened."""

    def __init__(self, folder):
        libc = ctypes.CDLL(None, use_errno=True)
        self.events = libc.inotify_init1(IN_NONBLOCK)
        if self.events < 0 or libc.inotify_add_watch(self.events, os.fsencode(folder), IN_OPEN) < 0:
            raise OSError(ctypes.get_errno(), "no inotify")

    def count(self):
        """Returns how many openings there were since the last call. Openings of one file in a row may count as one."""
        found = 0
        while True:
            try:
                events = os.read(self.events, 1 << 16)
            except BlockingIOError:
                return found
            while events:
                _, _, _, length = struct.unpack_from("iIII", events)
                # An opening of the folder itself has no name.
                found += length > 0
                events = events[16 + length :]


def change(folder, name, text):
    """Writes a file, or removes it if the text is None. Does nothing if the folder is missing or a link."""
    try:
        inside = os.open(folder, os.O_RDONLY | os.O_DIRECTORY | os.O_NOFOLLOW)
    except OSError:
        return
    try:
        if text is None:
            os.unlink(name, dir_fd=inside)
            return
        file = os.open(name, os.O_WRONLY | os.O_CREAT | os.O_TRUNC, dir_fd=inside)
        os.write(file, text)
        os.close(file)
    except FileNotFoundError:
        pass
    finally:
        os.close(inside)


def swap(folder, outside):
    """Replaces a folder by a link that leads outside, and then the link by the folder."""
    aside = f"{folder}.aside"
    os.rename(folder, aside)
    os.symlink(outside, folder)
    os.unlink(folder)
    os.rename(aside, folder)


def disturb(top, outside, ended, seed):
    """Changes files and folders until `ended` is set."""
    draws = random.Random(seed)
    while not ended.is_set():
        number, file = draws.randrange(FOLDERS), draws.randrange(FILES)
        folder = f"{top}/d{number}"
        if draws.random() < 0.4:
            change(folder, f"{file:02}", draws.choice([b"foo", b"bar", b"bars", b"", None]))
        elif number % 2 == seed % 2:
            # Each process swaps folders of its own.
            swap(folder, outside)


def profile_of(folder, top):
    """Writes the profile, and returns its path. Each file is read, since no stat agrees."""
    entries = [{"path": f"d{number}/{file:02}", "id": FOO} for number in range(FOLDERS) for file in range(FILES)]
    options, path = {"thread_limit": 4, "chunk_size": 5, "counts": True}, os.path.join(folder, "profile.json")
    write(path, json.dumps({"timestamp": [2**31, 0], "options": options, "index": entries, "folder": top}))
    return path


def is_right(ended):
    """Returns whether a run ended as it may."""
    lines = ended.out.decode().splitlines()
    total = TOTAL.fullmatch(lines.pop()) if ended.status == 0 and lines else None
    places = [int(line.split()[0]) for line in lines]
    if places != sorted(set(places)) or any(place >= FOLDERS * FILES for place in places):
        return False
    if ended.status == 1:
        return re.fullmatch(rb"status failed: [^\n]+\n", ended.fault) is not None
    if ended.status != 0 or ended.fault or total is None:
        return False
    process, processed, looks, read = map(int, total.groups())
    # `lstat` is called at most once for each entry, and no file is read without it.
    return process == processed == FOLDERS * FILES and read <= looks <= processed and len(places) <= processed


@dataclass
class Ends:
    """How many runs ended well, by a fault, and wrongly, and how often a file outside was opened meanwhile."""

    well: int = 0
    fault: int = 0
    wrong: int = 0
    opened: int = 0

    def add(self, ended):
        """Counts a run, and prints it if it ended wrongly."""
        if not is_right(ended):
            self.wrong += 1
            print(ended.text())
        elif ended.status == 0:
            self.well += 1
        else:
            self.fault += 1

    def text(self):
        ends = f"{self.well} ended well, {self.fault} by a fault, {self.wrong} wrongly"
        return f"{ends}; a file outside was opened {self.opened} times"


def ends_of(runner, profile, openings, count):
    """Runs the program so many times. Returns how the runs ended."""
    ends = Ends()
    for _ in range(count):
        ends.add(runner.run(["status", profile]))
    ends.opened = openings.count()
    return ends


def make(folder):
    """Makes the folder, and one outside of it. Returns both paths."""
    top, outside = os.path.join(folder, "top"), os.path.join(folder, "outside")
    for name in [outside, *(f"{top}/d{number}" for number in range(FOLDERS))]:
        os.makedirs(name)
        for file in range(FILES):
            write(f"{name}/{file:02}", "foo")
    return top, outside


def raced(program, count):
    """Runs the program so many times while the folder changes, and while it doesn't. Returns how the runs of both ended."""
    with tempfile.TemporaryDirectory() as folder, Runner(program) as runner:
        top, outside = make(folder)
        profile, openings, ended = profile_of(folder, top), Openings(outside), Event()
        others = [Process(target=disturb, args=(top, outside, ended, seed)) for seed in range(2)]
        for other in others:
            other.start()
        try:
            changing = ends_of(runner, profile, openings, count)
        finally:
            ended.set()
            for other in others:
                other.join()
        os.rename(f"{top}/d0", f"{top}/aside")
        os.symlink(outside, f"{top}/d0")
        return changing, ends_of(runner, profile, openings, count)


def work(program, count):
    """Runs the program, and prints how it ended. Returns the exit status."""
    changing, still = raced(program, count)
    print(f"while it changed: {changing.text()}")
    print(f"while it didn't: {still.text()}")
    return int(changing.wrong + still.wrong + still.fault + still.opened > 0)


def main():
    parser = argparse.ArgumentParser()
    parser.add_argument("--runs", type=int, default=2000, help="how many runs while files change, and at rest (2000)")
    options = parser.parse_args()
    if STATUS_PROGRAM is None:
        parser.error("there is no program: build it, or name it by STATUS_PROGRAM")
    if options.runs < 1:
        parser.error("--runs is below 1")
    end(work, STATUS_PROGRAM, options.runs)


if __name__ == "__main__":
    main()
