#!/usr/bin/env python3
"""Prints the profile of a git repository's index over its folder, for tests and benchmarks of status_program.

    python3 tools/profile_from_git.py FOLDER > profile.json

FOLDER is a folder of the worktree. git lists the entries. Over a folder the program sees a file's kind, length and time of
change, and no other part of a stat. So the profile has only the size and the seconds of the mtime, and `trust_ctime` and
`check_stat` are off. docs/FORMATS.md has the keys, and what the program doesn't see there. If a path isn't UTF-8, or there
is no index, the script ends with an error of git's or Python's. It doesn't read core.symlinks.
"""

import json
import os
import re
import subprocess
import sys

# An entry as `git ls-files --stage --debug -z` lists it.
ENTRY = re.compile(
    r"([0-7]{6}) ([0-9a-f]+) ([0-3])\t([^\0]+)\0"
    r"  ctime: .*\n  mtime: (\d+):\d+\n  dev: .*\n  uid: .*\n  size: (\d+)\tflags: ([0-9a-f]+)\n"
)
# The flags that an index file stores, and their bits in git's memory.
FLAGS = {"assume-valid": 1 << 15, "intent-to-add": 1 << 29, "skip-worktree": 1 << 30}


def git(folder, *words):
    """Runs git in a folder. Returns what it prints."""
    command = ["git", "--no-optional-locks", "-C", folder, "-c", "core.fsmonitor=false", *words]
    return subprocess.run(command, stdout=subprocess.PIPE, check=True).stdout.decode()


def entry_of(mode, name, stage, path, mtime, size, bits):
    """Returns an entry of the profile, from git's texts. Defaults are left out."""
    entry = {"path": path, "id": name, "size": int(size), "mtime": [int(mtime), 0]}
    flags = [flag for flag, bit in FLAGS.items() if int(bits, 16) & bit]
    more = {"mode": (mode, "100644"), "stage": (int(stage), 0), "flags": (flags, [])}
    return entry | {key: value for key, (value, default) in more.items() if value != default}


def profile_of(folder):
    """Returns the profile of the repository with this folder of its worktree."""
    words = ["--show-toplevel", "--show-object-format", "--path-format=absolute", "--git-path", "index"]
    top, kind, index = git(folder, "rev-parse", *words).splitlines()
    # It is read before the entries: if the index is written in between, more of them are racy.
    timestamp = divmod(os.stat(index).st_mtime_ns, 10**9)
    listed = git(top, "ls-files", "--stage", "--debug", "-z")
    entries = [entry_of(*found.groups()) for found in ENTRY.finditer(listed)]
    assert len(entries) == listed.count("\0"), "git lists entries in another form"
    options = {"trust_ctime": False, "check_stat": False}
    return {"hash": kind, "timestamp": timestamp, "options": options, "index": entries, "folder": top}


if __name__ == "__main__":
    json.dump(profile_of(sys.argv[1]), sys.stdout)
