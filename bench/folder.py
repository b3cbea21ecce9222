#!/usr/bin/env python3
"""Makes a git repository of COUNT files, 100 a folder, three components deep, all of them committed.

    python3 bench/folder.py FOLDER COUNT

FOLDER must not exist yet. The files are older than the index, so that no stat is racy. It needs git.
"""

import argparse
import os
import subprocess
import sys
import time


# Git asks for the author of a commit.
AUTHOR = ["-c", "user.name=bench", "-c", "user.email=bench@localhost"]


def path_of(number):
    return f"crates/part{number // 100:04}/file{number % 100:02}.txt"


def make(top, count):
    os.makedirs(top)
    for number in range(count):
        path = os.path.join(top, path_of(number))
        os.makedirs(os.path.dirname(path), exist_ok=True)
        with open(path, "w", encoding="ascii") as file:
            file.write(f"line of file {number}\n" * (1 + number % 40))
        os.utime(path, (1700000000, 1700000000))
    commit = [*AUTHOR, "commit", "-q", "-m", "All files"]
    for words in (["init", "-q"], ["add", "."], commit, ["update-index", "--refresh"]):
        subprocess.run(["git", "-C", top, *words], check=True)


def tracked(top):
    """Returns the paths of the index, each with a zero byte after it."""
    return subprocess.run(["git", "-C", top, "ls-files", "-z"], stdout=subprocess.PIPE, check=True).stdout


def clean(top):
    """Stores the stats of all files in the index, so that each file is as the index has it."""
    subprocess.run(["git", "-C", top, "update-index", "-q", "--refresh"], check=True)


def touch(top, hours=1):
    """Sets the time of modification of each file of the index to so many hours ago, so that each has to be read."""
    earlier = time.time() - 3600 * hours
    for path in tracked(top).split(b"\0")[:-1]:
        os.utime(os.path.join(os.fsencode(top), path), (earlier, earlier))


# Brings a repository into a state, by the state's name.
STATES = {"clean": clean, "touched": touch}


def main():
    parser = argparse.ArgumentParser(description="Makes a git repository of COUNT files in a new FOLDER.")
    parser.add_argument("folder", help="the folder of the repository; it must not exist yet")
    parser.add_argument("count", type=int, help="how many files it has")
    arguments = parser.parse_args()
    if arguments.count < 0:
        parser.error("COUNT may not be below 0")
    try:
        make(arguments.folder, arguments.count)
    except FileExistsError:
        sys.exit(f"refused: {arguments.folder} is there already")
    except FileNotFoundError as error:
        sys.exit(f"refused: {error.filename} isn't there")
    except subprocess.CalledProcessError as error:
        sys.exit(f"refused: {' '.join(error.cmd)} ended with {error.returncode}")


if __name__ == "__main__":
    main()
