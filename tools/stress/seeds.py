"""What the scripts that run a program for many seeds share: their arguments, processes, output and ends.

Each passes a function `run(seeds, keep)` that runs some seeds, and returns a text for each seed with a wrong end, and counts.
If `keep` is a folder, it gets the input of each such seed.
"""

import argparse
import collections
import concurrent.futures
import contextlib
import os
import subprocess
import sys

BYTES = [0, 1, 2, 0x0F, 0x2E, 0x2F, 0x40, 0x7F, 0x80, 0xFF]


def mutate_bytes(draw, content):
    """Returns bytes with one change, and its words."""
    at = draw.randrange(len(content) + 1)
    how = draw.choice(["flip", "flip", "set", "set", "delete", "insert", "repeat", "cut"])
    end = min(len(content), at + draw.choice([1, 1, 2, 4, 8, 62, 72]))
    word = f"{how} {at}..{end}"
    if how == "flip" and at < end:
        return content[:at] + bytes([content[at] ^ 1 << draw.randrange(8)]) + content[at + 1 :], word
    if how == "set" and at < end:
        return content[:at] + bytes([draw.choice(BYTES)]) + content[at + 1 :], word
    if how == "delete":
        return content[:at] + content[end:], word
    if how == "repeat":
        return content[:end] + content[at:], word
    if how == "cut":
        return content[:at], word
    return content[:at] + draw.randbytes(draw.choice([1, 1, 2, 4, 8])) + content[at:], word


def run_all(run, seeds, size, keep=None):
    """Runs so many seeds at once in each process, and one process for each processor. Returns all texts and counts."""
    parts, found, counts = [seeds[at : at + size] for at in range(0, len(seeds), size)], [], collections.Counter()
    with concurrent.futures.ProcessPoolExecutor(len(os.sched_getaffinity(0))) as pool:
        for texts, counted in pool.map(run, parts, [keep] * len(parts)):
            found += texts
            counts.update(counted)
    return found, counts


def end(work, *more):
    """Ends a script with the status that its work returns, or with a line and status 2 if it can't work or print."""
    try:
        status = work(*more)
        # Output that can't be written is noticed here, and not after the script.
        print(end="", flush=True)
    except (OSError, RuntimeError, subprocess.SubprocessError) as error:
        status = 2
        with contextlib.suppress(OSError):
            print(f"{os.path.basename(sys.argv[0])}: {error}", file=sys.stderr)
        os.dup2(os.open(os.devnull, os.O_WRONLY), 1)
    sys.exit(status)


def main(run, count, size, program):
    """Runs the seeds that the arguments name. The exit status is 1 if one ended wrongly, and 2 if they can't be run."""
    parser = argparse.ArgumentParser()
    parser.add_argument("--seeds", type=int, default=count, help=f"how many seeds ({count})")
    parser.add_argument("--first", type=int, default=0, help="the first seed (0)")
    parser.add_argument("--keep", help="a folder for what is run for a seed that ends wrongly")
    options = parser.parse_args()
    if program is None:
        parser.error("there is no program: build it, or name it by STATUS_PROGRAM or GIT_DIRTY")
    if options.seeds < 0:
        parser.error("--seeds is below 0")
    end(run_named, run, options, size)


def run_named(run, options, size):
    """Runs the seeds that the options name, and prints how they end. Returns the exit status."""
    if options.keep:
        os.makedirs(options.keep, exist_ok=True)
    found, counts = run_all(run, range(options.first, options.first + options.seeds), size, options.keep)
    print(*found, *(f"{times:8} {what}" for what, times in counts.most_common()), sep="\n")
    print(f"{options.seeds} seeds, {len(found)} wrong")
    return int(found != [])
