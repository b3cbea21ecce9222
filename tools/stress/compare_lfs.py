#!/usr/bin/env python3
"""Compares what support/lfs.py and git-lfs store of drawn pointers, each with some changes. It needs git-lfs.

    python3 tools/stress/compare_lfs.py [COUNT]

The last line counts them, and those with a difference. Unicode's white space around a pointer, and two extensions of one name,
are known differences, and aren't drawn.
"""

import os
import random
import subprocess
import sys

sys.path.insert(0, os.path.dirname(os.path.dirname(os.path.abspath(__file__))))

from support.lfs import VERSIONS, pointer, stored

PIECES = [b"\n", b"\r\n", b" ", b"\t", b"\v", b"+", b"-", b"0", b"9" * 18, b"a", b"A", b"x", b"\0", b"\xff", b"version ", b"size 1", b"oid "]
PIECES += [b"sha256:", b"\n\n", b"=", b"ext-0-a ", b"ext-10-a ", b"ext-1- "]


def drawn(random):
    """Returns a pointer, mostly with some changes."""
    lines = pointer(random.randbytes(4)).split(b"\n")[:-1]
    lines[0] = b"version " + random.choice(sorted(VERSIONS))
    for number in range(random.choice([0, 0, 1, 2])):
        digit = random.choice([str(number), str(random.randrange(10)), "10"]).encode()
        name = random.choice([b"foo", b"_", b"a-b", b"", b"-", b"0x"]) + b"%d" % number
        lines.insert(random.randrange(1, len(lines) + 1), b"ext-%s-%s sha256:%s" % (digit, name, lines[1].rpartition(b":")[2] or b"0"))
    if random.random() < 0.1:
        random.shuffle(lines)
    text = b"\n".join(lines) + random.choice([b"\n", b"\n", b"", b"\n\n"])
    for _ in range(random.choice([0, 0, 1, 1, 2, 3])):
        at = random.randrange(len(text) + 1)
        text = text[:at] + random.choice([*PIECES, b""]) + text[at + random.randrange(3) :]
    return text + b" " * random.choice([0] * 20 + [1024 - len(text), 1023 - len(text)])


def of_git_lfs(content):
    return subprocess.run(["git", "lfs", "clean"], input=content, capture_output=True, check=True).stdout


def main():
    count, wrong = int(sys.argv[1]) if len(sys.argv) > 1 else 1000, 0
    for seed in range(count):
        content = drawn(random.Random(seed))
        if stored(content) != of_git_lfs(content):
            wrong += 1
            print(f"seed {seed}: {content!r}")
    print(f"{count} pointers, {wrong} with a difference")
    return int(wrong > 0)


if __name__ == "__main__":
    sys.exit(main())
