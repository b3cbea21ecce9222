"""What git-lfs stores of a file, as the program defines it. `compare_lfs.py` in tools/stress compares this with git-lfs."""

import hashlib
import re

VERSIONS = {b"http://git-media.io/v/2", b"https://hawser.github.com/spec/v1", b"https://git-lfs.github.com/spec/v1"}
KEYS = [b"version", b"oid", b"size"]
# The length of a file from which on it is no pointer.
POINTER_LIMIT = 1024
BLANKS = b" \t\n\v\f\r"


def stored(content):
    """Returns what is stored of a file: a pointer to its bytes, but those of a pointer stay."""
    return content if is_pointer(content) else pointer(content)


def pointer(content):
    return b"version %s\noid sha256:%s\nsize %d\n" % (
        b"https://git-lfs.github.com/spec/v1",
        hashlib.sha256(content).hexdigest().encode(),
        len(content),
    )


def is_pointer(content):
    if not content or len(content) >= POINTER_LIMIT:
        return not content
    lines = [line.removesuffix(b"\r") for line in content.strip(BLANKS).split(b"\n")]
    pairs, keys, digits = [line.partition(b" ") for line in lines if line], list(KEYS), set()
    for key, blank, value in pairs:
        if not blank or not keys:
            return False
        if key == keys[0]:
            if not is_value(keys.pop(0), value):
                return False
        elif not (extension := re.match(rb"ext-(\d)-\w", key)) or not is_id(value) or extension[1] in digits:
            return False
        else:
            digits.add(extension[1])
    return not keys


def is_value(key, value):
    if key == b"version":
        return value in VERSIONS
    if key == b"oid":
        return is_id(value)
    return bool(re.fullmatch(rb"[+-]?[0-9]+", value)) and 0 <= int(value) < 2**63


def is_id(value):
    return bool(re.fullmatch(rb"sha256:[0-9a-f]{64}", value))
