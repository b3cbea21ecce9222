"""The bytes of objects in a pack, as git's gitformat-pack(5) has them."""

import os
import struct

# The numbers of kinds, and of deltas whose base is named by its distance or by its id.
KIND_NUMBERS = {"commit": 1, "tree": 2, "blob": 3, "tag": 4}
BY_DISTANCE, BY_NAME = 6, 7


def head_of(number, size):
    """Returns the head of an object in a pack."""
    first, size = number << 4 | size & 15, size >> 4
    found = []
    while size:
        found.append(first | 0x80)
        first, size = size & 127, size >> 7
    return bytes([*found, first])


def size_of(size):
    """Returns a size as a delta has it."""
    found = []
    while size > 127:
        found.append(size & 127 | 0x80)
        size >>= 7
    return bytes([*found, size])


def distance_of(size):
    """Returns the distance to a base."""
    found = [size & 127]
    while size := size >> 7:
        size -= 1
        found.insert(0, size & 127 | 0x80)
    return bytes(found)


def copy_of(at, size):
    """Returns the part of a delta that copies bytes of its base."""
    found, first = b"", 0x80
    for bit, byte in enumerate(struct.pack("<I", at) + struct.pack("<I", size)[:3]):
        first, found = (first | 1 << bit, found + bytes([byte])) if byte else (first, found)
    return bytes([first]) + found


def delta_of(base, content):
    """Returns a delta that makes a content of a base: their beginning, and then other bytes."""
    front = len(os.path.commonprefix([base, content]))
    rest = [content[at : at + 127] for at in range(front, len(content), 127)]
    copied = copy_of(0, front) if front else b""
    return size_of(len(base)) + size_of(len(content)) + copied + b"".join(bytes([len(it)]) + it for it in rest)
