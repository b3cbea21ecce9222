"""The bytes of a git index file: its parts, how they are read and written, and its checksum.

The format is that of git's gitformat-index: a header, the entries in order, extensions, and a checksum of all of it. Parts
can also be written as git doesn't write them, for tests of what is refused.
"""

import hashlib
import os
import struct
from dataclasses import dataclass, replace

KINDS = {"sha1": 20, "sha256": 32}
# The file's front, and an entry's stat and words of flags.
HEADER, STAT, FLAGS = struct.Struct(">4sII"), struct.Struct(">10I"), struct.Struct(">H")
EXTENDED = 1 << 14
# Positions in an entry's stat.
MTIME, MODE, SIZE = 2, 6, 9


@dataclass(frozen=True)
class Entry:
    """An entry as a file has it. `more` is the second word of flags, or None."""

    stat: tuple
    name: bytes
    flags: int
    more: "int | None"
    path: bytes
    # What the writer does otherwise than git: bytes in the padding, and what a path drops too much or too little.
    padding: bytes = b""
    strip: int = 0


@dataclass(frozen=True)
class Parts:
    """An index file's version, entries, and the bytes after them."""

    kind: str
    version: int
    count: int
    entries: list
    extensions: bytes

    def content(self):
        """Returns the bytes of the file without its checksum."""
        found, last = [HEADER.pack(b"DIRC", self.version, self.count % (1 << 32))], b""
        for entry in self.entries:
            found.append(entry_bytes(self, entry, last))
            last = entry.path
        return b"".join(found) + self.extensions

    def file(self):
        """Returns the bytes of the file."""
        return self.content() + checksum_of(self.content(), self.kind)

    def with_entries(self, entries, **more):
        """Returns the parts of a file with these entries."""
        entries = [*entries]
        return replace(self, entries=entries, count=len(entries), **more)


def with_stat(entry, field, number):
    """Returns an entry with another number in its stat."""
    return replace(entry, stat=(*entry.stat[:field], number, *entry.stat[field + 1 :]))


def entry_bytes(parts, entry, last):
    more = b"" if entry.more is None else FLAGS.pack(entry.more)
    front = STAT.pack(*entry.stat) + entry.name + FLAGS.pack(entry.flags) + more
    if parts.version == 4:
        dropped = max(0, len(last) - len(os.path.commonprefix([last, entry.path])) + entry.strip)
        return front + varint(dropped) + entry.path[max(0, len(last) - dropped) :] + b"\0" + entry.padding
    return front + entry.path + (entry.padding + bytes(8))[: 8 - len(front + entry.path) % 8]


def varint(number):
    found = bytearray([number & 127])
    while number := number >> 7:
        number -= 1
        found.append(128 | number & 127)
    return bytes(reversed(found))


def varint_at(content, at):
    """Returns the number of variable width at a position, as in packs (OFS_DELTA), and the position after it."""
    byte = content[at]
    value = byte & 127
    while byte & 128:
        at += 1
        byte = content[at]
        value = ((value + 1) << 7) + (byte & 127)
    return value, at + 1


def checksum_of(content, kind):
    return hashlib.new(kind, content).digest()


def parts_of(kind, content):
    """Returns the parts of a file that git wrote."""
    width, (_, version, count) = KINDS[kind], HEADER.unpack_from(content)
    at, entries, path = HEADER.size, [], b""
    for _ in range(count):
        start = at
        stat, name = STAT.unpack_from(content, at), content[at + STAT.size : at + STAT.size + width]
        at += STAT.size + width
        flags, more = FLAGS.unpack_from(content, at)[0], None
        at += FLAGS.size
        if flags & EXTENDED:
            more, at = FLAGS.unpack_from(content, at)[0], at + FLAGS.size
        kept = b""
        if version == 4:
            dropped, at = varint_at(content, at)
            kept = path[: len(path) - dropped]
        end = content.index(b"\0", at)
        path = kept + content[at:end]
        at = end + 1 if version == 4 else start + ((end - start + 8) & ~7)
        entries.append(Entry(stat, name, flags, more, path))
    return Parts(kind, version, count, entries, content[at:-width])
