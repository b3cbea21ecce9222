"""Changes the index file of a row as git's commands don't: `index CHANGE [NUMBER ...]` in rows.txt."""

import sys
from dataclasses import replace
from pathlib import Path

sys.path.insert(0, str(Path(__file__).resolve().parents[1]))

from support.index_bytes import MODE, parts_of, with_stat


def changed(parts, how, *numbers):
    """Returns the bytes of the index with a change."""
    first, *_, last = entries = parts.entries
    if how == "conflict":
        flags, more = (*map(lambda it: int(it, 16), numbers), None)[:2]
        entries = [replace(it, flags=it.flags | flags, more=more) if it.flags & 0x3000 else it for it in entries]
        return parts.with_entries(entries, version=3)
    changes = {"reversed": entries[::-1], "padding": [*entries[:-1], replace(last, padding=b"\0x")]}
    changes |= {"length": [*entries[:-1], replace(last, flags=last.flags ^ 1)]}
    changes |= {"folder": [with_stat(first, MODE, 0o40000), *entries[1:]]}
    changes |= {"both": [first, replace(entries[1], flags=entries[1].flags & 0xFFF), *entries[1:]]}
    changes |= {"long": [*entries, replace(last, path=b"z" * 5000, flags=0xFFF)]}
    return parts.with_entries(changes.get(how, entries))


def main(how, *numbers):
    place = Path(".git/index")
    content = changed(parts_of("sha1", place.read_bytes()), how, *numbers).file()
    place.write_bytes(content if how != "checksum" else content[:-1] + bytes([content[-1] ^ 1]))


if __name__ == "__main__":
    main(*sys.argv[1:])
