"""Rows of text: profiles with the output that the program has to print for them. rows/ has a file for each subject.

`== NAME` begins a row. Below it is a profile, which the program finds as `f` in its working folder (`{folder}` in it is
that folder's path). After it are sections, each below `-- KIND`: `words` (the arguments), `nodes` (other nodes in the
folder), `lines` (the output), `fault` (the line on standard error), `left` (the text of `o` after the run: the lines
joined, and a line feed), `rooms` (sizes of outputs that are too small for the lines), `values` (each line makes a row of
its own, in whose profile it replaces `{value}`). Above the first row are a text on the file's subject, and then sections
for the rows that have none of the kind. An empty line above a row belongs to nothing.
"""

import json
import re
from dataclasses import dataclass
from pathlib import Path

ROWS = Path(__file__).with_name("rows")
MARK = re.compile(r"(==|--) (\S|\S.*\S)")
# The least and the greatest number of lines in a section of each kind.
ANY = float("inf")
KINDS = {"words": (0, 1), "nodes": (1, ANY), "lines": (1, ANY), "fault": (1, 1), "left": (1, ANY), "rooms": (1, 1)}
KINDS["values"] = (1, ANY)
VALUE, NODES = "{value}", ("folder", "file", "link")


class Malformed(Exception):
    """A fault of a file of rows."""


@dataclass(frozen=True)
class Row:
    """The input of a run of the program, and how it ends."""

    name: str
    words: list
    # The texts of the files `f` and `o`, or None if the file isn't there.
    profile: "str | None"
    left: "str | None"
    # Lists of a kind, a path and a text or a target. A file may also have its time of change.
    nodes: list
    lines: str
    fault: str
    rooms: list

    @property
    def status(self):
        """The exit status, which is 2 if the program prints its usage."""
        return 2 if self.fault.startswith("usage: ") else int(self.fault != "")


def all_rows():
    """Returns each row, with the name of its file."""
    return [(path.name, row) for path in sorted(ROWS.glob("*.txt")) for row in read_rows(path.name)]


def read_rows(name):
    """Returns the rows of a file."""
    try:
        return rows_of((ROWS / name).read_bytes().decode())
    except Malformed as error:
        raise Malformed(f"{name}: {error}") from error


def rows_of(text):
    """Returns the rows of a file's text."""
    (_, shared), *parts = parts_of(text)
    rows = [row for name, sections in parts for row in rows_named(name, {**shared, **sections})]
    names = [row.name for row in rows]
    if not names:
        raise Malformed("there is no row")
    twice = [name for name in names if names.count(name) > 1]
    if twice:
        raise Malformed(f"two rows are named {twice[0]}")
    return rows


def parts_of(text):
    """Returns the part above the first row, and then the rows. Each has a name, and the lines of sections by their kinds. The
    lines above all sections are of the kind `profile`."""
    *lines, last = text.split("\n")
    if last:
        raise Malformed("the last line has no line feed")
    section = []
    parts = [("", {"profile": section})]
    for number, line in enumerate(lines, 1):
        mark = MARK.fullmatch(line)
        if mark and mark[1] == "==":
            if section[-1:] == [""]:
                section.pop()
            section = []
            parts.append((mark[2], {"profile": section}))
        elif mark:
            section = begin_section(number, mark[2], parts[-1][1])
        elif line[:2] in ("==", "--"):
            raise Malformed(f"line {number}: neither a row nor a section begins like this")
        else:
            section.append(line)
    return parts


def begin_section(number, kind, sections):
    """Begins a section of this kind, which the row doesn't have yet."""
    if kind not in KINDS:
        raise Malformed(f"line {number}: there is no section {kind}")
    if kind in sections:
        raise Malformed(f"line {number}: the row has two sections {kind}")
    sections[kind] = []
    return sections[kind]


def rows_named(name, sections):
    """Returns the row of this name, with these sections, or a row for each of its values."""
    profile, values = sections["profile"], sections.get("values")
    if any(VALUE in line for line in profile) != (values is not None):
        raise Malformed(f"{name}: {VALUE} in the profile and the section values need each other")
    if values is None:
        return [row_of(name, sections)]
    put = [[line.replace(VALUE, value) for line in profile] for value in values]
    return [row_of(f"{name}: {value}", {**sections, "profile": text}) for value, text in zip(values, put)]


def row_of(name, sections):
    """Returns a row of this name, with these sections."""
    if "words" not in sections:
        raise Malformed(f"{name}: no words")
    for kind, (least, most) in KINDS.items():
        if kind in sections and not least <= len(sections[kind]) <= most:
            raise Malformed(f"{name}: {len(sections[kind])} lines of the section {kind}")
    lines = "".join(line + "\n" for line in sections.get("lines", []))
    return Row(
        name,
        words="".join(sections["words"]).split(),
        profile="\n".join(sections["profile"]) if sections["profile"] else None,
        left="".join(sections["left"]) + "\n" if "left" in sections else None,
        nodes=[node_of(name, line) for line in sections.get("nodes", [])], lines=lines,
        fault="".join(line + "\n" for line in sections.get("fault", [])),
        rooms=rooms_of(name, "".join(sections.get("rooms", [])), len(lines.encode())),
    )


def node_of(name, line):
    """Returns a node of the working folder. The line has it as a list in JSON."""
    try:
        node = json.loads(line)
    except ValueError:
        node = None
    if not isinstance(node, list) or node[:1] not in [[kind] for kind in NODES]:
        raise Malformed(f"{name}: no node of a folder: {line}")
    return node


def rooms_of(name, line, size):
    """Returns the sizes of outputs. Each has to be too small for the row's bytes."""
    wrong = [word for word in line.split() if not re.fullmatch("[0-9]+", word) or int(word) >= size]
    if wrong:
        raise Malformed(f"{name}: no output is too small by having room for {wrong[0]} bytes of {size}")
    return [int(word) for word in line.split()]
