#!/usr/bin/env python3
"""Makes docs/git-dirty.1, the page of the system's manual, from docs/GIT_DIRTY.md:

    python3 tools/manual.py

It knows the Markdown of that page: headings, paragraphs, lists, code and tables. A table becomes a list with one item for
each row. Links become their text. With --print the page goes to standard output.
"""

import re
import sys
from pathlib import Path

TOP = Path(__file__).resolve().parents[1]
NAME = r"git\-dirty \- list the tracked files of a git worktree that differ from HEAD or from the index"
ITEM = re.compile(r"(- |\d+\. )")
# Marks of inline code, bold and italic text.
INLINE = re.compile(r"`([^`]+)`|\*\*(.+?)\*\*|(?<!\*)\*([^*]+)\*(?!\*)")
# Letters of code that the formatter would print as other ones.
CODE = {"-": r"\-", "'": r"\(aq", "`": r"\(ga", "^": r"\(ha", "~": r"\(ti"}


def escaped(text, code=False):
    text = text.replace("\\", r"\e")
    return "".join(CODE.get(letter, letter) for letter in text) if code else text


def inline(text):
    """Returns a text with fonts in place of marks, and without the targets of links."""
    text, parts, end = re.sub(r"\[([^\]]*)\]\([^)]*\)", r"\1", text), [], 0
    for mark in INLINE.finditer(text):
        code, bold, italic = mark.groups()
        font, inner = ("I", inline(italic)) if italic else ("B", escaped(code, True) if code else inline(bold))
        # Code within bold text ends with a font of its own.
        parts += [escaped(text[end : mark.start()]), rf"\f{font}", inner.replace(r"\fR", rf"\f{font}"), r"\fR"]
        end = mark.end()
    return "".join([*parts, escaped(text[end:])])


def line(text):
    """Returns a line of text, which mustn't begin as a request does."""
    return r"\&" + text if text[:1] in (".", "'") else text


def paragraph(lines):
    return line(inline(" ".join(it.strip() for it in lines)))


def code(lines):
    return [".RS 4", ".nf", *(line(escaped(it, True)) for it in lines), ".fi", ".RE"]


def cells(row):
    return [cell.strip().replace(r"\|", "|") for cell in re.split(r"(?<!\\)\|", row.strip())[1:-1]]


def table(rows):
    """Returns an item for each row. With more than two columns each cell after the first has the name of its column."""
    heads, made = cells(rows[0]), []
    for first, *others in map(cells, rows[2:]):
        made += [".TP", line(inline(first))]
        if len(others) == 1:
            made.append(line(inline(others[0])))
            continue
        named = [line(rf"\fI{head}\fR: {inline(cell)}") for head, cell in zip(heads[1:], others)]
        made += [part for cell in named for part in (cell, ".br")][:-1]
    return made


def blocks(lines):
    """Returns the lines of the page for these lines of Markdown, which aren't indented."""
    made, number = [], 0
    while number < len(lines):
        first, start = lines[number], number
        number += 1
        if not first.strip():
            continue
        item = ITEM.match(first)
        if first.startswith("```"):
            while lines[number] != "```":
                number += 1
            made += [".PP", *code(lines[start + 1 : number])]
            number += 1
        elif heading := re.match(r"(##+) (.*)", first):
            made.append(f".SH {heading[2].upper()}" if len(heading[1]) == 2 else f".SS {heading[2]}")
        elif first.startswith("|"):
            while number < len(lines) and lines[number].startswith("|"):
                number += 1
            made += table(lines[start:number])
        elif item:
            width = len(item[1])
            while number < len(lines) and (lines[number].startswith(" " * width) or indented_later(lines, number, width)):
                number += 1
            made += list_item(item[1], [first[width:], *(it[width:] for it in lines[start + 1 : number])])
        else:
            while number < len(lines) and lines[number].strip() and not re.match(r"```|\||#", lines[number]):
                number += 1
            made += [".PP", paragraph(lines[start:number])]
    return made


def indented_later(lines, number, width):
    """Returns whether this line is empty, and the item goes on after it."""
    return not lines[number] and number + 1 < len(lines) and lines[number + 1].startswith(" " * width)


def list_item(mark, lines):
    """Returns an item of a list. Its first paragraph ends at the first empty line, and its other blocks are indented."""
    end = lines.index("") if "" in lines else len(lines)
    made = [rf".IP {mark.strip()} 3" if mark != "- " else r".IP \(bu 3", paragraph(lines[:end])]
    return made if end == len(lines) else [*made, ".RS 3", *blocks(lines[end:]), ".RE"]


def manual():
    """Returns the page."""
    text = (TOP / "docs" / "GIT_DIRTY.md").read_text(encoding="utf-8")
    day = re.search(r"^## ([-\d]+)", (TOP / "CHANGELOG.md").read_text(encoding="utf-8"), re.M)[1]
    front, _, rest = text.partition("\n## Synopsis\n")
    synopsis, rest = re.match(r"\n```\n(.*?)\n```\n(.*)", rest, re.S).groups()
    made = [r".\" Made by tools/manual.py from docs/GIT_DIRTY.md.", f".TH GIT\\-DIRTY 1 {day}", ".nh", ".ad l"]
    made += [".SH NAME", NAME]
    made += [".SH SYNOPSIS", ".nf", *(escaped(it, True) for it in synopsis.split("\n")), ".fi", ".SH DESCRIPTION"]
    made += blocks(front.split("\n")[1:]) + blocks(rest.split("\n"))
    made += [".SH SEE ALSO", r"\fBgit\-status\fR(1), \fBgit\-diff\fR(1), \fBgit\-update\-index\fR(1)"]
    # After a heading a paragraph begins by itself.
    lines = [it for at, it in enumerate(made) if not (it == ".PP" and made[at - 1].startswith((".SH", ".SS")))]
    return "\n".join(lines) + "\n"


if __name__ == "__main__":
    if sys.argv[1:] == ["--print"]:
        sys.stdout.write(manual())
    else:
        (TOP / "docs" / "git-dirty.1").write_text(manual(), encoding="utf-8")
