#!/usr/bin/env python3
"""Prints the contracts of the crates: what docs/contracts.txt keeps.

    python3 tools/gate/contracts.py > docs/contracts.txt

Exported items are sorted by module and name: functions and methods with their signature and clauses, traits,
implementations with their ghost members, types with their derives and their public fields or variants, the items that macros
write, and the names that are exported again. White space is folded, and comments, bodies, other attributes and `use` lines are
left out. So whoever changes a contract changes docs/contracts.txt in the same commit: test_contracts.py compares the two. The
definitions that the clauses use are in specs/, and a change of them shows there.
"""

import os
import re
import sys
from dataclasses import dataclass
from pathlib import Path

TOP = Path(__file__).resolve().parents[2]
# Crates whose functions are called by nobody: they hold tests and examples.
WITHOUT_CALLERS = ("program_tests", "status_callers", "status_tests")
STRING = r'b?"(?:\\.|[^"\\])*"'
# What a scan passes over whole: a string, a character, a lifetime, a comment.
PASSED = re.compile(rf"{STRING}|b?'(?:\\.[^']*|[^'\\])'|'\w+|//[^\n]*", re.S)
PAIRS, CLAUSE = {"{": "}", "(": ")", "[": "]"}, re.compile(r"\b(ensures|requires)\b")
HEAD = re.compile(
    r"(?P<pub>pub(?:\((?P<within>[^)]*)\))? +)?(?P<ghost>ghost +)?(?:unsafe +)?(?:const +(?=fn))?"
    r"(?P<word>fn|struct|enum|trait|impl|type|mod|use|const|static)\b"
)
NAME = re.compile(r"[^\W\d][\w'-]*")
# A macro call among items.
MACRO = re.compile(r"\s*(\w+)!")
# The traits that bitflag_items! of the kit's crate bitflags implements.
FLAG_TRAITS = [f"std::fmt::{name}" for name in ("Binary", "Octal", "LowerHex", "UpperHex")] + ["IntoIterator", "std::ops::Not"]
FLAG_TRAITS += [f"std::ops::{name}{ending}" for name in ("BitOr", "BitAnd", "BitXor", "Sub") for ending in ("", "Assign")]


@dataclass(frozen=True)
class Item:
    """An item of a file: how it begins, up to its braces or its semicolon, and what its braces hold, if it has any."""

    head: str
    body: str | None
    derives: str = ""


def fold(text):
    """A text on one line."""
    return " ".join(text.split())


def without_comments(text):
    """A text of Rattle without comments."""
    return PASSED.sub(lambda it: "" if it[0].startswith("//") else it[0], text)


def end_of(text, at):
    """Returns the position after the bracket that closes the one at a position."""
    inside, closing = [PAIRS[text[at]]], None
    at += 1
    while inside:
        if passed := PASSED.match(text, at):
            at = passed.end()
            continue
        if text[at] in PAIRS:
            inside.append(PAIRS[text[at]])
        elif text[at] == inside[-1]:
            closing = inside.pop()
        at += 1
    assert closing
    return at


def clauses_in(head):
    """Returns a head without its clauses, and each clause."""
    clauses, rest, at = [], [], 0
    while found := CLAUSE.search(head, at):
        end = end_of(head, head.index("{", found.end()))
        rest.append(head[at : found.start()])
        clauses.append(fold(head[found.start() : end]))
        at = end
    return fold("".join(rest) + head[at:]), clauses


def items_in(text):
    """Yields the items of a file, a trait or an implementation, in order. Clauses belong to the head."""
    at, derives = 0, ""
    while at < len(text):
        if text[at].isspace():
            at += 1
        elif text[at] == "#":
            end = end_of(text, text.index("[", at))
            derives += text[at:end] if text.startswith("#[derive", at) else ""
            at = end
        else:
            start, body = at, None
            while text[at] not in ";{" or CLAUSE.search(clause_word(text, start, at)):
                passed = PASSED.match(text, at)
                at = passed.end() if passed else end_of(text, at) if text[at] in PAIRS else at + 1
            end = at + 1
            if text[at] == "{":
                end = end_of(text, at)
                body = text[at + 1 : end - 1]
            head = text[start:at]
            # (a ghost member or a use list ends by a semicolon after its braces)
            if head.lstrip().startswith(("ghost ", "use ", "pub use ", "pub ghost ")):
                stop = text.index(";", end - 1 if text[at] == "{" else at)
                head, body, end = text[start:stop], None, stop + 1
            yield Item(head, body, derives)
            at, derives = end, ""


def clause_word(text, start, at):
    """Returns the words right before a brace, back to the last bracket: a clause begins with one of them."""
    return re.split(r"[{}();]", text[start:at])[-1] if text[at] == "{" else ""


def indented(lines):
    return ["  " + line for line in lines]


def function(head):
    """Returns the lines of a function: its signature and its clauses."""
    signature, clauses = clauses_in(head)
    return [signature, *indented(clauses)]


def members(body, only_public):
    """Returns the lines of the members of a trait or an implementation."""
    lines = []
    for item in items_in(body):
        found = HEAD.match(item.head)
        if not found or found["word"] == "use":
            lines += [] if found or "ghost use" in item.head else [fold(item.head)]
        elif found["word"] == "fn":
            lines += function(item.head) if not only_public or is_exported(found) else []
        else:
            lines.append(fold(item.head))
    return lines


def is_exported(found):
    return found["pub"] is not None and found["within"] is None


def fields(body):
    """Returns the lines of the public and ghost fields of a struct, or of all variants of an enum."""
    text = re.sub(r"#\[(?:[^\[\]]|\[[^\]]*\])*\]", "", body)
    parts, depth, start = [], 0, 0
    for at, letter in enumerate(text):
        depth += {"{": 1, "(": 1, "[": 1, "<": 1, "}": -1, ")": -1, "]": -1}.get(letter, 0)
        depth -= letter == ">" and text[at - 1] not in "-=" and depth > 0
        if letter == "," and depth == 0:
            parts.append(text[start:at])
            start = at + 1
    return [fold(part) for part in [*parts, text[start:]] if part.strip()]


def lines_of(item, found):
    """Returns the lines of an exported item, or none if it isn't exported."""
    word, head = found["word"], fold(item.head)
    if word == "impl":
        is_of_trait = re.search(r"\bfor\b(?! *<)", re.sub(r"<[^<>]*>", "", head)) is not None
        lines = members(item.body, only_public=not is_of_trait)
        return [head, *indented(lines)] if lines or is_of_trait else []
    if not is_exported(found):
        return []
    if word == "fn":
        return function(item.head)
    if word == "trait":
        return [head, *indented(members(item.body, only_public=False))]
    if word == "use":
        start, _, names = head.partition("{")
        return sorted(f"{start}{name.strip()}" for name in names.rstrip("}").split(",") if name.strip()) if names else [head]
    if word in ("struct", "enum") and item.body is not None:
        told = fields(item.body)
        shown = told if word == "enum" else [it for it in told if it.startswith("pub ") or "ghost " in it]
        return [*([fold(item.derives)] if item.derives else []), head, *indented(shown)]
    return [head]


def written_by(macro, body):
    """Yields the titles and the lines of the items that a macro call writes. Of an implemented trait only the name is shown,
    as of a derived one."""
    if macro != "bitflag_items":
        raise ValueError(f"it isn't known which items {macro}! writes")
    for item in items_in(body):
        name = re.fullmatch(r"impl (\w+): \w+", fold(item.head))[1]
        flags = [re.fullmatch(r"const (\w+) = (.+)", fold(flag.head)) for flag in items_in(item.body)]
        constants = [f"pub const {flag[1]}: {name} = {name}({flag[2]})" for flag in flags]
        constants.append(f"pub const FLAGS: &'static [bitflags::Flag<{name}>]")
        yield f"impl {name}", [f"impl {name}", *indented(constants)]
        for trait in FLAG_TRAITS:
            yield f"impl {trait} for {name}", [f"impl {trait} for {name}"]


def title_of(item, found):
    """Returns the name by which an item is sorted."""
    if found["word"] in ("impl", "use"):
        return fold(item.head) if found["word"] == "impl" else "names exported again"
    return NAME.search(fold(item.head)[found.end() :])[0]


def exported(crate, path, text):
    """Returns the lines of the exported items of a file, by their titles."""
    module = path.removeprefix("src/").removesuffix(".rt").removesuffix("/mod").replace("/", "::")
    return exported_in(f"{crate}::{module}", without_comments(re.sub(r"^\s*#!\[.*\]$", "", text, flags=re.M)))


def exported_in(module, text):
    """Returns the lines of the exported items of a module, and of the exported modules in its text, by their titles."""
    items = {}
    for item in items_in(text):
        if macro := MACRO.match(item.head):
            for title, lines in written_by(macro[1], item.body):
                items.setdefault(f"{module}: {title}", []).extend(lines)
            continue
        found = HEAD.match(item.head)
        lines = lines_of(item, found) if found else []
        if lines:
            items.setdefault(f"{module}: {title_of(item, found)}", []).extend(lines)
        if lines and found["word"] == "mod" and item.body is not None:
            items.update(exported_in(f"{module.removesuffix('::lib')}::{title_of(item, found)}", item.body))
    return items


def contracts(top):
    """Returns the lines of each exported item of a repository's crates, by its title."""
    names = re.findall(r"^(\w+)", (top / "crates.txt").read_text(encoding="utf-8"), re.M)
    all_items = {}
    for crate in sorted(set(names) - set(WITHOUT_CALLERS)):
        for path in sorted((top / "crates" / crate / "src").rglob("*.rt")):
            inside = path.relative_to(top / "crates" / crate).as_posix()
            all_items.update(exported(crate, inside, path.read_text(encoding="utf-8")))
    return all_items


def text_of(items):
    """Returns the text that docs/contracts.txt has: each module, with its items."""
    modules = {}
    for title, lines in sorted(items.items()):
        modules.setdefault(title.partition(": ")[0], []).extend(lines)
    return "\n".join(f"{module}\n" + "".join(f"  {line}\n" for line in lines) for module, lines in sorted(modules.items()))


if __name__ == "__main__":
    os.environ.setdefault("PYTHONIOENCODING", "utf-8")
    sys.stdout.reconfigure(encoding="utf-8")
    print(text_of(contracts(TOP)), end="")
