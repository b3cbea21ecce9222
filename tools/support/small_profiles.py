"""Small profiles with the expected output of the program, for the scripts that run it under stress, and for tests."""

import json
import os
from dataclasses import dataclass, field

from support.repositories import id_of, read, write

# The second in which the entries and their files were last changed.
OLD = 4


@dataclass(frozen=True)
class Row:
    """A command's profile, and how its run ends."""

    command: str
    profile: dict
    out: str = ""
    fault: str = ""
    # The nodes in the profile's folder, if it has one: the texts of files and the targets of links.
    files: dict = field(default_factory=dict)
    links: dict = field(default_factory=dict)
    # The text of the file that a refresh writes to, if it is there before.
    old: "str | None" = None

    @property
    def status(self):
        return int(self.fault != "")

    @property
    def is_joined(self):
        return any(self.profile.get("options", {}).get(name) for name in ("untracked", "renames", "sort"))

    def words(self, file):
        """Returns the program's arguments for a profile in this file."""
        return [self.command, file, *more_words(self.command, file)]

    def make_files(self, top):
        """Makes the nodes in the folder. The files are as old as the entries of the index."""
        for path in {**self.files, **self.links}:
            place = os.path.join(top, path)
            if path in self.links:
                os.symlink(self.links[path], place)
            else:
                write(place, self.files[path])
                os.utime(place, (OLD, OLD))

    def with_limit(self, limit):
        """Returns the profile with this limit of threads in its options, or in its runs."""
        if self.command != "replay":
            return self.profile | {"options": self.profile.get("options", {}) | {"thread_limit": limit}}
        return self.profile | {"events": [limited(event, limit) for event in self.profile["events"]]}


def more_words(command, file):
    """Returns the arguments after the profile's file: a refresh writes to another file next to it."""
    return (f"{file}.out", "10", "0") if command == "refresh" else ()


def put_out(file, text):
    """Makes the file that a refresh of this profile's file writes to, unless the text is None."""
    if text is not None:
        write(f"{file}.out", text)


def taken_out(file):
    """Returns the texts of the files that a refresh left next to a profile's file, by their endings. Removes them."""
    texts = {}
    for ending in (".out", ".out.lock"):
        if os.path.lexists(file + ending):
            texts[ending] = read(file + ending).decode(errors="replace")
            os.remove(file + ending)
    return texts


def wrong_files(file, status, old=None, new=None):
    """Returns what is wrong with the files that a refresh leaves next to a profile's, or None. Removes them. A refresh that
    failed leaves the file that it writes to unchanged: `old`, or not there. Otherwise the file is there, with the text `new`
    if that is known. No lock is left in any case."""
    texts = taken_out(file)
    out = texts.get(".out")
    if ".out.lock" in texts:
        return "a lock is left"
    if status != 0:
        return None if out == old else f"a refresh that failed leaves {out!r} in place of {old!r}"
    return None if out is not None and new in (None, out) else f"a refresh leaves {out!r} in place of {new!r}"


def limited(event, limit):
    return [*event[:3], limit, event[4]] if event[0] == "run" else event


def is_below(path, folder):
    return path.startswith(folder + "/")


def text_of(path):
    """Returns a path as a compact JSON text."""
    return json.dumps(path, ensure_ascii=False)


def entry(path, text, **more):
    return {"path": path, "id": id_of("sha1", text), "size": len(text), "mtime": [OLD, 0], **more}


def node(path, text, **more):
    return {"path": path, "text": text, "mtime": [7, 0], **more}


MODIFIED = {"timestamp": [9, 0], "options": {"chunk_size": 1}}
MODIFIED["index"] = [entry("a", "foo", mtime=[5, 0]), entry("b", "bar", mtime=[5, 0])]
MODIFIED["worktree"] = [node("a", "bars"), node("b", "bar", mtime=[5, 0])]
CONFLICT_TOTALS = "total: to process 5, processed 3, skipped 0, lstat 2, to update 0, racy 0, read 0, bytes 0\n"
CONFLICT = {"timestamp": [9, 0], "options": {"chunk_size": 2, "counts": True}}
CONFLICT["index"] = [entry("a", "foo"), *(entry("f", "foo", stage=stage) for stage in (1, 2, 3)), entry("g", "foo")]
CONFLICT["worktree"] = [node(path, "foo", mtime=[OLD, 0]) for path in ("a", "f", "g")]
HISTORY = {"clock": 5, "timestamp": 5, "options": {"trust_ctime": False}}
HISTORY["events"] = [["write", "a", "foo"], ["stage", "a"], ["write", "b", "foo"], ["stage", "b"], ["write", "a", "bar"]]
HISTORY["events"] += [["tick", 1], ["run", "hash", 1, 2, 6], ["tick", 1], ["run", "hash", 1, 2, 7]]
REOPENED = HISTORY | {"events": [part for event in HISTORY["events"] for part in (event, ["reopen"])]}
RENAMES = {"timestamp": [9, 0], "options": {"chunk_size": 1, "untracked": True, "renames": True, "sort": True}}
RENAMES["index"] = [entry("a", "foo"), entry("m", "foo")]
RENAMES["worktree"] = [node("b", "foo"), node("c", "foo"), node("m", "bars"), node("n", "bar"), node("o", "bar")]
# Untracked files and a link, on three levels, next to an entry and below the directory of one.
LISTED = {"timestamp": [9, 0], "options": {"chunk_size": 1, "untracked": True}, "index": [entry("d/a", "foo"), entry("m", "foo")]}
LISTED["worktree"] = [node("b", "foo"), node("d/a", "bars"), node("d/c", "foo"), node("d/e/f", "foo")]
LISTED["worktree"] += [node("l", "m", kind="link"), node("m", "foo", mtime=[OLD, 0])]
# Names that are longer than a path that the program keeps without memory.
LONG = "/".join(["long" * 20] * 4)
FOLDER = {"timestamp": [9, 0], "options": {"trust_ctime": False, "check_stat": False, "chunk_size": 1}, "folder": "folder"}
FOLDER["index"] = [entry("d/changed", "foo"), entry("gone", "foo"), entry("link", "away", mode="120000")]
FOLDER["index"] += [entry(LONG, "foo"), entry("same", "foo")]
FOLDER_LINES = f'0 modified -c- "d/changed"\n1 removed "gone"\n2 modified -c- "link"\n3 modified -c- "{LONG}"\n'
FOLDER_FILES = {"d/changed": "bars", LONG: "bars", "same": "foo"}
MALFORMED = {"timestamp": [9, 0], "index": [entry("a", "foo"), {"path": "b", "id": "c0ffee"}], "worktree": []}

ROWS = {
    "modified": Row("status", MODIFIED, '0 modified -c- "a"\n'),
    "conflict": Row("status", CONFLICT, '1 conflict both-modified 123 "f"\n' + CONFLICT_TOTALS),
    "history": Row("replay", HISTORY, 'run 1\n0 modified -cs "a"\n1 update "b"\nrun 2\n0 modified -c- "a"\n'),
    "reopened": Row("replay", REOPENED, 'run 1\n0 modified -cs "a"\n1 update "b"\nrun 2\n0 modified -c- "a"\n'),
    "refreshed": Row("refresh", MODIFIED, '0 modified -c- "a"\n'),
    "refreshed_over": Row("refresh", MODIFIED, '0 modified -c- "a"\n', old="what was there\n"),
    "listed": Row("status", LISTED, '0 modified -c- "d/a"\n- added "b"\n- added "d/c"\n- added "d/e/f"\n- added "l"\n'),
    "renames": Row("status", RENAMES, '- renamed "a" "b"\n- added "c"\n1 modified -c- "m"\n- added "n"\n- added "o"\n'),
    "folder": Row("status", FOLDER, FOLDER_LINES, files=FOLDER_FILES, links={"link": "elsewhere"}),
    "malformed": Row("status", MALFORMED, fault="bad profile: index\n"),
}
