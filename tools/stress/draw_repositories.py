"""Draws small git repositories from seeds, for compare_dirty.py and for tests of git_dirty.

A repository is drawn in two steps, since git compares times by seconds: `make` writes files, and lets git stage them
and their stats. `edit` changes the worktree, as a user may in a later second. The folder `.git` is written here, so that a
seed takes few processes.
"""

import hashlib
import os
import random
import re
import shutil
import subprocess
import zlib

from support.repositories import SETTINGS, THEN, id_of, make_git_folder, put_socket, read, wait_for_later_second, write

# Some names have another order by bytes than by components, and some are quoted by git, or by git alone in a pattern.
NAMES = ["a", "a-", "a.b", "a0", "A", "b c", "d\te", "f\ng", 'h"i', "j\\k", "\x01l\x7f", "é", "\u2028m", "\x85n"]
NAMES += ["日本", "\U00010000", " o ", "\\", "-p", "p", "*", "?[q]", "#r", "!s", ":t", "~", "u\r", "\x1b"]
NAMES += ["\a\b\v\f", ".gitx", "é\""]
FOLDERS = ["", "", "", "p/", "p/q/", "p-/", "p.q/", "r s/", "é/", "é/\n/", "x/y/z/"]
CONTENTS = ["", "foo", "bar", "foobar", "foo\n", "x" * 5000]
TARGETS = ["foo", "bar", "é", "p", "nowhere/at all", "t" * 200]
# The stages of each conflict.
CONFLICTS = [(1,), (2,), (1, 2), (3,), (1, 3), (2, 3), (1, 2, 3)]
# Seconds around THEN.
TIMES = [-2, -2, -2, -1, 0, 0, 1]
# Settings that git's status depends on, with the forms of their values.
NO = ["false", "no", "off", "0", '"false"', "False ; as on another system", ""]
YES = ["true", "yes", "on", "1", "TRUE"]
FORMS = {name: (NO, YES) for name in ("fileMode", "symlinks", "trustctime", "quotePath")}
FORMS["checkStat"] = (["minimal"], ["default"])
MODES = {"file": "100644", "run": "100755", "link": "120000", "module": "160000"}
# Who made a commit, and when.
AUTHOR = {f"GIT_{who}_{what}": text for who in ("AUTHOR", "COMMITTER")
          for what, text in (("NAME", "n"), ("EMAIL", "e"), ("DATE", f"{THEN} +0000"))}
# How a path is edited. Some edits leave it unchanged.
EDITS = ["put", "put", "grow", "same length", "same length", "same length", "swap", "swap", "swap other"]
EDITS += ["touch", "touch", "chmod", "chmod", "remove", "remove", "folder", "empty folder", "link", "link", "fifo", "socket"]
EDITS += ["target", "target", "link above", "file above", "no folder above"]


def drawn(kind, seeds, room):
    """Returns the repositories of these seeds in a folder, made and then edited in a later second."""
    drawings = [kind(seed, os.path.join(room, str(seed))) for seed in seeds]
    for drawing in drawings:
        os.makedirs(drawing.top)
        drawing.make()
    if kind.IS_EDITED:
        wait_for_later_second()
        for drawing in drawings:
            drawing.edit()
    return drawings


def entries_of(draw, rows, foo):
    """Yields most entries of rows of git ls-files. Some have another mode with the id of foo, or are below their path."""
    for mode, name, _, path in (re.split("[ \t]", row, maxsplit=3) for row in rows if draw.random() < 0.8):
        mode, name = draw.choice([(mode, name)] * 6 + [(mode, foo) for mode in MODES.values()])
        yield mode, name, 0, path + draw.choice(["", "", "", "", "", "/x", "/y/z"])


class Drawing:
    """The repository of a seed, in a folder that isn't there before. `environment` is that of git and of the program."""

    IS_EDITED, environment = True, SETTINGS
    # The failure of a run that compares with HEAD, if it has to fail, and words of what was drawn, which are counted.
    refusal, kinds = None, ()

    def __init__(self, seed, top):
        self.random, self.seed, self.top, self.room = random.Random(seed), seed, top, top
        self.kind = "sha256" if self.random.random() < 0.2 else "sha1"
        self.version = self.random.choice([2, 2, 4])
        # The kind of each path: file, run (executable), link, or module.
        self.paths, self.is_committed = {}, False
        # The files whose entries are those of a conflict.
        self.replaced = []
        # What was done, for who reads of a difference.
        self.notes = []

    def chance(self, share):
        return self.random.random() < share

    def path(self, name):
        return os.path.join(self.top, name)

    def git(self, *words, stdin=None, **settings):
        command = ["git", "-C", self.top, "--literal-pathspecs", *words]
        return subprocess.run(command, input=stdin, check=True, capture_output=True, env={**os.environ, **settings}).stdout

    def note(self, *words):
        self.notes.append(" ".join(map(str, words)))

    # The repository before the edits.

    def make(self):
        """Makes the worktree and its index."""
        make_git_folder(self.path(".git"), "ref: refs/heads/main")
        self.configure(f"[index]\n\tversion = {self.version}\n")
        for path in self.drawn_paths():
            self.paths[path] = self.random.choice(["file"] * 7 + ["run"] * 2 + ["link"] * 2)
            self.put(path, self.paths[path])
        self.stage()
        self.stage_more()
        # Before files are to be added: if one was in HEAD and is gone, git prints `DD`, as for a conflict.
        self.commit()
        self.flag()

    def drawn_paths(self):
        drawn = {self.random.choice(FOLDERS) + self.random.choice(NAMES) for _ in range(self.random.randrange(2, 22))}
        return sorted(path for path in drawn if not any(other.startswith(path + "/") for other in drawn))

    def configure(self, more):
        """Writes the settings of the repository."""
        lines = ["[core]", f"\trepositoryformatversion = {int(self.kind == 'sha256')}", "\tbare = false"]
        lines += ["[extensions]", "\tobjectFormat = sha256"] if self.kind == "sha256" else []
        write(self.path(".git/config"), "\n".join(lines) + "\n" + more)

    def put(self, path, kind):
        """Makes a file or a link, with a time around THEN, or now."""
        place = self.path(path)
        os.makedirs(os.path.dirname(place), exist_ok=True)
        if kind == "link":
            os.symlink(self.random.choice(TARGETS), place)
        else:
            write(place, self.random.choice(CONTENTS))
            os.chmod(place, self.random.choice([0o755, 0o744, 0o700] if kind == "run" else [0o644, 0o600, 0o655]))
        if not self.chance(0.1):
            self.set_time(place, THEN + self.random.choice(TIMES), self.random.choice([0, 0, 1, 500_000_000]))

    def set_time(self, place, second, nanos=0):
        moment = second * 10**9 + nanos
        os.utime(place, ns=(moment, moment), follow_symlinks=False)

    def stage(self):
        """Stages all files, most by git, which stores their stats, and some by their ids alone."""
        if self.chance(0.8):
            self.git("add", "-A")
            return
        self.note("staged by ids")
        self.put_entries([(MODES[kind], self.id_at(path), 0, path) for path, kind in self.paths.items()])
        if self.chance(0.5):
            self.note("refreshed")
            self.git("update-index", "-q", "--refresh")

    def id_at(self, path):
        """Returns the id of what is at a path. git reads the object of a link, and of no file."""
        if os.path.islink(self.path(path)):
            return self.put_object(os.readlink(self.path(path)).encode())
        return id_of(self.kind, read(self.path(path)))

    def put_object(self, text):
        name = id_of(self.kind, text)
        write(self.path(f".git/objects/{name[:2]}/{name[2:]}"), zlib.compress(f"blob {len(text)}\0".encode() + text, 1))
        return name

    def put_entries(self, entries, **settings):
        """Puts entries into the index by modes, ids, stages and paths. Mode 0 removes a path."""
        if lines := "".join(f"{mode} {name} {stage}\t{path}\0" for mode, name, stage, path in entries):
            self.git("update-index", "-z", "--index-info", stdin=lines.encode(), **settings)

    def free_path(self, name):
        """Returns a path of this name in a drawn folder, which is no file."""
        files = [*self.paths, *self.replaced]
        folders = [folder for folder in FOLDERS if not any(folder.startswith(path + "/") for path in files)]
        return self.random.choice(folders) + name

    def stage_more(self):
        """Stages conflicts and submodules."""
        entries = []
        for number, stages in enumerate(CONFLICTS):
            if self.chance(0.15):
                entries += self.conflict(number, stages)
        for number in range(self.random.choice([0, 0, 0, 1, 2])):
            path = self.free_path(f"module {number}")
            entries.append(("160000", self.make_module(path), 0, path))
        self.put_entries(entries)

    def conflict(self, number, stages):
        """Returns the entries of a conflict with these stages. It may replace a file's entry."""
        path, text = self.free_path(f"conflict {number}"), id_of(self.kind, b"foo")
        replaced = []
        if self.chance(0.2) and self.paths:
            path = self.random.choice(sorted(self.paths))
            del self.paths[path]
            self.replaced.append(path)
            replaced = [("0", text, 0, path)]
        elif self.chance(0.5):
            write(self.path(path), self.random.choice(CONTENTS))
        modes = [self.random.choice(["100644", "100644", "100755", "120000"]) for _ in stages]
        return replaced + [(mode, text, stage, path) for mode, stage in zip(modes, stages)]

    def make_module(self, path):
        """Makes a submodule, with one of the forms of a head. Returns the id that is staged for it."""
        self.paths[path] = "module"
        head, other = id_of(self.kind, b"1", "commit"), id_of(self.kind, b"2", "commit")
        self.put_module(path, head)
        return self.random.choice([head, head, other])

    def put_module(self, path, head):
        """Makes the folder of a submodule with this head, unless it has none."""
        folder = self.path(path)
        os.makedirs(folder, exist_ok=True)
        form = self.random.choice(["id", "id", "ref", "ref", "packed", "link", "file", "unborn", "none", "broken"])
        self.note("module", repr(path), form)
        if form == "none":
            return
        place = os.path.join(folder, ".git")
        if form == "file":
            place = self.path(f".git/modules/{len(self.notes)}")
            write(os.path.join(folder, ".git"), f"gitdir: {os.path.relpath(place, folder) if self.chance(0.5) else place}\n")
            form = self.random.choice(["id", "ref"])
        if form == "broken":
            os.mkdir(place)
            write(os.path.join(place, "HEAD"), head + "\n")
            return
        make_git_folder(place, head if form == "id" else "ref: refs/heads/main")
        if form == "packed":
            lines = "# pack-refs with: peeled fully-peeled sorted \n"
            lines += f"{'0' * len(head)} refs/heads/mai\n{head} refs/heads/main\n^{'1' * len(head)}\n"
            write(os.path.join(place, "packed-refs"), lines)
        elif form == "link":
            write(os.path.join(place, "refs/heads/main"), "ref: refs/heads/a/b\n")
            write(os.path.join(place, "refs/heads/a/b"), head + "\n")
        elif form == "ref":
            write(os.path.join(place, "refs/heads/main"), head + "\n")

    def flag(self):
        """Sets flags of some entries, and adds some files that are to be added."""
        plain = sorted(path for path, kind in self.paths.items() if kind != "module")
        for word in ("--assume-unchanged", "--skip-worktree"):
            if self.chance(0.15) and plain:
                flagged = self.random.sample(plain, min(3, len(plain)))
                self.git("update-index", word, "-z", "--stdin", stdin="\0".join(flagged).encode())
                self.note(word, flagged)
        if self.chance(0.3):
            names = ["intended", "intended é", "p-/intended"]
            for name in names:
                write(self.path(name), "foo")
                self.paths[name] = "file"
            self.git("add", "-N", "--", *names)

    def commit(self):
        """Commits most of what is staged, some of it otherwise, and leaves the index file. Git needs no blob for that."""
        self.is_committed = self.chance(0.7)
        if self.is_committed:
            settings = {"GIT_INDEX_FILE": self.path(".git/committed"), **AUTHOR}
            rows = self.git("ls-files", "-sz").decode().split("\0")[:-1]
            self.put_entries(entries_of(self.random, rows, id_of(self.kind, b"foo")), **settings)
            tree = self.git("write-tree", "--missing-ok", **settings).decode().strip()
            write(self.path(".git/refs/heads/main"), self.git("commit-tree", "-m", "one", tree, **settings))

    # The edits.

    def edit(self):
        """Changes the worktree, the settings, and the time of the index."""
        for path in self.random.sample(sorted(self.paths), len(self.paths) * 2 // 5):
            how = self.random.choice(EDITS)
            if self.is_reached(path) and os.path.lexists(self.path(path)):
                self.note(how, repr(path))
                self.edit_path(path, self.path(path), how)
        for number in range(self.random.randrange(2)):
            write(self.path(f"untracked {number}"), "foo")
        self.draw_settings()
        self.finish_index()

    def is_reached(self, path):
        """Returns whether no link leads to a path."""
        return os.path.realpath(os.path.dirname(self.path(path))) == os.path.realpath(self.top) + (
            "/" + os.path.dirname(path) if os.path.dirname(path) else ""
        )

    def edit_path(self, path, place, how):
        if self.paths[path] == "module":
            self.edit_module(path, place)
        elif how.endswith(" above"):
            self.edit_above(path, how)
        elif how == "touch":
            self.set_time(place, THEN + self.random.choice([*TIMES, 10**8]))
        elif how == "chmod":
            if not os.path.islink(place):
                os.chmod(place, os.stat(place).st_mode ^ self.random.choice([0o100, 0o111, 0o011, 0o022]))
        elif how == "target":
            self.put_target(place)
        elif how in ("grow", "same length", "swap", "swap other"):
            self.edit_content(place, how)
        else:
            os.remove(place)
            self.put_other(path, place, how)

    def edit_content(self, place, how):
        """Changes what is in a file or link, or its inode alone. The times are put back."""
        stat = os.lstat(place)
        times = (stat.st_atime_ns, stat.st_mtime_ns)
        text = os.readlink(place) if os.path.islink(place) else read(place).decode()
        if how != "swap":
            text = "y" * len(text) if how != "grow" else text + "z"
        if os.path.islink(place) or how.startswith("swap"):
            fresh = place + " new"
            if os.path.islink(place):
                os.symlink(text, fresh)
            else:
                write(fresh, text)
                os.chmod(fresh, stat.st_mode & 0o777)
            os.replace(fresh, place)
        else:
            write(place, text)
        os.utime(place, ns=times, follow_symlinks=False)

    def put_target(self, place):
        """Puts a file with a link's target in place of the link, as where there are no links."""
        if os.path.islink(place):
            text = os.readlink(place)
            os.remove(place)
            write(place, text)

    def put_other(self, path, place, how):
        """Puts something else in place of a file that was removed."""
        if how == "put":
            self.put(path, self.paths[path])
        elif how == "folder":
            write(place + "/x", "foo")
        elif how == "empty folder":
            os.mkdir(place)
        elif how == "link" and self.paths[path] == "link":
            write(place, self.random.choice(TARGETS))
        elif how == "link":
            self.put(path, "link")
        # In place of a file git and git_dirty have different letters for these.
        elif how == "fifo" and self.paths[path] == "link":
            os.mkfifo(place)
        elif how == "socket" and self.paths[path] == "link":
            put_socket(place)

    def edit_above(self, path, how):
        """Replaces a folder above a path by a link to it, a link to nothing, or a file, or removes it."""
        above, _, _ = path.rpartition("/")
        if not above or self.chance(0.5):
            return
        moved = self.path(f"moved {len(self.notes)}")
        shutil.move(self.path(above), moved)
        if how == "link above":
            os.symlink(self.random.choice([moved, "nowhere"]), self.path(above))
        elif how == "file above":
            write(self.path(above), "foo")

    def edit_module(self, path, place):
        """Gives a submodule another head, or puts something else in its place."""
        how = self.random.choice(["head", "head", "gone", "empty", "file", "link"])
        self.note(how, repr(path))
        if how == "link":
            moved = place + " moved"
            shutil.move(place, moved)
            os.symlink(os.path.basename(moved), place)
            return
        shutil.rmtree(place)
        if how == "head":
            self.put_module(path, id_of(self.kind, self.random.choice([b"1", b"2", b"3"]), "commit"))
        elif how == "empty":
            os.mkdir(place)
        elif how == "file":
            write(place, "foo")

    def draw_settings(self):
        """Draws settings of the repository, and writes each of them in one of its forms."""
        fronts = ["[core]", "[CORE]", "# settings\n[core] ; here", "[other]\n\tfileMode = x\n[Core]"]
        lines = self.random.choice(fronts) + "\n"
        for name, (no, yes) in FORMS.items():
            values = [self.random.choice(no)] if self.chance(0.2) else []
            values += [self.random.choice(yes)] if self.chance(0.1) else []
            self.random.shuffle(values)
            for value in values:
                name = self.random.choice([name, name.lower(), name.upper()])
                lines += f"\t{name} = {value}\n" if self.chance(0.8) else f"{name}={value}\n"
                self.note(f"core.{name} = {value}")
            if self.chance(0.03) and name.lower() != "checkstat":
                lines += f"\t{name}\n"
                self.note(f"core.{name}")
        ends = ["", '[remote "a \\"b\\" ] # c"]\n\turl = "x#y;\\n" \\\n  z # w\n\tfetch\n', "[a.b]\n\tc=d"]
        lines += self.random.choice(ends)
        self.configure(lines)

    def finish_index(self):
        """Gives the index a time at which entries are racy, or an empty checksum."""
        index = self.path(".git/index")
        if not os.path.exists(index):
            return
        if self.chance(0.1):
            self.note("no checksum")
            width = hashlib.new(self.kind).digest_size
            with open(index, "r+b") as file:
                file.seek(-width, os.SEEK_END)
                file.write(bytes(width))
        if self.chance(0.4):
            second, nanos = THEN + self.random.choice(TIMES), self.random.choice([0, 0, 1, 999_999_999])
            self.note("index written at", second - THEN, nanos)
            self.set_time(index, second, nanos)

    # What is asked of it.

    def some_paths(self, folder):
        """Returns paths to ask for, relative to a folder of the worktree: of entries, folders, and of nothing."""
        known = self.known_paths()
        above = sorted({path[: at + 1] for path in known for at, letter in enumerate(path) if letter == "/"})
        pool = known * 2 + [path.rstrip("/") for path in above] + above + ["nothing", "p", "r", "conflict 1"]
        drawn = self.random.sample(pool, self.random.randrange(1, 4)) + (["."] if self.chance(0.1) else [])
        return [relative(path, folder) for path in drawn]

    def known_paths(self):
        """Returns the paths that may be asked for."""
        return sorted(self.paths)

    def some_folder(self):
        """Returns a folder of the worktree that is there, and that no other repository has."""
        known = {os.path.dirname(path) for path in self.paths if self.is_reached(path)}
        folder = self.random.choice([path for path in sorted(known) if os.path.isdir(self.path(path))] or [""])
        above = [folder[:at] for at in range(1, len(folder) + 1) if folder[at : at + 1] in ("", "/")]
        return "" if any(os.path.lexists(self.path(f"{one}/.git")) for one in above) else folder


def relative(path, folder):
    """Returns a path from the top as one from a folder. An ending slash stays."""
    return os.path.relpath(path, folder or ".") + "/" * path.endswith("/")
