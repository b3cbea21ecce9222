#!/usr/bin/env python3
"""Compares the lines of git_dirty with those of git's status, over drawn configuration files that include others.

    python3 tools/stress/compare_includes.py --seeds 1000 [--first 0] [--keep FOLDER]

For each seed the configuration of a repository and of its user are written anew, and some files that these and each other
include, by all conditions of git's. Each file may set which user's ignore file counts, of which each ignores another file, and
whether executability counts and names are quoted. The branch, the working folder and a variable of the environment are drawn
too. The program has to print git's lines, and to fail if git fails. It may refuse a condition that it doesn't support.

The environment's GIT_DIRTY names the built program; without it that of this checkout is run. Each wrong end is printed with
its seed, and the exit status is 1 if there is one, and 2 if the seeds can't be run. With --keep the files of these seeds are
written to a folder.
"""

import collections
import os
import random
import shutil
import subprocess
import sys
import tempfile

sys.path.insert(0, os.path.dirname(os.path.dirname(os.path.abspath(__file__))))

from stress.mutate_settings import judged
from stress.seeds import main
from support.programs import GIT_DIRTY, Runner, room_of_memory
from support.repositories import SETTINGS, write

# How many seeds share a repository.
PART = 50
CONFIG = "[core]\n\trepositoryformatversion = 0\n\tbare = false\n"
# The files that are included, and those that include first, by their paths in the room.
INCLUDED = ["home/a.inc", "home/d/b.inc", "home/d/c.inc", "top/.git/d.inc", "top/e.inc", "f.inc"]
FIRST = ["top/.git/config", "home/.gitconfig", "home/.config/git/config"]
# How many files are untracked. For each there is an ignore file, which ignores it.
UNTRACKED = 12
BRANCHES = ["main", "topic/x", "topic/y/z", "t", "alias", None]
FOLDERS = ["top", "top", "top/sub", "link", "linked"]
URLS = ["https://example.com/a", "https://example.com/b/c", "git@example.com:a/b"]
GITDIRS = ["{room}/top/", "{room}/top/.git", "{room}/top", "{room}/t*/", "{room}/**", "{room}/*/.git", "top/", "top/.git", ".git", "**/.git"]
GITDIRS += ["~/", "~", "~/../top/", "./", "./../", "./../top/", "*/top/.git", "", "/", "{room}/TOP/", "TOP/.GIT", "{room}/link/", "link/"]
GITDIRS += ["t[a-p]p/", "to\\\\p/", "worktrees/linked", "worktrees/*", "linked/", "~nobody-here/", "{room}/home/", "{room}/t?p/.gi[t]"]
ON_BRANCHES = ["main", "topic/", "topic/**", "topic/*", "m*", "*", "**", "TOPIC/", "", "alias", "[mt]*", "refs/heads/main", "t"]
REMOTES = ["https://example.com/**", "https://*/**", "**", "*", "https://example.com/a", "https://EXAMPLE.com/*", "git@*:*/**", ""]
OTHERS = ["", "gitdir", "foo:bar", "Gitdir:**", "hasconfig:remote.x.url:**", "onbranch"]
# What has to come.
EACH = {"gitdir:", "gitdir/i:", "onbranch:", "hasconfig:remote.*.url:", "other", "relative", "absolute", "home", "missing", "a folder"}
EACH |= {"from the environment", "git's lines", "both fail", "a condition that isn't supported"}


class Files:
    """The drawn configuration files of a seed. `texts` are their texts by their paths, and `kinds` are of EACH."""

    def __init__(self, seed, room):
        self.draw, self.room, self.kinds, self.texts = random.Random(seed), room, set(), {}
        # Most files that include each other do it in one direction.
        self.is_ordered = self.draw.random() < 0.9
        for path in FIRST + INCLUDED:
            if path in FIRST[:2] or self.draw.random() < 0.7:
                front = CONFIG if path == FIRST[0] else ""
                self.texts[path] = front + "".join(self.section(path) for _ in range(self.draw.randrange(4)))
        self.branch, self.folder = self.draw.choice(BRANCHES), self.draw.choice(FOLDERS)
        self.settings = {"HOME": f"{room}/home", "PWD": f"{room}/{self.draw.choice(FOLDERS)}"}
        if self.draw.random() < 0.1:
            self.kinds.add("from the environment")
            name = self.draw.choice(["include.path", f"includeIf.{self.condition()}.path"])
            self.settings |= {"GIT_CONFIG_COUNT": "1", "GIT_CONFIG_KEY_0": name, "GIT_CONFIG_VALUE_0": self.path("top/.git/config")}

    def section(self, path):
        """Returns a section of a file."""
        draw, kind = self.draw, self.draw.random()
        if kind < 0.25:
            return f"[core]\n\texcludesFile = {self.room}/excludes/{draw.randrange(UNTRACKED)}\n"
        if kind < 0.4:
            return f"[core]\n\t{draw.choice(['fileMode', 'quotePath'])} = {draw.choice(['true', 'false'])}\n"
        if kind < 0.5:
            # A file that has a condition may not state one, so these are in the first files.
            return f'[remote "{draw.choice("ab")}"]\n\turl = {draw.choice(URLS)}\n' if path in FIRST or draw.random() < 0.05 else ""
        if kind < 0.55:
            return draw.choice(["[include]\n\tpath\n", "[includeIf]\n\tpath = x\n", "[include \"x\"]\n\tpath = x\n", "[include\n"][:3 + (draw.random() < 0.1)])
        if kind < 0.75:
            return f"[{draw.choice(['include', 'Include'])}]\n\tpath = {self.path(path)}\n{draw.choice(['', self.name_of_file()])}"
        return f'[{draw.choice(["includeIf", "INCLUDEIF"])} "{self.condition()}"]\n\tpath = {self.path(path)}\n'

    def name_of_file(self):
        """Returns another variable of a section `include`, which means nothing."""
        return f"\tother = {self.draw.choice(INCLUDED)}\n"

    def condition(self):
        """Returns a condition."""
        draw = self.draw
        front = draw.choice(["gitdir:", "gitdir:", "gitdir/i:", "onbranch:", "hasconfig:remote.*.url:", "other"])
        self.kinds.add(front)
        if front.startswith("gitdir"):
            return front + draw.choice(GITDIRS).format(room=self.room)
        if front == "other":
            return draw.choice(OTHERS)
        return front + draw.choice(ON_BRANCHES if front == "onbranch:" else REMOTES)

    def path(self, path):
        """Returns a path that a file includes."""
        draw, room = self.draw, self.room
        after = [it for it in INCLUDED if path in FIRST or INCLUDED.index(it) > INCLUDED.index(path)] if self.is_ordered else INCLUDED
        kind = draw.choice(["relative"] * 4 + ["absolute"] * 3 + ["home"] * 2 + ["missing", "a folder" if draw.random() < 0.2 else "missing"])
        self.kinds.add(kind)
        if kind == "missing" or not after:
            return draw.choice(["missing", "~/missing", f"{room}/missing/x", "~root/missing-here", "e.inc/x", "~nobody-here/x" if draw.random() < 0.1 else "x"])
        if kind == "a folder":
            return draw.choice([f"{room}/home", "~", "."])
        target = draw.choice(after)
        if kind == "home" and target.startswith("home/"):
            return "~" + target.removeprefix("home")
        return os.path.relpath(target, os.path.dirname(path)) if kind == "relative" else f"{room}/{target}"

    def write(self):
        """Writes the files and HEAD, and removes those that aren't drawn."""
        for path in FIRST + INCLUDED:
            place = os.path.join(self.room, path)
            if path in self.texts:
                write(place, self.texts[path])
            elif os.path.lexists(place):
                os.remove(place)
        head = f"ref: refs/heads/{self.branch}" if self.branch else "1" * 40
        write(os.path.join(self.room, "top/.git/HEAD"), head + "\n")


def made(git, room):
    """Makes the repository, its linked worktree, a link to it, and the ignore files."""
    top, words = os.path.join(room, "top"), ["-c", "user.name=a", "-c", "user.email=a"]
    subprocess.run([git, "init", "-q", "-b", "main", top], check=True)
    for path in ("tracked", "sub/tracked"):
        write(os.path.join(top, path), "foo")
    subprocess.run([git, "-C", top, "add", "."], check=True)
    subprocess.run([git, *words, "-C", top, "commit", "-q", "-m", "a"], check=True)
    subprocess.run([git, "-C", top, "worktree", "add", "-q", "-b", "linked", os.path.join(room, "linked")], check=True)
    write(os.path.join(top, ".git/refs/heads/alias"), "ref: refs/heads/main\n")
    os.symlink("top", os.path.join(room, "link"))
    for folder in ("top", "linked"):
        os.chmod(os.path.join(room, folder, "tracked"), 0o755)
        for number in range(UNTRACKED):
            write(os.path.join(room, folder, f"u{number}"), "foo")
        write(os.path.join(room, folder, "é"), "foo")
    for number in range(UNTRACKED):
        write(os.path.join(room, f"excludes/{number}"), f"u{number}\n*.inc\n")


def run(seeds, keep=None, program=GIT_DIRTY):
    """Runs some seeds. Returns the wrong ends, and how often each kind of a file and of an end came."""
    found, kinds, git_program = [], collections.Counter(), shutil.which("git") or "git"
    room_at = tempfile.TemporaryDirectory(dir=room_of_memory())
    with room_at as room, Runner(git_program, 10) as git, Runner(program, 10) as ours:
        room = os.path.realpath(room)
        made(git_program, room)
        settings = {name: value for name, value in SETTINGS.items() if name != "GIT_CONFIG_GLOBAL"}
        for seed in seeds:
            files = Files(seed, room)
            files.write()
            folder, environment = os.path.join(room, files.folder), {**settings, **files.settings}
            ended = ours.run(["-u", "-C", folder], environment)
            gits = git.run(["-C", folder, "--no-optional-locks", "status", "--porcelain", "-unormal", "--no-renames"], environment)
            if b"the condition of an include isn't supported" in ended.fault and ended.status == 2:
                wrong, kind = None, "a condition that isn't supported"
            else:
                wrong, kind = judged(ended, gits, False, [])
            kinds.update(files.kinds | {kind})
            if wrong:
                found.append(f"seed {seed}, in {files.folder}, {files.branch}, {files.settings}: {wrong}\n  program: {ended.text()}")
                for path, text in files.texts.items() if keep else ():
                    write(os.path.join(keep, f"{seed}.{path.replace('/', '_')}"), text)
    return found, kinds


if __name__ == "__main__":
    main(run, 1000, PART, GIT_DIRTY)
