"""Draws git repositories with a history of commits from seeds, for compare_commits.py and for tests of git_dirty.

A history is a list of steps: the worktree is changed, or git runs a drawn command, which may fail, as a merge with a
conflict does. Then git may pack the objects, and the rest is done in the repository itself, in a clone or in a linked
worktree.
"""

import os
import shutil
import subprocess

from stress.draw_repositories import AUTHOR, MODES, Drawing
from support.repositories import SETTINGS, STATUS_OF_HEADS, THEN, read, write

# Few paths, so that branches change the same ones. Some are below others, and have another order than these.
PATHS = ["a", "a", "d", "d/b", "d/b", "d/c/e", "d.x", "d-", "p/q/r", "é", "b c", "\u2028m"]
MODULES = ["m", "d/m", "p/q"]
BRANCHES = ["main", "one", "a/b"]
# What a command may name as a commit. Some aren't there.
COMMITS = [*BRANCHES, *BRANCHES, "HEAD", "HEAD", "HEAD~1", "HEAD~1", "HEAD~2", "HEAD^2", "ORIG_HEAD"]
# Commands with how often they are drawn. {path}, {other}, {branch} and {commit} are drawn too.
COMMANDS = """
9 add -A
2 add -N .
2 add -- {path}
1 rm -q --cached -r -- {path}
2 mv -f {path} {other}
12 commit -q -m one
4 commit -q -a -m all
1 commit -q --amend -m more
1 commit -q --allow-empty -m none
3 checkout -q -B {branch}
3 checkout -q {branch}
2 checkout -q -f {branch}
1 checkout -q --detach {commit}
6 merge -q --no-edit {commit}
1 merge -q --no-commit --no-ff {commit}
1 merge -q --squash {commit}
1 merge -q -m ours -s ours {commit}
1 merge -q --allow-unrelated-histories --no-edit {commit}
2 cherry-pick --allow-empty --keep-redundant-commits {commit}
2 revert --no-commit {commit}
1 rebase -q {branch}
1 stash -q
2 reset -q --soft {commit}
2 reset -q --mixed {commit}
2 reset -q --hard {commit}
1 reset -q -N {commit}
1 reset -q {commit} -- {path}
1 checkout -q {commit} -- {path}
1 read-tree {commit}
1 read-tree --empty
1 update-index --chmod=+x {path}
1 update-index --force-remove {path}
1 tag -f v
"""
# Those that may leave a conflict, over a clean worktree.
MERGES = """
2 merge -q --no-edit {branch}
1 cherry-pick {branch}
1 cherry-pick --no-commit {commit}
1 revert --no-commit {commit}
1 rebase -q {branch}
1 checkout -q -m {branch}
"""
# Those that leave HEAD in another form.
HEADS = """
1 checkout -q --detach
1 checkout -q --orphan born
1 update-ref -d refs/heads/main
1 symbolic-ref HEAD refs/heads/none/such
1 symbolic-ref HEAD refs/heads/alias
1 pack-refs --all
"""
# Those that stage some of the last changes.
STAGINGS = """
1 add -A
1 add -N .
1 add -- {path}
1 rm -q --cached -r -- {path}
1 reset -q -- {path}
1 read-tree {commit}
"""
# Ways to store the objects.
PACKS = """
2 repack -qadf --depth=50 --window=50
1 -c repack.useDeltaBaseOffset=false repack -qadf --depth=50 --window=50
1 -c pack.packSizeLimit=1m repack -qadf
2 repack -qd
1 gc -q --prune=now
1 gc -q --cruft
1 multi-pack-index write
1 commit-graph write --reachable
"""
# Where the history goes on. {from} is the repository, and {to} another folder.
PLACES = """
1 clone -q -s {from} {to}
1 clone -q -s -n {from} {to}
1 clone -q --reference {from} {from} {to}
1 clone -q {from} {to}
1 clone -q --depth 1 file://{from} {to}
1 clone -q --depth 2 --no-single-branch file://{from} {to}
1 worktree add -q --detach {to}
1 worktree add -q -b other {to} {commit}
1 worktree add -q --no-checkout --detach {to}
"""
LINES = [f"{number}\n" for number in range(8)]
# The failure of a run that would read a replaced object, for compare_dirty.py.
REPLACED = rb"\Agit dirty: the index isn't compared with HEAD, since the repository replaces objects [^\n]*\n\Z"


def commands_of(table):
    """Returns each command of a table as often as it is drawn."""
    rows = (line.split(" ", 1) for line in table.strip().splitlines())
    return [text for times, text in rows for _ in range(int(times))]


# All that has to come: commands that succeed, forms of HEAD and of ids, and kinds of entries.
EACH = {text for table in (COMMANDS, HEADS, STAGINGS, PACKS, PLACES) for text in commands_of(table)}
EACH |= {"sha1", "sha256", "unborn", "detached", "replaced", *MODES}


class CommitDrawing(Drawing):
    """The repository of a seed, with its history, in a folder with those that it was made of. `kinds` are of EACH."""

    def __init__(self, seed, top):
        super().__init__(seed, top)
        self.room, self.top, self.steps, self.kinds = top, os.path.join(top, "one"), 0, {self.kind}

    def succeeds(self, *words):
        """Runs a command of git, which may fail. Returns whether it succeeds."""
        self.steps += 1
        date = f"{THEN + self.steps} +0000"
        settings = {**os.environ, **SETTINGS, **AUTHOR, "GIT_AUTHOR_DATE": date, "GIT_COMMITTER_DATE": date}
        settings["GIT_EDITOR"] = "true"
        command = ["git", "-C", self.top, "-c", "gc.auto=0", "-c", "pack.threads=1", "--literal-pathspecs", *words]
        ran = subprocess.run(command, env=settings, stdin=subprocess.DEVNULL, capture_output=True, timeout=60)
        self.note("git", *map(repr, words), *[f"({ran.returncode})"] * (ran.returncode != 0))
        return ran.returncode == 0

    def try_one(self, table):
        """Runs a drawn command of a table with drawn words. Returns whether it succeeds."""
        text = self.random.choice(commands_of(table))
        drawn = {"path": PATHS, "other": PATHS, "branch": BRANCHES, "commit": COMMITS}
        drawn = {name: self.random.choice(words) for name, words in drawn.items()}
        drawn |= {"from": self.top, "to": os.path.join(self.room, f"{self.steps + 1} other")}
        is_done = self.succeeds(*(word.format(**drawn) for word in text.split(" ")))
        self.kinds |= {text} if is_done else set()
        return is_done

    # The repository before the edits.

    def make(self):
        self.git("init", "-q", "-b", "main", f"--object-format={self.kind}")
        self.git("config", "index.version", str(self.version))
        self.has_many = self.chance(0.3)
        if self.chance(0.9):
            self.change()
            self.succeeds("add", "-A")
            self.succeeds("commit", "-q", "--allow-empty", "-m", "first")
            for name in BRANCHES[1:]:
                self.succeeds("branch", name)
        for _ in range(self.random.randrange(30)):
            self.step()
        while self.chance(0.4):
            self.try_one(PACKS)
        if self.chance(0.4):
            self.move()
        if self.chance(0.35):
            self.succeeds("reset", "-q", "--hard")
            self.try_one(MERGES)
        if self.chance(0.3):
            self.succeeds("symbolic-ref", "refs/heads/alias", "refs/heads/one")
            self.try_one(HEADS)
        if self.chance(0.1):
            self.replace()

    def step(self):
        """Changes the worktree, and commits that or runs another command."""
        if self.chance(0.5):
            self.change()
            if self.chance(0.6):
                self.succeeds("add", "-A")
                self.succeeds("commit", "-q", "-m", "next")
                return
        self.try_one(COMMANDS)
        if self.chance(0.04):
            self.try_one(PACKS)

    def change(self):
        """Changes some files of the worktree."""
        for _ in range(self.random.randrange(1, 5)):
            how = self.random.choice(["text"] * 6 + ["run", "chmod", "link", "gone", "gone", "module"])
            path = self.random.choice(MODULES if how == "module" else PATHS)
            self.note(how, repr(path))
            self.change_path(self.path(path), how)
        if self.has_many:
            for number in range(40):
                self.put_text(self.path(f"many/{number:02}"))

    def change_path(self, place, how):
        """Changes a path of the worktree."""
        if how == "module":
            self.change_module(place)
        elif how == "chmod" and os.path.isfile(place) and not os.path.islink(place):
            os.chmod(place, os.stat(place).st_mode ^ 0o111)
        elif how in ("text", "run"):
            self.put_text(place)
            os.chmod(place, 0o755 if how == "run" else os.stat(place).st_mode)
        elif how in ("link", "gone"):
            self.clear(place)
            if how == "link":
                os.symlink(self.random.choice(["a", "nowhere"]), place)

    def put_text(self, place):
        """Changes a line of a file, so that git may merge it, or makes the file."""
        is_file = os.path.isfile(place) and not os.path.islink(place) and os.path.realpath(place) == place
        lines = read(place).decode().splitlines(True) if is_file else LINES
        at = self.random.randrange(len(LINES))
        if not is_file:
            self.clear(place)
        write(place, "".join([*lines[:at], f"{self.random.choice('xyz')}\n", *lines[at + 1 :]]))

    def clear(self, place):
        """Removes what is at a path, and files and links in place of folders above it."""
        above = os.path.dirname(place)
        if above != self.top and (os.path.islink(above) or not os.path.isdir(above)):
            self.clear(above)
            os.makedirs(above)
        if os.path.isdir(place) and not os.path.islink(place):
            shutil.rmtree(place)
        elif os.path.lexists(place):
            os.remove(place)

    def change_module(self, place):
        """Makes a repository at a path, or commits there."""
        name = os.path.relpath(place, self.top)
        if not os.path.exists(os.path.join(place, ".git")):
            self.clear(place)
            os.mkdir(place)
            self.succeeds("-C", name, "init", "-q", f"--object-format={self.kind}")
        self.succeeds("-C", name, "commit", "-q", "--allow-empty", "-m", str(self.steps))

    def move(self):
        """Goes on in a clone or in a linked worktree."""
        place = os.path.join(self.room, f"{self.steps + 1} other")
        if self.try_one(PLACES):
            self.top = place

    def replace(self):
        """Replaces a commit. The program refuses to read HEAD then, unless the environment says not to."""
        if self.succeeds("replace", "-f", *self.random.choice([("HEAD", "HEAD~1"), ("main~1", "main")])):
            if self.chance(0.3):
                self.succeeds("pack-refs", "--all")
            if self.chance(0.3):
                self.environment = {**SETTINGS, "GIT_NO_REPLACE_OBJECTS": "1"}
            else:
                self.refusal = REPLACED
                self.kinds.add("replaced")

    # The edits.

    def edit(self):
        """Stages some of what differs, and changes the worktree and the time of the index."""
        self.is_committed = self.succeeds("rev-parse", "-q", "--verify", "HEAD^{commit}")
        self.kinds |= set() if self.is_committed else {"unborn"}
        self.kinds |= set() if self.succeeds("symbolic-ref", "-q", "HEAD") else {"detached"}
        for _ in range(self.random.randrange(3)):
            self.change()
            self.try_one(STAGINGS)
        rows, kinds = self.git("ls-files", "-sz").decode().split("\0")[:-1], {mode: kind for kind, mode in MODES.items()}
        self.paths = {path: kinds[row[:6]] for row, _, path in (row.partition("\t") for row in rows)}
        self.kinds.update(self.paths.values())
        super().edit()
        self.drop_doubtful()

    def drop_doubtful(self):
        """Removes entries for which git prints DD though they are no conflict: to be added, in HEAD, and gone."""
        lines = self.git(*STATUS_OF_HEADS[1:], "-z").split(b"\0")[:-1]
        if gone := {line[3:] for line in lines if line[:2] == b"DD"}:
            rows = self.git("ls-files", "-uz").split(b"\0")[:-1]
            names = gone - {row.partition(b"\t")[2] for row in rows}
            self.git("update-index", "--force-remove", "-z", "--stdin", stdin=b"".join(name + b"\0" for name in names))

    def draw_settings(self):
        """Leaves the settings: draw_repositories.py draws others."""

    def is_reached(self, path):
        """Returns whether a path may be edited: no link leads to it, and no folder is in place of a file."""
        place = self.path(path)
        is_file = os.path.islink(place) or not os.path.isdir(place)
        return super().is_reached(path) and (self.paths[path] == "module" or is_file)

    def edit_module(self, path, place):
        """Commits in a submodule, or puts something else in its place."""
        self.change_path(place, self.random.choice(["module", "module", "gone", "text", "link"]))
