"""Draws git repositories of which a sparse checkout leaves some files out, from seeds, for compare_sparse.py.

Each has a history of draw_commits.py, and then folders or patterns of a sparse checkout, often with a sparse index. Some of the
files that are left out are put there all the same.
"""

from stress.draw_commits import COMMITS, PATHS, CommitDrawing
from support.repositories import read

# The folders that may be kept with their files, and patterns of which some are kept.
FOLDERS = ["d", "d/c", "p", "p/q", "many", "none"]
PATTERNS = ["/a", "d/", "!d/b", "/p/*", "*m", "/*", "!/d", "many/1*", "b c"]
# What has to come.
SPARSE = {"cone", "patterns", "sparse index", "full index", "expected", "switched off", "staged"}


class SparseDrawing(CommitDrawing):
    """The repository of a seed, with a sparse checkout. `kinds` are of SPARSE too."""

    def make(self):
        super().make()
        self.succeeds("reset", "-q", "--hard")
        names, words = ("cone", FOLDERS), ["--sparse-index" if self.chance(0.7) else "--no-sparse-index"]
        if self.chance(0.2):
            names, words = ("patterns", PATTERNS), ["--no-cone"]
        words += ["--cone"] * (names[0] == "cone")
        some = self.random.sample(names[1], self.random.randrange(1, 4))
        if self.succeeds("sparse-checkout", "set", *words, "--", *some) or self.succeeds("sparse-checkout", "set", *words, *some):
            self.kinds |= {names[0], "sparse index" if b"sdir" in read(self.index_path()) else "full index"}
        if self.chance(0.15) and self.succeeds("config", "sparse.expectFilesOutsideOfPatterns", "true"):
            self.kinds.add("expected")
        if self.chance(0.1) and self.succeeds("config", "--worktree", "core.sparseCheckout", "false"):
            self.kinds.add("switched off")
        if self.chance(0.3) and self.succeeds("reset", "-q", "--soft", self.random.choice(COMMITS)):
            self.kinds.add("staged")

    def index_path(self):
        """Returns the path of the index file."""
        return self.path(self.git("rev-parse", "--git-path", "index").decode().removesuffix("\n"))

    def edit(self):
        """Puts some files there that are left out, and folders without any. Then the repository is edited as any other."""
        while self.chance(0.4):
            self.put_text(self.path(self.random.choice([*PATHS, "many/10"])))
        super().edit()
        self.drop_twins()

    def drop_twins(self):
        """Removes entries of the same path and stage, which git leaves behind when it resets a sparse index."""
        rows = self.git("ls-files", "-sz").split(b"\0")[:-1]
        names = [row.partition(b"\t")[2] for row in rows if row.partition(b"\t")[0].endswith(b" 0")]
        for name in {name for name in names if names.count(name) > 1}:
            while name in self.git("ls-files", "-z", "--", name).split(b"\0"):
                self.git("update-index", "--force-remove", "--", name)
            self.paths.pop(name.decode(), None)

    def replace(self):
        """Replaces no object: each of these may be needed, also without HEAD."""
