"""Draws git repositories with untracked and ignored files from seeds, for compare_untracked.py.

Each is one of draw_repositories.py, into which untracked files, other nodes, nested repositories and files of rules are put
before it is edited.
"""

import os

from stress.draw_repositories import FOLDERS, NAMES, Drawing, relative
from support.repositories import SETTINGS, id_of, make_git_folder, put_socket, write

# Folders without a tracked file, and names for rules. Names that aren't UTF-8 are those of files alone.
OTHER_FOLDERS = ["n/", "n/", "n/o/", "n/o/p/", "b c/", "b/", "b/b/", "x/y/w/"]
OTHER_NAMES = ["u.o", "u.c", "b", "c.o", "a.o"]
RAW_NAMES = ["\udcff", "b\udcfe.o"]
# Kinds of nodes, as often as they are drawn, and forms of a `.git`. Only the first two make a nested repository.
KINDS = ["file"] * 12 + ["link"] * 2 + ["pipe", "socket"] + ["empty folder"] * 2 + ["repository"] * 2
REPOSITORIES = ["folder", "file", "lost file", "empty", "text"]
# Parts of patterns, and the ways in which git finds the user's rules.
ATOMS = ["a", "b", "n", "*", "**", "?", "/", "/", "[ab]", "[!a]", "a*", "*.o", "\\a", "\\*", "b/", "/n", "**/", "/**", "u.?", "p", "o"]
USER_FILES = ["absolute", "in HOME", "XDG_CONFIG_HOME", "HOME", "not there", "none", "none"]
# What has to come.
EACH = {*KINDS, *USER_FILES, "not UTF-8", "module in conflict", "repository of tracked files", "repository in place of a file"}
EACH |= {f"repository: {form}" for form in REPOSITORIES}
EACH |= {f"rules: {how}" for how in ("file", "link", "folder", "staged", "skipped", "gone")}


class UntrackedDrawing(Drawing):
    """The repository of a seed, with untracked files. `kinds` are of EACH."""

    def make(self):
        super().make()
        self.kinds, self.nodes, self.repositories, self.setting = set(), [], [], ""
        for _ in range(self.random.randrange(2, 24)):
            self.put_node()
        self.put_modules_in_conflict()
        self.put_repository_of_tracked_files()
        self.put_rules()

    def is_free(self, path):
        """Returns whether nothing is at a path, and folders alone are above it."""
        above = [self.path(path[:at]) for at, letter in enumerate(path) if letter == "/"]
        is_reached = all(os.path.isdir(it) and not os.path.islink(it) for it in above if os.path.lexists(it))
        return is_reached and not os.path.lexists(self.path(path))

    def put_node(self):
        """Puts an untracked file or another node into a folder."""
        kind, is_raw = self.random.choice(KINDS), self.chance(0.02)
        path = self.random.choice([*FOLDERS, *OTHER_FOLDERS, *OTHER_FOLDERS])
        path += self.random.choice(RAW_NAMES if is_raw else [*NAMES, *OTHER_NAMES * 3])
        if not self.is_free(path):
            return
        kind = "file" if is_raw else kind
        self.note("untracked", kind, repr(path))
        self.kinds |= {kind} | ({"not UTF-8"} if is_raw else set())
        self.nodes += [] if is_raw else [path]
        place = self.path(path)
        os.makedirs(os.path.dirname(place), exist_ok=True)
        if kind == "repository":
            self.put_repository(path, self.random.choice(REPOSITORIES))
        else:
            make = {"pipe": os.mkfifo, "socket": put_socket, "empty folder": os.mkdir, "link": lambda it: os.symlink("p", it)}
            make.get(kind, lambda it: write(it, "foo"))(place)

    def put_repository(self, path, form):
        """Makes a folder with a `.git` of this form, and perhaps a file."""
        place, head = self.path(f"{path}/.git"), "ref: refs/heads/main"
        self.note("repository", form)
        self.kinds.add(f"repository: {form}")
        if form in ("folder", "file"):
            self.repositories.append(path)
        if form == "folder":
            make_git_folder(place, head)
        elif form == "empty":
            os.makedirs(place)
        else:
            lost = self.path(f".git/lost/{len(self.notes)}")
            if form == "file":
                make_git_folder(lost, head)
            write(place, "foo" if form == "text" else f"gitdir: {lost}\n")
        if self.chance(0.7):
            write(self.path(f"{path}/u.o"), "foo")

    def put_modules_in_conflict(self):
        """Puts a folder at the path of a submodule in conflict."""
        path = self.free_path("module in conflict")
        if self.chance(0.1) and self.is_free(path):
            self.kinds.add("module in conflict")
            write(self.path(f"{path}/u.o"), "foo")
            self.put_entries([("160000", id_of(self.kind, b"1", "commit"), self.random.choice([1, 2, 3]), path)])

    def put_repository_of_tracked_files(self):
        """Makes a repository of a folder that has tracked files. Git lists what is in it as in any folder."""
        folders = sorted({os.path.dirname(path) for path in self.paths} - {""})
        if folders and self.chance(0.1):
            path = self.random.choice(folders)
            if os.path.isdir(self.path(path)) and self.is_free(f"{path}/.git"):
                self.kinds.add("repository of tracked files")
                make_git_folder(self.path(f"{path}/.git"), "ref: refs/heads/main")

    # Rules.

    def pattern(self):
        """Returns a line of a file of rules."""
        text = "".join(self.random.choice(ATOMS) for _ in range(self.random.randrange(1, 5)))
        if self.chance(0.5):
            path = self.random.choice([*self.nodes, *self.paths, "n"])
            text = self.random.choice([path, os.path.basename(path), f"/{path}", os.path.dirname(path) or "b"])
        text = "!" * self.chance(0.2) + text + "/" * self.chance(0.15)
        text += self.random.choice([" ", "  ", "\\ ", "\r", " \r", "\t"]) if self.chance(0.12) else ""
        return "#" * self.chance(0.03) + text

    def patterns(self):
        """Returns the bytes of a file of rules."""
        lines = [self.pattern() for _ in range(self.random.randrange(4))]
        text = "\ufeff" * self.chance(0.1) + "\n".join(lines) + "\n" * self.chance(0.8)
        self.note("rules", repr(text))
        return os.fsencode(text)

    def put_rules(self):
        """Writes files of rules: of the user, of the repository, and of folders."""
        write(self.path(".git/info/exclude"), self.patterns())
        self.put_user_file()
        for above, names, _ in os.walk(self.top):
            names[:] = sorted(name for name in names if name != ".git")
            if self.chance(0.25):
                self.put_rules_of(os.path.relpath(os.path.join(above, ".gitignore"), self.top))

    def put_user_file(self):
        """Writes the user's file of rules, as git finds it by a setting or by the environment."""
        form, home = self.random.choice(USER_FILES), self.path(".git/home")
        names = {"XDG_CONFIG_HOME": "git/ignore", "HOME": ".config/git/ignore"}
        self.kinds.add(form)
        if form == "none":
            return
        self.note("the user's file", form)
        self.environment = {**SETTINGS, "XDG_CONFIG_HOME" if form == "XDG_CONFIG_HOME" else "HOME": home}
        if form != "not there":
            write(os.path.join(home, names.get(form, "rules")), self.patterns())
        value = {"in HOME": "~/rules", "absolute": f"{home}/rules", "not there": f"{home}/rules"}.get(form)
        self.setting = f"\n[core]\n\texcludesFile = \"{value}\"\n" if value else ""

    def put_rules_of(self, path):
        """Writes the rules of a folder, or puts a link or a folder there. Some are staged, and then some are removed."""
        how, place = self.random.choice(["file"] * 8 + ["link", "folder"]), self.path(path)
        if not self.is_free(path):
            return
        self.note("rules", how, repr(path))
        self.kinds.add(f"rules: {how}")
        if how == "link":
            os.symlink("a", place)
        elif how == "folder":
            write(f"{place}/u.o", "foo")
        else:
            self.nodes.append(path)
            write(place, self.patterns())
            if not any(path.startswith(f"{it}/") for it in [*self.repositories, *self.paths]) and self.chance(0.5):
                self.stage_rules(path, place)

    def stage_rules(self, path, place):
        """Stages a file of rules, and perhaps removes it."""
        name = self.git("hash-object", "-w", "--no-filters", place).decode().strip()
        self.put_entries([("100644", name, 0, path)])
        how = self.random.choice(["staged", "skipped", "gone"])
        self.note("rules", how)
        self.kinds.add(f"rules: {how}")
        self.paths[path] = "file"
        if how == "skipped":
            self.git("update-index", "--skip-worktree", "--", path)
        if how != "staged":
            os.remove(place)

    # The edits.

    def put_other(self, path, place, how):
        super().put_other(path, place, how)
        if how == "folder" and self.chance(0.3):
            self.note("repository")
            self.kinds.add("repository in place of a file")
            make_git_folder(f"{place}/.git", "ref: refs/heads/main")

    def draw_settings(self):
        super().draw_settings()
        with open(self.path(".git/config"), "a", encoding="utf-8") as file:
            file.write(self.setting)

    # What is asked of it.

    def known_paths(self):
        return sorted({*self.paths, *self.nodes})

    def some_paths(self, folder):
        """Returns paths to ask for. Those for which git compares nested repositories by bytes are left out."""
        drawn = super().some_paths(folder)
        if self.chance(0.3):
            # A folder with a slash at its end is another one to git if a path below it is asked for too.
            path = self.random.choice(self.known_paths())
            drawn += [relative(it, folder) for it in (path, f"{os.path.dirname(path)}/") if os.path.dirname(path)]
        return [path for path in drawn if not self.is_doubtful(os.path.normpath(os.path.join(folder, path)))]

    def is_doubtful(self, path):
        """Returns whether git may list a repository that isn't at a path or below it, if that is ignored: its own path begins with
        this one, or the other way round."""
        near = [it for it in self.repositories if it.startswith(path) or path.startswith(it)]
        return any(not f"{it}/".startswith(f"{path}/") for it in near)
