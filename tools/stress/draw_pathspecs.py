"""Draws pathspecs, and repositories with names that look like them, from seeds, for compare_pathspecs.py.

Each repository is one of draw_untracked.py, with more files, folders and submodules whose names have wildcards, or differ from
others by their case alone. Then lists of PATHS are drawn for it, each with a working folder and an environment.
"""

import os
import re
from dataclasses import dataclass, field

from stress.draw_untracked import UntrackedDrawing
from support.repositories import write

# Folders and names that have wildcards, or another case than others.
ODD_FOLDERS = ["p*/", "p*/q?/", "[p]/", "P/", "P/Q/", "p/Q/", "x\\/", "**/", "n*/", "N/"]
ODD_NAMES = ["a*", "a?", "[a]", "B", "b\\c", "U.O", "u.c", "?", "]", "a-b", ":x", "z.O", "É"]
# How many lists are drawn for a repository.
LISTS = 4
WILDCARDS = re.compile(r"[*?\[\\]")
# What may be short magic, also if it isn't known, and what ends it.
SIGNS = "!\"#%&',-/:;<=>@_`~^"
# Sets of a pattern, with places for a letter. Some have a slash, or match no letter, and some have no end.
SETS = ["[{}]", "[!{}]", "[^x]", "[a-f]", "[A-Z]", "[!A-Z]", "[[:alpha:]]", "[[:upper:]x]", "[/{}]", "[!/]", "[]{}]", "[^]]"]
SETS += ["[x-", "[", "[\\{}]", "[a\\-z]", "[+-.]", "[[:foo:]]", "[[:alpha]", "[*]", "[[.a]", "[*--0]", "[[:punct:]]", "[a-a]"]
SETS += ["[z-a]", "[a-]", "[]", "[!]", "[!]a-z]", "[a-c-e]", "[[:digit:][:lower:]]", "[!\\{}-\\{}]"]
# Whole patterns, and words that have no path.
PATTERNS = ["*", "**", "**/*", "*/", "*/*", "?", "[a-z]*", "**/a", "[!a]*", "p*", "*a", "*/a", "*.o", "?/*", "*/**/", "***", "n*"]
BARE = [":", "::", ":/", ":/:", ":()", ":(,)", ":(top)", ":(glob)", ":(icase)", ":!", ":^", ":/!", ":!:", ":(exclude)", "."]
# The variables of a list, by the word that is drawn.
VARIABLES = {"glob": ["GLOB"], "noglob": ["NOGLOB"], "icase": ["ICASE"], "literal": ["LITERAL"], "glob, icase": ["GLOB", "ICASE"]}
VARIABLES |= {"noglob, icase": ["NOGLOB", "ICASE"], "literal, noglob": ["LITERAL", "NOGLOB"]}
YES, NO = ["1", "true", "yes", "on", "2"], ["0", "false", "no", ""]
MAGIC = {"top": 0.2, "exclude": 0.18, "glob": 0.25, "icase": 0.2, "literal": 0.08}
# What has to come.
EACH = {f"magic: {name}" for name in MAGIC} | {f"variable: {name}" for name in VARIABLES}
EACH |= {"short", "long", "set", "star", "question mark", "backslash", "two stars", "no pattern", "bare", "excludes alone"}
EACH |= {"absolute", "from a folder", "from a folder with wildcards", "not normalized", "slash at the end", "several"}


@dataclass(frozen=True)
class Asked:
    """A list of PATHS, the folder in which it is asked for, and what it adds to the environment."""

    folder: str
    words: list = field(default_factory=list)
    settings: dict = field(default_factory=dict)


def parts_of(word, settings):
    """Returns the magic of a word, and the rest of it. The magic of the environment is in it."""
    names = {name for name in VARIABLES if len(VARIABLES[name]) == 1 and settings.get(f"GIT_{name.upper()}_PATHSPECS") in YES}
    magic, rest = set(), word
    if "literal" not in names and (long := re.match(r":\(([a-z,]*)\)", word)):
        magic, rest = {*long[1].split(",")} - {""}, word[long.end() :]
    elif "literal" not in names and (short := re.match(r":([!^/]*):?", word)):
        magic, rest = {"top" if sign == "/" else "exclude" for sign in short[1]}, word[short.end() :]
    magic |= {"glob"} if "glob" in names and "literal" not in magic else set()
    magic |= {"literal"} if "literal" in names or "noglob" in names and "glob" not in magic else set()
    return magic | ({"icase"} & names), rest


def without_parents(path):
    """Returns a relative path without names that `..` takes back."""
    names = []
    for name in path.split("/"):
        if name == ".." and names and names[-1] != "..":
            names.pop()
        elif name not in ("", "."):
            names.append(name)
    return "/".join(names)


def is_plain(word, settings):
    """Returns whether a word is a path without a pattern. If such a path selects nothing, the program fails."""
    magic, rest = parts_of(word, settings)
    path = rest if "top" in magic else without_parents(rest)
    return not magic & {"exclude", "icase"} and ("literal" in magic or not WILDCARDS.search(path))


def from_folder(path, folder):
    """Returns a path or pattern from the top as one from a folder. No letter of it is changed."""
    if not folder:
        return path
    front = folder + "/"
    return path[len(front) :] if path.startswith(front) else "../" * front.count("/") + path


class PathspecDrawing(UntrackedDrawing):
    """The repository of a seed, with lists of PATHS, which are `asked`. `kinds` are of EACH too."""

    def make(self):
        super().make()
        for _ in range(self.random.randrange(2, 12)):
            self.put_odd_node()

    def drawn_paths(self):
        drawn = {*super().drawn_paths()}
        odd = {self.odd_path() for _ in range(self.random.randrange(2, 12))}
        drawn |= {path for path in odd if not any(path.startswith(f"{other}/") for other in drawn)}
        return sorted(path for path in drawn if not any(other.startswith(path + "/") for other in drawn))

    def odd_path(self):
        folders = [*ODD_FOLDERS, *[""] * 5, "p/", "x/y/", "n/"]
        return self.random.choice(folders) + self.random.choice([*ODD_NAMES, "a", "b", "u.o"])

    def free_path(self, name):
        """Returns a path whose folder or name may be odd."""
        path, files = self.random.choice(ODD_FOLDERS) + name.replace("module", "Module*"), [*self.paths, *self.replaced]
        is_free = not any(path.startswith(it + "/") or it.startswith(path) for it in files)
        return path if self.chance(0.4) and is_free else super().free_path(name)

    def put_odd_node(self):
        """Puts an untracked node with an odd name into the worktree."""
        path, how = self.odd_path(), self.random.choice(["file"] * 6 + ["link", "empty folder", "repository"])
        if not self.is_free(path):
            return
        self.note("odd", how, repr(path))
        self.nodes.append(path)
        os.makedirs(os.path.dirname(self.path(path)), exist_ok=True)
        if how == "file":
            write(self.path(path), "foo")
        elif how == "repository":
            self.put_repository(path, "folder")
        else:
            {"link": lambda it: os.symlink("a", it), "empty folder": os.mkdir}[how](self.path(path))

    def edit(self):
        super().edit()
        self.asked = [self.draw_list() for _ in range(LISTS)]

    # Lists of PATHS.

    def draw_list(self):
        """Returns a list of PATHS."""
        folder = self.some_folder() if self.chance(0.5) else ""
        self.kinds |= {"from a folder"} if folder else set()
        self.kinds |= {"from a folder with wildcards"} if WILDCARDS.search(folder) else set()
        settings = self.draw_variables() if self.chance(0.25) else {}
        count = self.random.choice([1, 1, 1, 2, 2, 3, 4])
        words = [self.draw_word(folder, settings) for _ in range(count)]
        if self.chance(0.07):
            words = [f":!{self.colon_of(rest)}{rest}" for rest in map(self.plain_rest, words)]
        each = [parts_of(word, settings)[0] for word in words]
        self.kinds |= {"several"} if count > 1 else set()
        self.kinds |= {"excludes alone"} if all("exclude" in magic for magic in each) else set()
        asked = Asked(folder, words, settings)
        self.note(asked)
        return asked

    def draw_variables(self):
        """Returns variables of the environment, some of which are false."""
        name = self.random.choice([*VARIABLES])
        self.kinds.add(f"variable: {name}")
        settings = {f"GIT_{one}_PATHSPECS": self.random.choice(YES) for one in VARIABLES[name]}
        if self.chance(0.2):
            settings.setdefault("GIT_LITERAL_PATHSPECS", self.random.choice(NO))
        return settings

    def draw_word(self, folder, settings):
        """Returns a word that git and the program take."""
        while True:
            word = self.any_word(folder)
            magic, rest = parts_of(word, settings)
            # The program refuses these. With `top` git reads other folders, or fails.
            is_refused = {"literal", "glob"} <= magic or "icase" in magic and bool(re.search(r"[\[\\]", rest))
            if word and not is_refused and not ("top" in magic and (rest.startswith("/") or "//" in rest)):
                self.count(word, magic, rest)
                return word

    def count(self, word, magic, rest):
        """Counts what a word has."""
        self.kinds |= {f"magic: {name}" for name in magic}
        self.kinds |= {"long"} if word.startswith(":(") else {"short"} if word[:1] == ":" and magic else set()
        signs = {"set": "[", "star": "*", "question mark": "?", "backslash": "\\", "two stars": "**"}
        self.kinds |= {name for name, sign in signs.items() if sign in rest and "literal" not in magic}
        self.kinds |= {"no pattern"} if not WILDCARDS.search(rest) else set()
        self.kinds |= {"slash at the end"} if rest.endswith("/") else set()
        self.kinds |= {"not normalized"} if "top" not in magic and os.path.normpath(rest or ".") != (rest.rstrip("/") or ".") else set()
        self.kinds |= {"absolute"} if rest.startswith(self.top) else set()

    def any_word(self, folder):
        """Returns a word with any magic."""
        if self.chance(0.04):
            self.kinds.add("bare")
            return self.random.choice(BARE)
        magic = [name for name, share in MAGIC.items() if self.chance(share)] if self.chance(0.7) else []
        self.random.shuffle(magic)
        path = self.some_path() if "icase" not in magic else self.changed_case(self.some_path())
        if self.chance(0.65):
            path = self.pattern_of(path)
        path += "/" if self.chance(0.08) and not path.endswith("/") else ""
        rest = path if "top" in magic and path else self.relative_rest(path, folder)
        if not magic:
            return rest if self.chance(0.93) or rest.startswith("(") else f"::{rest}"
        if {*magic} <= {"top", "exclude"} and self.chance(0.6):
            signs = "".join("/" if name == "top" else self.random.choice("!^") for name in magic)
            return f":{signs}{self.colon_of(rest)}{rest}"
        return f":({'' if self.chance(0.9) else ','}{','.join(magic)}{'' if self.chance(0.9) else ','}){rest}"

    def colon_of(self, rest):
        """Returns the colon that ends short magic before this rest, or perhaps none if it needs none."""
        return ":" if rest[:1] in SIGNS or self.chance(0.3) else ""

    def plain_rest(self, word):
        return parts_of(word, {})[1] or "."

    def some_path(self):
        """Returns a path of a file or folder, or of nothing."""
        path = self.random.choice(self.known_paths()) if self.chance(0.92) else self.random.choice(["nothing", "p/nothing", "P", "A"])
        while "/" in path and self.chance(0.35):
            path = os.path.dirname(path)
        return path

    def changed_case(self, path):
        return "".join(letter.swapcase() if letter.isascii() and self.chance(0.5) else letter for letter in path)

    def pattern_of(self, path):
        """Returns a path in which some letters are replaced by wildcards."""
        if self.chance(0.12):
            return self.random.choice(PATTERNS)
        for _ in range(self.random.choice([1, 1, 2, 3])):
            at = self.random.randrange(len(path))
            end, letter = min(len(path), at + self.random.choice([0, 1, 1, 2, 4, 9])), path[at]
            how = self.random.choice(["star", "star", "star", "question", "set", "set", "backslash", "stars", "end"])
            if how == "star":
                path = path[:at] + "*" + path[end:]
            elif how == "question":
                path = path[:at] + "?" + path[at + 1 :]
            elif how == "set":
                path = path[:at] + self.random.choice(SETS).replace("{}", letter) + path[at + 1 :]
            elif how == "backslash":
                path = path[:at] + "\\" + path[at:]
            elif how == "stars":
                path = path[:at] + "**" + self.random.choice(["", "/"]) + path[end:]
            else:
                path += self.random.choice(["*", "**", "/**", "/*", "?", "\\", "["])
        return path

    def relative_rest(self, path, folder):
        """Returns a path or pattern as one of a folder, in some of its forms."""
        if self.chance(0.06) and not path.startswith("/"):
            return f"{self.top}/{path}"
        rest = from_folder(path, folder)
        if self.chance(0.12):
            rest = self.random.choice(["./", ".//", "x/../", "././", "p*/../"]) + rest
        elif self.chance(0.06) and rest:
            rest += self.random.choice(["/.", "//", "/./", "/x/.."])
        elif self.chance(0.04):
            rest = rest.replace("/", "//", 1)
        return rest or "."
