"""Draws small git repositories with attribute files from seeds, for compare_dirty.py and for tests of git_dirty.

Each file has a blob in the index and a content in the worktree, mostly the same text with other line ends, or what `ident` or
git-lfs make of it. So git lists a file exactly if attributes and settings don't make its blob of its content. No entry has the stat of its file, so that git
reads each file, except for those with another size.
"""

import os
import re

from stress import draw_repositories
from support import lfs
from support.index_bytes import SIZE, parts_of, with_stat
from support.repositories import SETTINGS, make_git_folder, read, write

FOLDERS = ["", "", "", "d/", "d/e/", "d/e/f/", "dd/", "x/", "x/d/", "é/", "s t/", "a-/", "[d]/"]
NAMES = ["a", "b", "c", "ab", "abc", "axb", "aa", "A", "1", "-", "a-", "]", "z", "a.c", "b.c", ".c", "c.", "é", "éa", "日"]
NAMES += ["ÿ", "a b", " a", "a ", "a\tb", "\x01", "\x7f", "a\n", "\r", "*", "a*", "?", "[", "[a]", "\\", "a\\b", '"', 'a"']
NAMES += ["#a", "!a", "a=b"]
PATTERNS = rb"* *.c *.* a* ?* ** **/a a/** d/* d/** **/d/** d/**/a /a /* /** d/ a/ / // **/ d**/a d**/* x**d/a ?**/a [d]**/a"
PATTERNS += rb" **a/b **\/a [ab] [!a] []a] [a-] [[:alpha:]] [[:alpha:]-z] \a a\b \* \\ a\ [attr] d/e d/e/f /d/e/* e/* */a"
PATTERNS += rb" */*/*"
# Classes of a byte, which is written for each `%`. The last ones have no end, or a name that isn't known.
CLASSES = rb"[%] [!%] [^%] []%] [%-] [-%] [a-%] [%-z] [\%] [a-\%] [!]%] [[%] [%[] [[:alpha:]] [[:alpha:]-z] [[:punct:]%]"
CLASSES += rb" [!-~] [z-a%] [[.%.]] [[=%=]] [%[:] [[:%] [[:alpha:]%-z] [[:upper:][:digit:]%] [[:cntrl:][:space:]%]"
CLASSES += rb" [[:graph:]] [^[:digit:]] [[:xdigit:]] [[:print:]] [[:lower:]] [[:blank:]] [[:alnum:]%] [% [!% [%\ [ []"
CLASSES += rb" [[:alpha:] [[:other:]%] [[:ALPHA:]%]"
# Words of a line after its pattern, and some that are none, so that the line is ignored.
WORDS = ["text"] * 6 + ["-text"] * 4 + ["text=auto"] * 6 + ["!text"] * 2 + ["binary", "m", "n", "crlf"] * 2
WORDS += ["-m", "!m", "m=1", "-binary", "!binary", "eol=lf", "eol=crlf", "-eol", "eol", "!eol", "eol=LF", "eol=", "-crlf"]
WORDS += ["!crlf", "crlf=input", "crlf=auto", "text=input", "text=AUTO", "text=", "text=a=b", "-text=auto", "diff", "merge=x"]
WORDS += ["Text", "a.b_c-1"] + ["ident"] * 6 + ["-ident", "!ident", "ident=x", "-filter", "!filter", "filter"] + ["filter=lfs"] * 3
WRONG_WORDS = ["te$t", "-", "=x", "--text", "!", "é", "text,", "-=", '"text"']
MACROS = ["[attr]m text", "[attr]m -text", "[attr]m n", "[attr]n text=auto", "[attr]n m", "[attr]n crlf -text"]
MACROS += ["[attr]binary -text", "[attr]binary text", "[attr]m !text crlf", "[attr]n eol=lf", "[attr]text crlf"]
MACROS += ["[attr]m m -binary", "[attr]m ident", "[attr]n filter=lfs -text", "[attr]", "[attr]- text"]
OTHER_LINES = ["", "# a text", "*", "!* text", " \t", "\\#a text", "\0* text", "* text\0 -text", "# \0"]
ESCAPES = dict(zip(b'\a\b\t\n\v\f\r"\\', b'abtnvfr"\\'))
ENDS = {"lf": [b"\n"], "crlf": [b"\r\n"], "mixed": [b"\n", b"\r\n"], "odd": [b"\n", b"\r\n", b"\r", b"\r\r\n", b""]}
# What `ident` changes, and what it doesn't.
IDS = [b"$Id$", b"$Id: x $", b"a $Id: x $ b", b"$Id: x $Id: y $", b"$Id: $Id$ $", b"$Id:$", b"$Id:", b"$Id", b"$", b"$$Id: x $", b"$id: x $", b"$Id x $"]
IDS += [b"x $"]
LFS = [("process", "git-lfs filter-process"), ("process", "git-lfs filter-process --skip"), ("clean", "git-lfs clean -- %f")]
# The user's folder.
USER = ".git/user"


class AttributeDrawing(draw_repositories.Drawing):
    """The repository of a seed, in a folder that isn't there before. It is made, and not edited."""

    IS_EDITED = False

    def __init__(self, seed, top):
        super().__init__(seed, top)
        self.environment = {**SETTINGS, "HOME": self.path(USER), "GIT_ATTR_NOSYSTEM": "1"}
        # The content and the blob of each path, and the attribute file in the user's folder.
        self.texts, self.user_file = {}, ""

    def make(self):
        make_git_folder(self.path(".git"), "ref: refs/heads/main")
        for path in self.drawn_paths():
            content = self.content()
            self.texts[path], self.paths[path] = (content, self.blob(content)), "file"
        self.put_settings()
        entries = self.put_attributes()
        for path, (content, _) in self.texts.items():
            write(self.path(path), content)
        self.put_entries([("100644", self.put_object(blob), 0, path) for path, (_, blob) in self.texts.items()] + entries)
        self.put_sizes()

    def drawn_paths(self):
        drawn = {self.random.choice(FOLDERS) + self.random.choice(NAMES) for _ in range(40)}
        return sorted(path for path in drawn if not any(other.startswith(path + "/") for other in drawn))

    def put_sizes(self):
        """Gives entries the size 0, or that of the file or of the blob."""
        index, sizes = parts_of(self.kind, read(self.path(".git/index"))), {}
        for path, texts in self.texts.items():
            content, blob = map(len, texts)
            sizes[path.encode()] = self.random.choice([0, 0, 0, content, content, content, blob])
        entries = [with_stat(it, SIZE, sizes.get(it.path, 0)) for it in index.entries]
        write(self.path(".git/index"), index.with_entries(entries).file())

    # Contents.

    def content(self):
        """Returns a text, or something between a text and what git takes for binary."""
        if self.chance(0.05):
            return b""
        if self.chance(0.05):
            return lfs.pointer(b"x") + b"x" * self.random.choice([0, 0, 1])
        ends = ENDS[self.random.choice(["lf", "crlf", "crlf", "crlf", "mixed", "mixed", "odd"])]
        kinds = [b"", b"foo", b"foo", "é".encode(), b"\t\b\x1b\f", *self.random.sample(IDS, 3)]
        lines = self.random.choices(kinds, k=self.random.randrange(1, 5)) + [self.near_binary()] * self.chance(0.25)
        text = b"".join(line + self.random.choice(ends) for line in lines)
        return text + self.random.choice([b"\x1a", b"\x1a", b"\x1a\x1a", b"\0", b"\r", b"bar"]) * self.chance(0.2)

    def near_binary(self):
        """Returns some bytes that aren't printable, with about 128 times as many that are."""
        odd = self.random.choice([b"\x01", b"\x7f", b"\x1a", b"\x01\x02", b"\x0e\x1f"])
        return odd + b"x" * (128 * len(odd) + self.random.choice([-10, -6, -3, -1, 0, 0, 1, 128]))

    def blob(self, content):
        """Returns what the index has for a content."""
        lines = content.replace(b"\r\n", b"\n")
        others = [content.replace(b"\r", b"")] * 2 + [lines.replace(b"\n", b"\r\n"), b"bar"]
        blob = self.random.choice([lines] * 6 + [content] * 3 + others)
        if self.chance(0.4):
            blob = re.sub(rb"\$Id:[^$\n]*\$", b"$Id$", blob)
        return lfs.stored(content) if self.chance(0.15) else blob

    # Settings and attributes.

    def put_settings(self):
        lines = self.random.choice(["", "", "", "autocrlf = true\n", "autocrlf = input\n", "autocrlf = false\n", "autocrlf\n"])
        lines += self.random.choice(["", "", "", "eol = lf\n", "eol = crlf\n", "eol = native\n", "eol = x\n"])
        self.user_file = self.random.choice(["", ".config/git/attributes", "x/git/attributes", "named", "named", "named"])
        if self.user_file.startswith("x/"):
            self.environment["XDG_CONFIG_HOME"] = self.path(f"{USER}/x")
        elif self.user_file == "named":
            lines += f"attributesFile = {self.random.choice(['~', USER, self.path(USER)])}/named\n"
        lines = f"[core]\n{lines}"
        lines += '[filter "lfs"]\n%s = %s\n' % self.random.choice(LFS)
        self.configure(lines)
        self.note(lines)

    def attribute_files(self):
        """Returns the paths of the attribute files. Each folder of a path may have one."""
        folders = {path[: at + 1] for path in self.texts for at, letter in enumerate(path) if letter == "/"} | {""}
        found = [f"{folder}.gitattributes" for folder in sorted(folders) if self.chance(0.4)]
        return found + [".git/info/attributes"] * self.chance(0.4) + [f"{USER}/{self.user_file}"] * (self.user_file != "")

    def put_attributes(self):
        """Writes attribute files. Some are only in the index, or have another text there. Returns their entries."""
        entries = []
        for path in self.attribute_files():
            is_staged = path.endswith(".gitattributes") and self.chance(0.5)
            if is_staged:
                stage = self.random.choice([0, 0, 0, 2])
                self.note("staged", stage)
                entries.append(("100644", self.put_object(self.attributes(path)), stage, path))
            if not is_staged or self.chance(0.2):
                write(self.path(path), self.attributes(path))
        return entries

    def attributes(self, path):
        """Returns the text of the attribute file at a path."""
        folder = os.path.dirname(path) if path.endswith(".gitattributes") else ""
        lines = [self.line(folder) for _ in range(self.random.randrange(1, 6))]
        end = self.random.choice([b"\n", b"\n", b"\n", b"\r\n"])
        text = b"\xef\xbb\xbf" * self.chance(0.1) + end.join(lines) + end * self.chance(0.8)
        self.note(path, text)
        return text

    def line(self, folder):
        """Returns a line of a folder's attribute file: mostly a pattern with words, or a macro, or another one."""
        if self.chance(0.15):
            return self.random.choice(MACROS).encode()
        if self.chance(0.08):
            return self.random.choice(OTHER_LINES).encode()
        words = self.random.choices(WORDS, k=self.random.choice([1, 1, 1, 2, 2, 3]))
        if self.chance(0.05):
            words.insert(self.random.randrange(len(words) + 1), self.random.choice(WRONG_WORDS))
        front, end = self.random.choice([b"", b"", b"", b" ", b"\t"]), self.random.choice([b"", b"", b"", b" "])
        blank = self.random.choice([b" ", b" ", b"\t", b" \t ", b"\r"])
        return front + blank.join([self.written(self.pattern(folder)), *(it.encode() for it in words)]) + end

    def pattern(self, folder):
        """Returns a pattern for files below a folder: a common one, or one that is made of a path."""
        below = [path for path in self.texts if path.startswith(folder)]
        if self.chance(0.3) or not below:
            return self.random.choice(PATTERNS.split(b" "))
        names = self.random.choice(below)[len(folder) :].strip("/").encode().split(b"/")
        parts = [self.part(name) for name in names[self.random.randrange(len(names)) :]]
        if self.chance(0.2):
            parts.insert(self.random.randrange(len(parts)), b"**")
        return b"/" * self.chance(0.15) + b"/".join(parts) + b"/" * self.chance(0.05)

    def part(self, name):
        """Returns a pattern of one name. All its special bytes but one have a backslash, if they aren't left as they are."""
        at = self.random.randrange(len(name))
        byte, (front, rest) = name[at : at + 1], map(literal, (name[:at], name[at + 1 :]))
        inside = self.random.choice(CLASSES.split(b" ")).replace(b"%", byte)
        special = self.random.choice([b"*", b"*", b"**", b"?", inside, inside, b"\\" + byte, byte + b"*", byte + b"**"])
        return self.random.choice([front + special + rest] * 3 + [b"*" + byte + rest, front + byte + b"*", b"*", b"**", name])

    def written(self, pattern):
        """Returns a pattern as a line has it: in quotes if it has to be, or by chance, and some of these are no quotes."""
        if not self.chance(0.15) and not pattern.startswith((b'"', b"#")) and not any(byte in b" \t\r\n" for byte in pattern):
            return pattern
        end = self.random.choice([b'"'] * 20 + [b"", b'"x', b'\\x"', b'\\18"'])
        return b'"' + b"".join(map(self.escaped, pattern)) + end

    def escaped(self, byte):
        """Returns a byte as it is between quotes. Most may have an escape, and some have to."""
        if byte in ESCAPES and (byte in b'"\\\n' or self.chance(0.7)):
            return b"\\%c" % ESCAPES[byte]
        return b"\\%03o" % byte if self.chance(0.8 if byte > 126 else 0.1) else b"%c" % byte


def literal(name):
    """Returns the pattern that matches this name alone."""
    return b"".join(b"\\%c" % byte if byte in b"*?[\\" else b"%c" % byte for byte in name)
