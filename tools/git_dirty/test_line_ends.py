"""Which line ends git_dirty converts, as git does, over contents, sizes and settings that are combined:

    python3 tools/run_tests.py git_dirty.test_line_ends

Other tests of line ends are rows of rows.txt.
"""

from git_dirty.case import CRLF, LF, Dirty
from support.index_bytes import SIZE, with_stat
from support.repositories import COLUMNS, STATUS, as_dirty


class LineEnds(Dirty):
    """Runs git and the program. No entry has a stat, so both read each file."""

    def setUp(self):
        super().setUp()
        self.make("lines")

    def put_files(self, files):
        """Puts blobs into the index, and contents into the worktree, by paths."""
        blobs = list({blob for blob, _ in files.values()})
        places = "".join(self.put_user_file(f"blob {number}", blob) + "\n" for number, blob in enumerate(blobs))
        found = self.git("hash-object", "-w", "--no-filters", "--stdin-paths", stdin=places.encode()).decode().split()
        names = dict(zip(blobs, found))
        self.put_entries(*(("100644", names[blob], 0, path) for path, (blob, _) in files.items()))
        for path, (_, content) in files.items():
            self.write(path, content)

    def ask(self):
        """Returns the paths whose files git lists. Asserts that the program has the same result, and in each column."""
        gits = self.run_in(STATUS)
        self.assertEqual(gits.returncode, 0, gits.stderr)
        for columns in COLUMNS:
            self.assert_ends(self.ran(*columns), as_dirty(gits.stdout, *columns))
        return " ".join(line[3:] for line in as_dirty(gits.stdout, "--worktree").decode().splitlines())


class Contents(LineEnds):
    """Which bytes are converted, as text and as what may be text. The rows have names."""

    X = b"x" * 125
    # A byte that isn't printable needs 128 that are.
    ODD = {f"{count} printable and {byte}": b"x" * count + b"%c\r\n" % byte for count in (126, 127, 128) for byte in (1, 127)}
    ODD |= {f"{count} printable and two": b"\x01" + b"x" * count + b"\x02\r\n" for count in (254, 255, 256)}
    ODD |= {f"128 times {byte}": b"%c" % byte * 128 + b"\x01\r\n" for byte in b"\0\b\t\x1b\f\x80\xff"}
    ODD |= {f"{byte} alone": b"%c\r\n" % byte for byte in range(256)}
    # A control-Z at the end isn't counted.
    ODD |= {f"{before[-3:]!r} and {after!r} at the end": before + b"\r\n" + after
            for before in (b"", b"\x01", X + b"\x01x", X + b"xx\x01")
            for after in (b"\x1a", b"x\x1a", b"\x1a\x1a", b"\x1ax", b"\x1a\r\n", b"\x1a\n", b"\x1a\r")}
    ENDS = ["", "\n", "\r", "\r\n", "\n\r", "\r\r\n", "\r\n\r", "\r\n\n", "\r\n\r\n", "a", "a\n", "a\r", "a\r\n", "a\r\nb"]
    ENDS += ["a\r\nb\r", "a\nb\r\n", "a\r\nb\n", "a\rb\r\n", "a\r\nb\rc\n", "a\r\r\nb\r\n", "a\0b\r\n", "\0", "\r\n\0"]
    ENDS += ["é\r\n", "\ufeffa\r\n", *("x" * 100_000 + end for end in ("\n", "\r\n", "\r", "\r\n\r", "\r\n\0"))]
    ENDS += ["1234567\r\n" * 12_000, "\r\n" * 50_000, "\n" * 50_000 + "\r\n"]
    # A CRLF, or a CR alone, at the edge of what may be read at once.
    ENDS += ["x" * ((1 << power) - 1) + end for power in range(9, 18) for end in ("\r\ny\n", "\ry\r\n")]
    # What the blob is made of.
    FORMS = [lambda text: text, lambda text: text.replace(b"\r\n", b"\n"), lambda text: text.replace(b"\r", b"")]
    FORMS += [lambda text: text.replace(b"\r\n", b"\n").replace(b"\n", b"\r\n")]
    WORDS = ["text", "text=auto", "-text", "!text", "eol=crlf", "text=auto eol=crlf", "crlf=input"]

    def assert_each(self, contents):
        """Asserts that each content is compared as by git, with several blobs, attributes and settings."""
        files = {}
        for name, content in contents.items():
            files |= {f"{name}, blob {number}": (form(content), content) for number, form in enumerate(self.FORMS)}
        self.put_files(files)
        found = set()
        for words in self.WORDS:
            for value in ("false", "true"):
                with self.subTest(words=words, autocrlf=value):
                    self.put_config(f"autocrlf = {value}\n")
                    self.write(".gitattributes", f"* {words}\n")
                    found.add(self.ask())
        self.assertEqual(len(found), 3)

    def test_bytes_that_are_not_printable(self):
        self.assert_each(self.ODD)

    def test_line_ends(self):
        self.assert_each({f"{number}: {text[:9]!r}": text.encode() for number, text in enumerate(self.ENDS)})

    def test_sizes_of_entries(self):
        """Git reads a file if the entry's size is the file's or 0, and its stat isn't the file's."""
        rows = {"lf": (LF, CRLF), "same": (CRLF, CRLF), "other": (b"1\r2\r\n", CRLF), "empty": (b"", b""), "cut": (LF, b"")}
        sizes = {f"{name} {size}": size for name in rows for size in (0, 1, len(LF), len(CRLF), (1 << 32) - 1)}
        self.put_files({path: rows[path.split(" ")[0]] for path in sizes})
        parts = self.index_parts()
        entries = [with_stat(it, SIZE, sizes[it.path.decode()]) for it in parts.entries]
        self.write(".git/index", parts.with_entries(entries).file())
        found = []
        for text in ("", "* text\n", "* text=auto\n", "* -text\n"):
            self.write(".gitattributes", text)
            found.append(self.ask())
        self.assertEqual((len(set(found)), found[0]), (3, found[3]))

    # Attributes that are stronger than settings, and values of settings.
    STRONG = ["", "text", "-text", "text=auto", "!text", "eol=lf", "text=x eol=LF", "-text eol=crlf", "text=input", "-eol"]
    STRONG += ["text=auto eol=crlf", "crlf", "-crlf"]
    EOL = ["", "eol = lf", "eol = crlf", "eol = CRLF", "eol = native", "eol = x", "eol =", "eol"]

    def test_attributes_are_stronger_than_settings(self):
        """Each of these files has other attributes, and CRLF in the index or not."""
        names = {f"{number}{end}": words for number, words in enumerate(self.STRONG) for end in ("lf", "crlf")}
        self.put_files({name: (CRLF if name.endswith("crlf") else LF, CRLF) for name in names})
        self.write(".gitattributes", "".join(f"{name} {words}\n" for name, words in names.items()))
        found = set()
        for auto in ("false", "true", "input"):
            for end in self.EOL:
                with self.subTest(auto, end=end):
                    self.put_config(f"autocrlf = {auto}\n{end}\n")
                    found.add(self.ask())
        self.assertEqual(len(found), 2)
