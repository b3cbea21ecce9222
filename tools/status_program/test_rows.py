"""Tests of the program's output for whole profiles, which rows/ has as text, and for profiles that can't be the text of a row:

    python3 tools/run_tests.py status_program.test_rows
"""

import json
import os
import re
import socket
import subprocess
import tempfile
import unittest
from contextlib import contextmanager
from dataclasses import replace

from status_program.row_files import Malformed, all_rows, rows_of
from support.programs import STATUS_PROGRAM, Starved, limit_files
from support.repositories import FOO, read, write

# A profile without entries and nodes, and its output.
NOTHING = b'{"timestamp":[9,0],"options":{"counts":true},"index":[],"worktree":[]}'
TOTALS = b"total: to process 0, processed 0, skipped 0, lstat 0, to update 0, racy 0, read 0, bytes 0\n"

# Nested lists within a profile, by their number of levels. A profile is itself the first level, and its index the second.
LEVELS = [("", 127, "", "bad profile: hash"), ("", 128, "", "not JSON")]
LEVELS += [(front, most, back, "bad profile: timestamp") for front, most, back in
           (('{"more":', 126, "}"), ('{"index":[', 125, "]}"), ('{"worktree":', 126, "}"))]
LEVELS += [(front, most + 1, back, "not JSON") for front, most, back, _ in LEVELS[2:]]
# Profiles that are no UTF-8, or no JSON by a byte order mark, a tab in a text, or more than 127 levels.
TEXTS = [(b'{"hash":"\xff"}', "not JSON"), ("\ufeff{}", "not JSON")]
TEXTS += [('{"timestamp":[9,0],"index":[{"path":"a","id":"%s","more":"\t"}],"worktree":[]}' % FOO, "not JSON")]
TEXTS += [(front + "[" * levels + "]" * levels + back, fault) for front, levels, back, fault in LEVELS]

WHOLE = """What the file is about.
-- words
status f
-- fault
not JSON

== one
not
-- nodes
["folder","d"]

== two
{

}
-- words
-- left
{"a":1,
"b":2}
-- lines
- added "é"
- added "b"
-- fault
usage: none
-- rooms
0 12

== three
{"a":{value},"b":[{value}]}
-- values

1
-- fault
not JSON
"""
MALFORMED = [
    ("-- words\nstatus f\n", "there is no row"),
    ("", "there is no row"),
    ("-- words\nstatus f\n== a\nnot", "the last line has no line feed"),
    ("-- words\nstatus f\n== a\nnot\n== a\nnot\n", "two rows are named a"),
    ("== a\nnot\n", "a: no words"),
    ("-- words\nstatus f\n== a\n--lines\n", "line 4: neither a row nor a section begins like this"),
    ("-- words\nstatus f\n==\n", "line 3: neither a row nor a section begins like this"),
    ("-- words\nstatus f\n== a\n-- line\nb\n", "line 4: there is no section line"),
    ("-- words\nstatus f\n== a\n-- profile\nb\n", "line 4: there is no section profile"),
    ("-- words\nstatus f\n== a\n-- lines\nb\n-- lines\nb\n", "line 6: the row has two sections lines"),
    ("-- words\nstatus\nf\n== a\n", "a: 2 lines of the section words"),
    ("-- words\nstatus f\n== a\n-- lines\n", "a: 0 lines of the section lines"),
    ("-- words\nstatus f\n== a\n-- fault\nb\nc\n", "a: 2 lines of the section fault"),
    ("-- words\nstatus f\n== a\n-- nodes\nb\n", "a: no node of a folder: b"),
    ('-- words\nstatus f\n== a\n-- nodes\n["socket","b"]\n', 'a: no node of a folder: ["socket","b"]'),
    ("-- words\nstatus f\n== a\nb\n-- values\n1\n", "a: {value} in the profile and the section values need each other"),
    ("-- words\nstatus f\n== a\n{value}\n", "a: {value} in the profile and the section values need each other"),
    ("-- words\nstatus f\n== a\n{value}\n-- values\n1\n1\n", "two rows are named a: 1"),
    ("-- words\nstatus f\n== a\n-- lines\nb\n-- rooms\n1 2\n", "a: no output is too small by having room for 2 bytes"),
    ("-- words\nstatus f\n== a\n-- lines\nb\n-- rooms\n-1\n", "a: no output is too small by having room for -1 bytes"),
]


class Reader(unittest.TestCase):
    def test_there_are_rows(self):
        self.assertGreater(len(all_rows()), 500)

    def test_rows_have_their_own_sections_and_those_above(self):
        one, two, *values = rows_of(WHOLE)
        self.assertEqual((one.name, one.words, one.profile, one.status), ("one", ["status", "f"], "not", 1))
        self.assertEqual((one.lines, one.fault, one.left), ("", "not JSON\n", None))
        self.assertEqual((one.nodes, one.rooms), ([["folder", "d"]], []))
        self.assertEqual((two.name, two.words, two.profile, two.status), ("two", [], "{\n\n}", 2))
        self.assertEqual((two.lines, two.left), ('- added "é"\n- added "b"\n', '{"a":1,"b":2}\n'))
        self.assertEqual((two.nodes, two.rooms), ([], [0, 12]))
        wanted = [("three: ", '{"a":,"b":[]}'), ("three: 1", '{"a":1,"b":[1]}')]
        self.assertEqual([(row.name, row.profile) for row in values], wanted)
        self.assertEqual([(row.words, row.fault) for row in values], [(["status", "f"], "not JSON\n")] * 2)

    def test_a_malformed_file_is_an_error(self):
        for text, words in MALFORMED:
            with self.subTest(text=text), self.assertRaisesRegex(Malformed, "^" + re.escape(words)):
                rows_of(text)


def make_node(folder, kind, name, text="", second=None):
    """Makes a node in a folder, with a time of change if one is passed."""
    path = os.path.join(folder, name)
    if kind == "folder":
        os.mkdir(path)
    elif kind == "link":
        os.symlink(text, path)
    else:
        write(path, text)
    if second is not None:
        os.utime(path, (second, second))
        if os.stat(path).st_mtime != second:
            raise unittest.SkipTest(f"no file has a time of {second} seconds here")


@contextmanager
def folder_of(row):
    """Yields a folder with the row's nodes, and with its profile in `f`."""
    with tempfile.TemporaryDirectory() as name:
        folder = os.path.realpath(name)
        for node in row.nodes:
            make_node(folder, *node)
        if row.profile is not None:
            make_node(folder, "file", "f", row.profile.replace("{folder}", json.dumps(folder)[1:-1]))
        yield folder


def behind_other_lists(row):
    """Returns the row with an index and a worktree that aren't lists, before its own. Returns None if the row has no index, or
    is of another command."""
    if row.words[:1] not in (["status"], ["refresh"]) or not re.search(r'^\{.*"index"\s*:', row.profile or "", re.DOTALL):
        return None
    lists = '"index":0,' + '"worktree":0,' * ('"worktree"' in row.profile)
    return replace(row, profile=row.profile.replace("{", "{" + lists, 1))


def run_program(folder, words, **settings):
    """Runs the program in a folder, with these arguments. Returns the ended process."""
    given = {"stdin": subprocess.DEVNULL, "stdout": subprocess.PIPE, "stderr": subprocess.PIPE, **settings}
    return subprocess.run([STATUS_PROGRAM, *words], cwd=folder, timeout=60, **given)


@unittest.skipUnless(STATUS_PROGRAM, "no built program")
class Rows(unittest.TestCase):
    maxDiff = None

    def assert_left(self, folder, before, left):
        """Asserts that the folder has the files from before, and `o` with this text, unless that is None."""
        self.assertEqual(sorted(os.listdir(folder)), sorted(before + ([] if left is None else ["o"])))
        if left is not None:
            self.assertEqual(read(os.path.join(folder, "o")), left.encode())

    def assert_ends_as_it_says(self, row):
        with folder_of(row) as folder:
            before, ran = os.listdir(folder), run_program(folder, row.words)
            self.assertEqual((ran.returncode, ran.stdout, ran.stderr), (row.status, row.lines.encode(), row.fault.encode()))
            self.assert_left(folder, before, row.left)

    def test_of_equal_lists_the_last_counts(self):
        # Lists of another form are read in another way, which has to have the same result.
        for file, row in ((file, behind_other_lists(row)) for file, row in all_rows()):
            if row is not None:
                with self.subTest(file=file, row=row.name):
                    self.assert_ends_as_it_says(row)

    def test_an_output_that_is_too_small_is_a_failure_with_no_line(self):
        # Lines are kept until they are flushed, and then written at once. The system takes as many bytes of them as it
        # has room for, and refuses the next write. So the output has these bytes.
        for file, row in all_rows():
            for size in row.rooms:
                with self.subTest(file=file, row=row.name, room=size), folder_of(row) as folder:
                    before = os.listdir(folder)
                    with tempfile.TemporaryFile() as output:
                        ran = run_program(folder, row.words, stdout=output, preexec_fn=limit_files(size))
                        output.seek(0)
                        self.assertEqual((ran.returncode, ran.stderr), (1, b""))
                        self.assertEqual(output.read(), row.lines.encode()[:size])
                    self.assert_left(folder, before, None)

    def test_an_output_that_is_not_flushed_is_a_failure_with_no_line(self):
        for file, row in (it for it in all_rows() if it[1].rooms):
            with self.subTest(file=file, row=row.name), folder_of(row) as folder, open("/dev/full", "wb") as full:
                before, ran = os.listdir(folder), run_program(folder, row.words, stdout=full)
                self.assertEqual((ran.returncode, ran.stderr), (1, b""))
                self.assert_left(folder, before, None)


# Each row is a test of its own.
for name, found in all_rows():
    setattr(Rows, f"test_{name}: {found.name}", lambda self, row=found: self.assert_ends_as_it_says(row))


@unittest.skipUnless(STATUS_PROGRAM, "no built program")
class Inputs(unittest.TestCase):
    """Tests of profiles that can't be the text of a row."""

    def setUp(self):
        room = tempfile.TemporaryDirectory()
        self.addCleanup(room.cleanup)
        self.folder = os.path.realpath(room.name)

    def assert_ends(self, words, status, lines, fault, **settings):
        ran = run_program(self.folder, words.split(), **settings)
        self.assertEqual((ran.returncode, ran.stdout, ran.stderr), (status, lines, fault))

    def write(self, content):
        write(os.path.join(self.folder, "f"), content)

    def write_over_folder(self, index):
        """Writes a profile of these entries over the folder, with totals and a piece for each entry."""
        options = {"counts": True, "chunk_size": 1, "thread_limit": 1}
        self.write(json.dumps({"timestamp": [9, 0], "options": options, "index": index, "folder": self.folder}))

    def test_texts_that_are_no_json_are_refused(self):
        for text, fault in TEXTS:
            with self.subTest(text=text[:40], size=len(text)):
                self.write(text)
                self.assert_ends("status f", 1, b"", fault.encode() + b"\n")

    def test_a_profile_may_come_by_standard_input(self):
        self.write(NOTHING)
        with open(os.path.join(self.folder, "f"), "rb") as file:
            self.assert_ends("status /dev/stdin", 0, TOTALS, b"", stdin=file)
        self.assert_ends("status /dev/stdin", 0, TOTALS, b"", stdin=None, input=NOTHING)

    def test_standard_input_that_is_a_folder_cannot_be_read(self):
        folder = os.open(self.folder, os.O_RDONLY)
        self.addCleanup(os.close, folder)
        for command in ("status /dev/stdin", "replay /dev/stdin", "refresh /dev/stdin o 10 0"):
            with self.subTest(command=command):
                self.assert_ends(command, 1, b"", b"cannot read /dev/stdin\n", stdin=folder)
        self.assertEqual(os.listdir(self.folder), [])

    def test_a_path_of_ten_thousand_components_is_followed(self):
        path = "/".join(["a"] * 10_000)
        entry = {"path": path, "id": FOO, "size": 3, "mtime": [5, 0]}
        totals = "total: to process 1, processed 1, skipped 0, lstat 1, "
        changed = f'0 modified -c- "{path}"\n'
        for text, mtime, lines, counts in (("bar", 7, changed, "read 1, bytes 3"), ("foo", 5, "", "read 0, bytes 0")):
            with self.subTest(text):
                node = {"path": path, "text": text, "mtime": [mtime, 0]}
                profile = {"timestamp": [9, 0], "options": {"counts": True}, "index": [entry], "worktree": [node]}
                self.write(json.dumps(profile))
                self.assert_ends("status f", 0, f"{lines}{totals}to update 0, racy 0, {counts}\n".encode(), b"")

    def test_a_file_that_may_not_be_read_is_a_fault(self):
        for name, text in (("a", "bar"), ("locked", "foo"), ("z", "bar")):
            make_node(self.folder, "file", name, text)
        os.chmod(os.path.join(self.folder, "locked"), 0)
        self.write_over_folder([{"path": name, "id": FOO} for name in ("a", "locked", "z")])
        # The record before the fault stays printed, and there are no totals.
        self.assert_ends("status f", 1, b'0 modified -c- "a"\n', b"status failed: permission denied\n")

    def test_a_folder_that_may_not_be_entered_is_a_fault(self):
        for kind, name in (("folder", "d"), ("folder", "d/e"), ("file", "d/e/x"), ("file", "d/x")):
            make_node(self.folder, kind, name, "foo")
        os.chmod(os.path.join(self.folder, "d"), 0o600)
        self.addCleanup(os.chmod, os.path.join(self.folder, "d"), 0o700)
        # The fault comes from the directory on the way to the first, and from the second itself.
        for path in ("d/e/x", "d/x"):
            with self.subTest(path=path):
                self.write_over_folder([{"path": "a", "id": FOO}, {"path": path, "id": FOO}])
                self.assert_ends("status f", 1, b'0 removed "a"\n', b"status failed: permission denied\n")

    def test_a_link_whose_target_is_no_utf_8_is_a_fault(self):
        os.symlink(b"\xff", os.path.join(self.folder, "l"))
        self.write_over_folder([{"path": "a", "id": FOO}, {"path": "l", "mode": "120000", "id": FOO}])
        self.assert_ends("status f", 1, b'0 removed "a"\n', b"status failed: other 0\n")

    def test_a_file_of_1969_and_one_past_32_bit_seconds_have_no_time(self):
        for second in (-1, 1 << 32):
            with self.subTest(second=second):
                make_node(self.folder, "file", "late", "foo", second)
                entries = [{"path": "a", "id": FOO}, {"path": "late", "id": FOO}]
                self.write_over_folder(entries)
                self.assert_ends("status f", 1, b'0 removed "a"\n', b"status failed: time\n")
                # An entry that is skipped isn't compared.
                self.write_over_folder([entries[0], {**entries[1], "flags": ["skip-worktree"]}])
                totals = b"total: to process 2, processed 2, skipped 1, lstat 1, to update 0, racy 0, read 0, bytes 0\n"
                self.assert_ends("status f", 0, b'0 removed "a"\n' + totals, b"")

    def test_what_is_no_file_is_not_opened(self):
        # Opening the pipe would never return.
        os.mkfifo(os.path.join(self.folder, "pipe"))
        os.symlink("pipe", os.path.join(self.folder, "link"))
        self.write_over_folder([{"path": name, "id": FOO} for name in ("link", "pipe", "socket")])
        with socket.socket(socket.AF_UNIX) as bound:
            bound.bind(os.path.join(self.folder, "socket"))
            totals = b"total: to process 3, processed 3, skipped 0, lstat 3, to update 0, racy 0, read 0, bytes 0\n"
            lines = b'0 type 120000 "link"\n1 type 100644 "pipe"\n2 type 100644 "socket"\n'
            self.assert_ends("status f", 0, lines + totals, b"")

    def test_a_clean_file_and_a_clean_link_are_never_opened(self):
        # Reading the file or the link would be a fault.
        make_node(self.folder, "file", "a", "bar", 5)
        os.chmod(os.path.join(self.folder, "a"), 0)
        link = os.path.join(self.folder, "l")
        os.symlink(b"\xff", link)
        os.utime(link, (5, 5), follow_symlinks=False)
        clean = {"id": FOO, "mtime": [5, 0]}
        self.write_over_folder([{"path": "a", "size": 3, **clean}, {"path": "l", "mode": "120000", "size": 1, **clean}])
        totals = b"total: to process 2, processed 2, skipped 0, lstat 2, to update 0, racy 0, read 0, bytes 0\n"
        self.assert_ends("status f", 0, totals, b"")


@unittest.skipUnless(STATUS_PROGRAM, "no built program")
class Workers(unittest.TestCase):
    # A limit of workers, a size of pieces, a number of entries, and how many threads are started. One of the workers is the
    # program's own thread.
    STARTS = [(None, 1, 8, 3), (0, 1, 8, 3), (1, 1, 8, 0), (2, 1, 8, 1), (3, 1, 8, 2), (4294967295, 1, 100, 63), (None, 4, 8, 1)]
    STARTS += [(None, 7, 8, 1), (None, 8, 8, 0), (None, 4294967295, 8, 0), (None, 0, 500, 0), (None, 0, 501, 1)]

    def test_threads_are_started_as_the_options_say(self):
        with tempfile.TemporaryDirectory() as folder, Starved(STATUS_PROGRAM, folder) as starved:
            file = os.path.join(folder, "f")
            for limit, size, entries, threads in self.STARTS:
                with self.subTest(limit=limit, size=size, entries=entries):
                    index = [{"path": f"{number:03}", "id": FOO} for number in range(entries)]
                    options = {"thread_limit": limit, "chunk_size": size}
                    write(file, json.dumps({"timestamp": [9, 0], "options": options, "index": index, "worktree": []}))
                    ended, calls = starved.run(["status", file])
                    self.assertEqual((ended.status, ended.fault, calls.count("t")), (0, b"", threads))
