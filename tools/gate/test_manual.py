"""Tests of the page of the system's manual, docs/git-dirty.1:

    python3 tools/run_tests.py gate.test_manual
"""

import re
import subprocess
import unittest

import manual
from support.programs import TOP

PAGE = TOP / "docs" / "git-dirty.1"


def formatted(*words):
    return subprocess.run(["man", *words, "--warnings", "-E", "ascii", "-l", PAGE], capture_output=True, text=True, timeout=60)


class Manual(unittest.TestCase):
    def test_it_is_made_from_the_page_in_markdown(self):
        self.assertEqual(PAGE.read_text(encoding="utf-8"), manual.manual(), "run python3 tools/manual.py")

    def test_man_formats_it_without_a_warning(self):
        ran = formatted()
        self.assertEqual((ran.returncode, ran.stderr), (0, ""))
        for heading in ("NAME", "SYNOPSIS", "OPTIONS", "EXIT STATUSES", "SEE ALSO"):
            self.assertRegex(ran.stdout, rf"(?m)^{heading}$")

    def test_it_has_each_option_of_the_help(self):
        shown = formatted("--no-hyphenation").stdout
        helped = (TOP / "crates" / "git_dirty" / "stdout").read_text(encoding="utf-8")
        words = re.findall(r"(?<![\w-])--?\w[\w-]*", helped[helped.index("\nOptions:") : helped.index("\nExamples:")])
        self.assertGreater(len(words), 8)
        for word in words:
            with self.subTest(word=word):
                self.assertRegex(shown, rf"(?<![\w-]){word}\b")

    def test_marks_become_fonts(self):
        self.assertEqual(manual.inline("**a `b-c` d** *e* [f](g#h) i\\j"), r"\fBa \fBb\-c\fB d\fR \fIe\fR f i\ej")
        self.assertEqual(manual.table(["| A | B | C |", "|---|---|---|", r"| `a \| b` | c | d |"]),
                         [".TP", r"\fBa | b\fR", r"\fIB\fR: c", ".br", r"\fIC\fR: d"])
        self.assertEqual(manual.blocks(["- a", "  b", "", "  ```", "  .c", "  ```", "- d"]),
                         [r".IP \(bu 3", "a b", ".RS 3", ".PP", ".RS 4", ".nf", r"\&.c", ".fi", ".RE", ".RE", r".IP \(bu 3", "d"])
