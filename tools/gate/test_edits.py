"""Tests that each must-fail edit can be applied, and says what it is for:

    python3 tools/run_tests.py gate.test_edits

`rt ci` fails for an edit that the prover doesn't refuse, but not for one that it can't apply: such an edit shows nothing.
"""

import re
import unittest

from support.programs import TOP

EDITS = sorted(TOP.glob("crates/*/must-fail/*.edit"))
ROW = re.compile(r"^\| `(\w+)` \| [^|]*\S[^|]* \| (values|twin: .*\S) \|$", re.M)


def applied(edit):
    """Returns the texts of the files that an edit changes, before and after, by their paths. Raises a ValueError if it can't."""
    before, after, path, old = {}, {}, None, None
    for line in edit.read_text(encoding="utf-8").splitlines():
        word, _, text = line.partition(": ")
        if word == "file":
            path = edit.parent.parent / text
            before.setdefault(path, path.read_text(encoding="utf-8"))
            after.setdefault(path, before[path])
        elif word == "old":
            old = text
        elif word in ("new", "new:"):
            if after[path].count(old) != 1:
                raise ValueError(f"{after[path].count(old)} times in {path.name}: {old}")
            after[path] = after[path].replace(old, text)
        else:
            raise ValueError(f"no line of an edit: {line}")
    return before, after


class Edits(unittest.TestCase):
    def test_each_can_be_applied_and_changes_code(self):
        self.assertGreaterEqual(len(EDITS), 50)
        for edit in EDITS:
            with self.subTest(edit=edit.relative_to(TOP).as_posix()):
                before, after = applied(edit)
                self.assertNotEqual(before, after)
                self.assertIn(".rt", {path.suffix for path in after})

    def test_the_page_has_their_number(self):
        self.assertRegex((TOP / "docs" / "EVIDENCE.md").read_text(encoding="utf-8"), rf"There are {len(EDITS)}\.")

    def test_each_has_a_row_that_says_what_shows_it(self):
        for folder in sorted({edit.parent for edit in EDITS}):
            with self.subTest(crate=folder.parent.name):
                rows = [name for name, _ in ROW.findall((folder / "README.md").read_text(encoding="utf-8"))]
                self.assertEqual(rows, sorted(edit.stem for edit in EDITS if edit.parent == folder))
