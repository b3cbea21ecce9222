"""Runs a part of swap_folders.py, and shows what it notices:

    python3 tools/run_tests.py stress.test_swap_folders
"""

import os
import tempfile
import unittest

from stress import swap_folders
from support.programs import STATUS_PROGRAM, Ended
from support.repositories import write

FAULT = "status failed: not found\n"


def total(processed=200, looks=200, read=150):
    """Returns a total line with these counts."""
    counts = f"processed {processed}, skipped 0, lstat {looks}, to update 0, racy 0, read {read}"
    return f"total: to process 200, {counts}, bytes 450\n"


RIGHT = [(0, total(), ""), (0, "3 removed\n7 removed\n" + total(), ""), (1, "", FAULT), (1, "3 removed\n", FAULT)]
WRONG = [(0, "", ""), (0, total(), FAULT), (1, "", ""), (1, "", FAULT * 2), (2, "", ""), (-11, "", ""), (None, "", "")]
WRONG += [(0, f"{lines}{total()}", "") for lines in ("7 removed\n3 removed\n", "3 removed\n3 removed\n", "200 removed\n")]
WRONG += [(0, total(*counts), "") for counts in ((199,), (200, 201), (200, 100, 101))]


class Ends(unittest.TestCase):
    def test_ends_are_right_or_wrong(self):
        for rows, right in ((RIGHT, True), (WRONG, False)):
            for status, out, fault in rows:
                with self.subTest(status=status, out=out, fault=fault):
                    self.assertEqual(swap_folders.is_right(Ended(status, out.encode(), fault.encode())), right)

    def test_openings_of_files_are_counted(self):
        with tempfile.TemporaryDirectory() as folder:
            for name in "ab":
                write(f"{folder}/{name}", "foo")
            openings = swap_folders.Openings(folder)
            os.listdir(folder)
            self.assertEqual(openings.count(), 0)
            for name in "aba":
                with open(f"{folder}/{name}", "rb"):
                    pass
            self.assertEqual((openings.count(), openings.count()), (3, 0))


@unittest.skipUnless(STATUS_PROGRAM, "no built program")
class Program(unittest.TestCase):
    def test_runs_over_a_changing_folder_end_as_they_may(self):
        changing, still = swap_folders.raced(STATUS_PROGRAM, 50)
        self.assertEqual((changing.well + changing.fault, changing.wrong), (50, 0))
        self.assertEqual((still.well, still.opened), (50, 0))
