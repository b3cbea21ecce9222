#!/usr/bin/env python3
"""Compares the lines of git_dirty with those of git's status, over drawn sparse checkouts.

    python3 tools/stress/compare_sparse.py --seeds 1000 [--first 0] [--keep FOLDER]

draw_sparse.py draws the repository of each seed. What is run, compared and printed is as in compare_dirty.py.
"""

import os
import sys
from functools import partial

sys.path.insert(0, os.path.dirname(os.path.dirname(os.path.abspath(__file__))))

from stress.compare_dirty import PART, compared
from stress.draw_sparse import SparseDrawing
from stress.seeds import main
from support.programs import GIT_DIRTY

run = partial(compared, kind=SparseDrawing)

if __name__ == "__main__":
    main(run, 1000, PART, GIT_DIRTY)
