"""Tests of git_dirty, whose results are compared with git's."""
