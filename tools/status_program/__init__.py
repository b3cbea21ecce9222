"""Tests of status_program: rows of whole profiles, the command `refresh`, and profiles of git repositories."""
