"""What scripts and tests share: the built programs, repositories, index files, and profiles."""
