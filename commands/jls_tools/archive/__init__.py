"""jls-archive: goes through trees, or folders, and says what became of each path."""
