"""The order of paths: that of the bytes of their names, in which trees are walked; and sorting of more records than memory has room for."""
from __future__ import annotations

import heapq
import itertools
import os
import pickle
import tempfile
from typing import IO, Any, Iterable, Iterator, List, Tuple

MOST_HELD = 40000  # records in memory
AT_ONCE = 64  # records that are read back together
Record = Tuple[Any, ...]  # the first entries say the order


def key_of(path: str, is_folder: bool = False) -> bytes:
    """Where a path stands in the order. What is below a folder stands after it, and so does the folder's own row if it can't be read."""
    return os.fsencode(path) + (b"/" if is_folder and path else b"")


class Sorter:
    """Records that come in any order, and are given back sorted. What memory has no room for is in files without a name in a folder."""

    def __init__(self, folder: str, most_held: int = MOST_HELD) -> None:
        self.folder = folder
        self.most_held = most_held
        self.held: List[Record] = []
        self.files: List[IO[bytes]] = []

    def add(self, record: Record) -> None:
        self.held.append(record)
        if len(self.held) >= self.most_held:
            self.spill()

    def spill(self) -> None:
        """Puts what is held into a file, sorted."""
        self.held.sort()
        self.files.append(kept(self.held, self.folder))
        self.held = []

    def sorted(self) -> Iterator[Record]:
        """All records, once. Nothing can be added after that."""
        self.held.sort()
        if not self.files:
            yield from self.held
        else:
            yield from heapq.merge(*map(records_in, self.files), self.held)
        self.close()

    def close(self) -> None:
        for file in self.files:
            file.close()
        self.files, self.held = [], []


def kept(records: Iterable[Record], folder: str) -> IO[bytes]:
    """A file without a name in a folder, with these records."""
    file, waiting = tempfile.TemporaryFile(dir=folder), iter(records)
    while some := list(itertools.islice(waiting, AT_ONCE)):
        pickle.dump(some, file, pickle.HIGHEST_PROTOCOL)
    return file


def records_in(file: IO[bytes]) -> Iterator[Record]:
    file.seek(0)
    while True:
        try:
            some = pickle.load(file)
        except EOFError:
            return
        yield from some
