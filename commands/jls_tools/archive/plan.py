"""What a run has to do: the paths of the trees, the sums that lists have of them, and rows of earlier runs, side by side in one order."""
from __future__ import annotations

import heapq
import itertools
from typing import Any, Iterable, Iterator, NamedTuple, Optional, Tuple

from jls_tools.archive.ledger import Known
from jls_tools.archive.sums import Listed
from jls_tools.archive.trees import Item

OF_TREES, OF_SUMS, OF_ROWS = range(3)
Entry = Tuple[bytes, int, Any]  # where it stands in the order, what it is of, and what there is


class Task(NamedTuple):
    """A path: what the trees or sums have of it, if they do, and its row if there is one."""

    item: Optional[Item]
    known: Optional[Known]


def of_trees(items: Iterable[Item]) -> Iterator[Entry]:
    return ((item.key, OF_TREES, item) for item in items)


def of_sums(listed: Iterable[Listed]) -> Iterator[Entry]:
    return ((key, OF_SUMS, (path, expected)) for key, path, expected in listed)


def of_rows(rows: Iterable[Known]) -> Iterator[Entry]:
    return ((row.key, OF_ROWS, row) for row in rows)


def tasks(items: Iterable[Item], listed: Iterable[Listed], rows: Iterable[Known]) -> Iterator[Task]:
    """A Task for each path. One that only a list of sums has is an Item of no tree."""
    merged = heapq.merge(of_trees(items), of_sums(listed), of_rows(rows), key=lambda entry: entry[:2])
    for _, group in itertools.groupby(merged, key=lambda entry: entry[0]):
        item, known = None, None
        for _, kind, found in group:
            if kind == OF_ROWS:
                known = found
            elif kind == OF_TREES:
                item = found
            else:
                item = item or Item(found[0], {})
                item.expected = found[1]
        yield Task(item, known)
