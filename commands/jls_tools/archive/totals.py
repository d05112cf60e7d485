"""What all rows come to, as they pass by: counts of each result, and those that lost most."""
from __future__ import annotations

import collections
import heapq
from typing import Any, Callable, Counter, Dict, List, Tuple

from jls_tools.archive.rows import PICTURES, Row

WORST = 10
LINES = ("settled", "missing", "disputed")


def loss_of(row: Row) -> Tuple[float, int]:
    """The order of what lost most: what is no picture, or can't be told, comes last."""
    return -1 if row.loss is None else row.loss, (row.missing or 0) + (row.disputed or 0)


class Most:
    """What is made of the rows that lost most, of any number of rows. Of those that lost the same the first ones are kept."""

    def __init__(self, most: int, make: Callable[[Row], Any] = lambda row: row) -> None:
        self.most = most
        self.make = make
        self.heap: List[Tuple[Tuple[float, int], int, Any]] = []
        self.seen = 0

    def add(self, row: Row) -> None:
        self.seen += 1
        order = loss_of(row), -self.seen
        if len(self.heap) < self.most:
            heapq.heappush(self.heap, (*order, self.make(row)))
        elif self.heap and order > self.heap[0][:2]:
            heapq.heapreplace(self.heap, (*order, self.make(row)))

    def made(self) -> List[Any]:
        """The greatest loss first."""
        return [made for _, _, made in sorted(self.heap, key=lambda entry: entry[:2], reverse=True)]


class Totals:
    """Counts of rows."""

    def __init__(self) -> None:
        self.paths = self.pictures = self.not_whole = 0
        self.lines: Dict[str, int] = dict.fromkeys(LINES, 0)
        self.of_result: Counter[Tuple[bool, str]] = collections.Counter()
        self.worst = Most(WORST)

    def add(self, row: Row, count: int = 1) -> None:
        """Counts a row, or so many that differ in their paths alone."""
        self.paths += count
        self.pictures += count * (row.kind in PICTURES)
        self.of_result[row.status == 0, row.result] += count
        for name in LINES:
            self.lines[name] += count * (getattr(row, name) or 0)
        if row.status:
            self.not_whole += count
        if row.status and row.loss:
            self.worst.add(row)

    def results(self) -> List[Tuple[str, int, bool]]:
        """[(a result, how many rows have it, whether these are whole)], whole ones first, then by number."""
        ordered = sorted(self.of_result.items(), key=lambda item: (-item[0][0], -item[1], item[0][1]))
        return [(result, count, whole) for (whole, result), count in ordered]

    def counts(self) -> Dict[str, int]:
        named = {"paths": self.paths, "pictures": self.pictures, "whole": self.paths - self.not_whole, "not whole": self.not_whole}
        return {**named, **{f"lines {name}": count for name, count in self.lines.items()}}
