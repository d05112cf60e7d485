"""The line on the terminal that says how far a run is, and how long it may take yet."""
from __future__ import annotations

import sys
import time
from typing import Callable, Optional, Protocol


class Ended(Protocol):
    """What the line needs of a row."""

    status: int


class Progress:
    """Counts paths. The time left follows from those that were worked on in this run, and not from rows of an earlier one."""

    def __init__(self, is_quiet: bool, total: int = 0, clock: Callable[[], float] = time.monotonic) -> None:
        self.total = total
        self.done = self.worked = self.not_whole = 0
        self.clock = clock
        self.begun = self.shown = clock()
        self.is_on = not is_quiet and sys.stderr.isatty()

    def pass_over(self, row: Ended) -> None:
        """A path that an earlier run has done."""
        self.count(row)
        if not self.worked:
            self.begun = self.clock()
        self.show()

    def step(self, row: Ended) -> None:
        """A path that this run has done."""
        self.worked += 1
        self.count(row)
        self.show()

    def count(self, row: Ended) -> None:
        self.done += 1
        self.total = max(self.total, self.done)
        self.not_whole += row.status != 0

    def left(self) -> Optional[float]:
        """The seconds that the rest may take; nothing before a path was done."""
        if not self.worked:
            return None
        return (self.clock() - self.begun) * (self.total - self.done) / self.worked

    def text(self) -> str:
        left = self.left()
        said = "" if left is None else f", about {hours(left)} left"
        return f"{self.done} of {self.total}, {self.not_whole} not whole{said}"

    def show(self) -> None:
        now = self.clock()
        if self.is_on and (now - self.shown > 0.2 or self.done == self.total):
            self.shown = now
            sys.stderr.write(f"\r{self.text()}\x1b[K")
            sys.stderr.flush()

    def end(self) -> None:
        if self.is_on:
            sys.stderr.write("\r\x1b[K")
            sys.stderr.flush()


def hours(seconds: float) -> str:
    return f"{int(seconds) // 3600}:{int(seconds) // 60 % 60:02}:{int(seconds) % 60:02}"
