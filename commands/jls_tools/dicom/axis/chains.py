"""Two texts laid beside each other by the runs of bytes that stand in both: of all orders of runs the one that costs least.

A search that goes from one loss to the next takes the first place where both go on. Where losses lie near each other, or damage lies
beside one, that can be a wrong one. Here each run that stands in both is known first, and what lies between two of them has a cost. Bytes
that one alone has make the file longer. Bytes that differ are damage of one of the two, unless they are filled.
"""
from __future__ import annotations

import math
import re
from array import array
from collections.abc import Iterator
from itertools import accumulate
from typing import NamedTuple, Optional

from jls_tools.dicom.axis.media import SECTOR
from jls_tools.dicom.axis.one_loss import BYTE, PLACE
from jls_tools.dicom.axis.periods import period_of

PIECE, KINDS = 16, 8  # bytes by which a run is found, and so many different ones among them
MOST_PLACES = 4  # of one piece in a text: what stands more often shows nothing
MOST_FOUND, MOST_RUNS = 1 << 16, 1024  # runs of two texts, and those of which chains are made
LARGEST = 1 << 22  # bytes of a text: a longer one would take much room
FILLED = re.compile(rb"(.)\1{15,}", re.S)


class Run(NamedTuple):
    """Bytes that stand in both texts: where they begin in each, and how many they are."""

    at: int
    beside: int
    size: int


class Chain:
    """Two texts, and the runs that stand in one order in both, so that what lies between costs least."""

    def __init__(self, one: bytes, other: bytes) -> None:
        self.end = Run(len(one), len(other), 0)
        self.filled = filled_before(one), filled_before(other)
        runs = without_repeats(self.end, [*runs_in_both(one, other), *at_end(one, other)])
        self.runs = self.best([Run(0, 0, 0), *sorted(runs), self.end]) if 0 < len(runs) <= MOST_RUNS else []

    def best(self, runs: list[Run]) -> list[Run]:
        """The chain of these runs that costs least, from the first to the last one; these two are not in it."""
        costs, before = [0.0] + [math.inf] * (len(runs) - 1), [0] * len(runs)
        for number, run in enumerate(runs):
            for each in range(number):
                cost = costs[each] + self.cost_between(runs[each], run)
                if cost < costs[number]:
                    costs[number], before[number] = cost, each
        found: list[Run] = []
        number = before[-1]
        while number:
            found.append(runs[number])
            number = before[number]
        return found[::-1]

    def cost_between(self, run: Run, behind: Run) -> float:
        """How many bits say what lies between two runs: as many bytes of both differ, or each text lost what the other one has."""
        sizes = between(run, behind)
        return math.inf if sizes is None else min(self.cost_apart(run, *sizes), cost_alone(*sizes))

    def cost_apart(self, run: Run, own: int, other: int) -> float:
        """What bytes after a run cost, of which as many of both differ, and the rest was lost."""
        apart, begins = min(own, other), (run.at + run.size, run.beside + run.size)
        ends = (begin + apart for begin in begins)
        left = (apart - filled[end] + filled[begin] for filled, begin, end in zip(self.filled, begins, ends))
        return cost_of_loss(abs(own - other)) + (PLACE + BYTE * min(left) if apart else 0)

    def parts(self) -> Iterator[tuple[int, int]]:
        """(bytes of one, bytes of the other) in turn: as many of both, or none of one. If no run stands in both, there are none."""
        last = Run(0, 0, 0)
        for run in [*self.runs, self.end] if self.runs else ():
            own, other = between(last, run) or (0, 0)
            both = min(own, other) if self.cost_apart(last, own, other) <= cost_alone(own, other) else 0
            yield both, both
            yield own - both, 0
            yield 0, other - both
            rest = run.at + run.size - last.at - last.size - own
            yield rest, rest
            last = run


def filled_before(text: bytes) -> array[int]:
    """For each place how many bytes before it are of one value again and again, or in a sector that one text fills."""
    mask = bytearray(len(text))
    ranges = [found.span() for found in FILLED.finditer(text)]
    ranges += [(at, at + SECTOR) for at in range(0, len(text) - SECTOR + 1, SECTOR) if period_of(text[at : at + SECTOR]) > 1]
    for begin, end in ranges:
        mask[begin:end] = b"\1" * (end - begin)
    return array("L", accumulate(mask, initial=0))


def at_end(one: bytes, other: bytes) -> list[Run]:
    """The bytes with which both texts end, as most copies do."""
    size, most = 0, min(len(one), len(other))
    while size < most and one[-size - 1] == other[-size - 1]:
        size += 1
    return [Run(len(one) - size, len(other) - size, size)] if size else []


def without_repeats(end: Run, runs: list[Run]) -> list[Run]:
    """Runs without those that lie within longer ones in both texts: words that stand several times."""
    found: list[Run] = []
    covered = bytearray(end.at), bytearray(end.beside)
    for run in sorted(set(runs), key=lambda run: -run.size):
        parts = [slice(begin, begin + run.size) for begin in (run.at, run.beside)]
        if any(0 in mask[part] for mask, part in zip(covered, parts)):
            found.append(run)
            for mask, part in zip(covered, parts):
                mask[part] = b"\1" * run.size
    return found


def runs_in_both(one: bytes, other: bytes) -> list[Run]:
    """The longest runs around pieces of one text that stand in the other too; none if there are too many, or texts are too long."""
    if max(len(one), len(other)) > LARGEST:
        return []
    places: dict[bytes, list[int]] = {}
    for at in range(0, len(one) - PIECE + 1, PIECE):
        piece = one[at : at + PIECE]
        if len(set(piece)) >= KINDS:
            places.setdefault(piece, []).append(at)
    found: list[Run] = []
    ends: dict[int, int] = {}  # {how far on a run stands in the other text: where the last one found ends there}
    for beside in range(len(other) - PIECE + 1):
        own = places.get(other[beside : beside + PIECE], ())
        for at in own if len(own) <= MOST_PLACES else ():
            if ends.get(beside - at, 0) <= beside:
                found.append(run_around(one, other, at, beside))
                ends[beside - at] = found[-1].beside + found[-1].size
        if len(found) > MOST_FOUND:
            return []
    return found


def run_around(one: bytes, other: bytes, at: int, beside: int) -> Run:
    """The longest run of equal bytes around a place of each text."""
    begin, end = 0, 0
    while begin < min(at, beside) and one[at - begin - 1] == other[beside - begin - 1]:
        begin += 1
    most = min(len(one) - at, len(other) - beside)
    while end < most and one[at + end : at + end + SECTOR] == other[beside + end : beside + end + SECTOR]:
        end = min(most, end + SECTOR)
    while end < most and one[at + end] == other[beside + end]:
        end += 1
    return Run(at - begin, beside - begin, begin + end)


def between(run: Run, behind: Run) -> Optional[tuple[int, int]]:
    """How many bytes of each text lie between two runs, without what both share; nothing if one does not follow the other."""
    own, other = behind.at - run.at - run.size, behind.beside - run.beside - run.size
    shared = max(0, -own, -other)
    return (own + shared, other + shared) if shared == 0 or shared < behind.size else None


def cost_alone(own: int, other: int) -> float:
    """What bytes cost of which each text lost those of the other."""
    return cost_of_loss(own) + cost_of_loss(other)


def cost_of_loss(size: int) -> float:
    """What bytes cost that one text lost: half of what they are, as both texts together say how long the file is."""
    return PLACE + 2 * math.log2(size) + BYTE / 2 * size if size else 0.0
