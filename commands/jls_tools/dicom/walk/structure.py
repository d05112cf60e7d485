"""The way of elements and items through copies that differ: of all ways those remain that go on to the end.

Of these count those that are least strange. `Structure` says what the ways that are left have in common, and `ways` where they part.
"""
from __future__ import annotations

import bisect
from typing import Optional, Union

from jls_tools.dicom.read.elements import Element
from jls_tools.dicom.read.tags import ITEM, PIXEL_DATA
from jls_tools.dicom.walk.ways import PIXELS, State, Step, Walk


class Structure:
    """What the best ways come to. `ways` is {run: the ways that best ways have}; `steps` are those of one of the best."""

    def __init__(self, walk: Walk) -> None:
        start = walk.explore()
        self.walk = walk
        self.is_cut = False
        ends: dict[State, int] = {state: 0 for state in walk.goals}
        if not ends and walk.cuts:
            ends = self.furthest_cuts()
        self.costs = self.costs_to(ends)
        self.cost = self.costs.get(start)
        self.is_found = self.cost is not None
        self.ways: dict[int, set[int]] = {}
        self.items: set[tuple[int, int]] = set()  # where items of Pixel Data begin and end, on any of the best ways
        self.values: set[tuple[int, int]] = set()  # where values begin and end, on any of the best ways
        self.steps = self.best_steps(start) if self.is_found else []
        if self.is_found:
            self.collect(start)
        self.item_begins, self.item_ends = (sorted(item[at] for item in self.items) for at in (0, 1))
        self.costs = {}
        walk.forget()

    def furthest_cuts(self) -> dict[State, int]:
        """Where no way reaches the end: the ways that get furthest before they are cut."""
        walk = self.walk
        self.is_cut = True
        furthest = max(step.before[0] for step in walk.cuts)
        ends: dict[State, int] = {}
        for step in walk.cuts:
            if step.before[0] == furthest:
                end = ("cut", step.element.start if step.element else furthest, step.element.length if step.element else 0)
                step.after = end
                walk.steps.setdefault(step.before, []).append(step)
                ends[end] = 0
        return ends

    def costs_to(self, ends: dict[State, int]) -> dict[State, int]:
        """{state: the least cost from it to an end}."""
        costs = dict(ends)
        for state in sorted(self.walk.steps, key=lambda state: (-state[0], len(state[1]))):
            best = min((step.cost + costs[step.after] for step in self.walk.steps[state] if step.after in costs), default=None)
            if best is not None:
                costs[state] = best
        return costs

    def best(self, state: State) -> list[Step]:
        """The steps from a state that the best ways take."""
        steps = self.walk.steps.get(state, ())
        return [step for step in steps if step.after in self.costs and step.cost + self.costs[step.after] == self.costs[state]]

    def best_steps(self, start: State) -> list[Step]:
        found: list[Step] = []
        state = start
        while steps := self.best(state):
            found.append(steps[0])
            state = steps[0].after
        return found

    def collect(self, start: State) -> None:
        waiting, seen = [start], {start}
        while waiting:
            for step in self.best(waiting.pop()):
                for number, way in step.chosen.items():
                    self.ways.setdefault(number, set()).add(way)
                if step.kind == "fragment" and step.element:
                    self.items.add((step.element.start, step.element.end))
                if step.kind == "leaf" and step.element:
                    self.values.add((step.element.value, step.element.end))
                if step.after not in seen:
                    seen.add(step.after)
                    waiting.append(step.after)

    # What stands where -----------------------------------------------------------------

    @property
    def jumps(self) -> list[tuple[int, int]]:
        """Places from which no way goes on: (from, to)."""
        return [(step.before[0], step.after[0]) for step in self.steps if step.kind == "jump"]

    @property
    def elements(self) -> list[Element]:
        """The elements of the top level, in order."""
        return [step.element for step in self.steps if step.depth == 0 and step.kind in ("leaf", "open") and step.element]

    @property
    def pixel_data(self) -> Optional[Element]:
        return next((element for element in self.elements if element.tag == PIXEL_DATA), None)

    def can_hide(self, tag: int) -> bool:
        """Whether a place from which no way goes on stands where an element of the top level would be."""
        first = max((element.start for element in self.elements if element.tag < tag), default=0)
        last = min((element.start for element in self.elements if element.tag > tag), default=self.walk.total)
        return any(first < begin < last for begin, _ in self.jumps)

    @property
    def descends(self) -> bool:
        """Whether an element follows one of a tag that is not lower (PS3.5, 7.1)."""
        leads = (step for step in self.steps if step.kind in ("leaf", "open") and step.element)
        return any(step.element.tag <= step.before[2] for step in leads if step.element)

    @property
    def is_cut_outside(self) -> bool:
        """Whether the file ends in an element or its header that is no part of Pixel Data."""
        return self.is_cut and bool(self.steps) and self.steps[-1].before[1][-1][0] != PIXELS

    def has_rival(self, begin: int, end: int) -> bool:
        """Whether another of the best ways has other items where this item stands."""
        beside = bisect.bisect_left(self.item_begins, end) - bisect.bisect_right(self.item_ends, begin)
        return beside > ((begin, end) in self.items)

    def is_open(self, element: Element) -> bool:
        """Whether another of the best ways has other values where this value stands: it can be empty or shorter in the true file."""
        own = element.value, element.end
        return any(begin < own[1] and own[0] < end and (begin, end) != own for begin, end in self.values)

    def items_of_pixels(self) -> list[Union[Element, tuple[int, int]]]:
        """The items of Pixel Data, as Elements, the offset table first; jumps as pairs."""
        found: list[Union[Element, tuple[int, int]]] = []
        for step in self.steps:
            is_inner = step.before[1][-1][0] == PIXELS
            if is_inner and step.kind in ("fragment", "cut") and step.element and step.element.tag == ITEM:
                found.append(step.element)
            elif is_inner and step.kind == "jump":
                found.append((step.before[0], step.after[0]))
        return found

    def end_of_pixels(self) -> int:
        """Where what follows Pixel Data begins."""
        for step in self.steps:
            if step.before[1][-1][0] == PIXELS and step.kind == "end" and step.element:
                return step.element.value
        return self.walk.total
