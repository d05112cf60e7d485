"""Decides what stands outside of frames where copies differ: the way that goes on, what the file says elsewhere, most copies."""
from __future__ import annotations

import bisect
import itertools
from collections.abc import Callable, Collection, Iterable, Iterator, Sequence
from typing import Optional

from jls_tools.dicom.axis.align import Copy
from jls_tools.dicom.axis.runs import Run, Runs
from jls_tools.dicom.evidence.alone import Stranger, held_by_one, places_alone
from jls_tools.dicom.evidence.csa import Chains
from jls_tools.dicom.evidence.decider import Decider
from jls_tools.dicom.evidence.elsewhere import by_elsewhere
from jls_tools.dicom.evidence.in_zeros import by_zeros_around
from jls_tools.dicom.evidence.joints import by_joints
from jls_tools.dicom.evidence.meta import NO_MEANING, by_meta, by_preamble, by_prefix, by_version_name
from jls_tools.dicom.evidence.misplaced import by_place
from jls_tools.dicom.evidence.most import BY_MOST
from jls_tools.dicom.evidence.picture import by_frames
from jls_tools.dicom.evidence.sent import by_seven_bits
from jls_tools.dicom.evidence.tables import Table, Tables
from jls_tools.dicom.evidence.terms import by_terms
from jls_tools.dicom.evidence.votes import by_frames_alone, by_most, by_neighbours
from jls_tools.dicom.read.elements import UNDEFINED, Element, tag_name, text_of
from jls_tools.dicom.read.tags import FIRST, PADDING, PREAMBLE
from jls_tools.dicom.read.values import NOT_IN_TEXT, TEXTS, is_written
from jls_tools.dicom.result import Place
from jls_tools.dicom.walk.structure import Structure
from jls_tools.frames.codestream import Shape

MOST_TOGETHER = 4096
ZEROS, IS_PADDING = "others are zeros", "padding is zeros"
GUESSES = (ZEROS, IS_PADDING, NO_MEANING)
Reading = tuple[bytes, dict[int, int]]  # the bytes of a way through a range, and {run: way}


class Header:
    """The runs outside of the frames, with the ways that are left for each. `ranges` of frames are (begin, end), in order."""

    def __init__(self, copies: Sequence[Copy], runs: Runs, structure: Structure, ranges: Sequence[tuple[int, int]]) -> None:
        self.copies = copies
        self.runs = runs
        self.structure = structure
        self.ranges = ranges
        self.left: dict[int, list[int]] = {}  # run: the ways that are left
        self.why: dict[int, str] = {}
        self.parts: dict[int, list[tuple[int, int]]] = {}  # run: what of it is outside of the frames, (begin, end) each
        self.leaves = [step.element for step in structure.steps if step.kind == "leaf" and step.element]
        self.begins = [element.value for element in self.leaves]
        self.tables: list[Place] = []  # a Place for each part of an offset table of which no copy has each byte
        self.alone: list[Place] = []  # a Place for each element that one copy alone has, and that nothing else confirms
        for number, run in enumerate(runs.runs):
            parts = [part for part in self.outside(run.begin, run.end) if len({run.part(way, *part) for way in range(len(run.ways))}) > 1]
            if parts:
                self.parts[number] = parts
                self.left[number] = self.first_ways(number, run)
        self.elements = {element.tag: element for element in reversed(structure.elements)}

    def outside(self, begin: int, end: int) -> Iterator[tuple[int, int]]:
        """What of a range no frame has."""
        for first, last in self.ranges:
            if last <= begin or first >= end:
                continue
            if begin < first:
                yield begin, first
            begin = max(begin, last)
        if begin < end:
            yield begin, end

    def first_ways(self, number: int, run: Run) -> list[int]:
        if run.firm is not None:
            self.why[number] = BY_MOST
            return [run.firm]
        found = self.structure.ways.get(number)
        if found is not None:
            self.why[number] = "it goes on so"
            return sorted(found)
        self.why[number] = ZEROS
        return [way for way in range(len(run.ways)) if not (run.zeros[way] and self.is_in_text(run))]

    def is_in_text(self, run: Run) -> bool:
        """Whether a run lies in a text, and ends before it. In other values, and at the end of one, zeros can be true."""
        at = bisect.bisect_right(self.begins, run.begin) - 1
        return at >= 0 and run.end < self.leaves[at].end and self.leaves[at].vr in TEXTS

    # What is chosen --------------------------------------------------------------------

    def chosen(self) -> dict[int, int]:
        return {number: ways[0] for number, ways in self.left.items() if len(ways) == 1}

    def open_runs(self, begin: int = 0, end: Optional[int] = None) -> list[int]:
        end = len(self.runs.data) if end is None else end
        return [number for number in self.runs.touching(begin, end) if len(self.left.get(number, ())) > 1]

    def keep(self, number: int, ways: Collection[int], why: str) -> None:
        """Leaves these ways of a run, if there are any."""
        kept = [way for way in self.left[number] if way in ways]
        if kept and len(kept) < len(self.left[number]):
            self.left[number] = kept
            self.why[number] = why

    def readings(self, begin: int, end: int) -> list[Reading]:
        """Each way through a range that is left: (its bytes, {run: way})."""
        free = self.open_runs(begin, end)
        chosen = self.chosen()
        count = 1
        for number in free:
            count *= len(self.left[number])
        if count > MOST_TOGETHER:
            return []
        return [
            (self.runs.bytes_with(begin, end, {**chosen, **dict(zip(free, ways))}), dict(zip(free, ways)))
            for ways in itertools.product(*(self.left[number] for number in free))
        ]

    def keep_readings(self, readings: Iterable[tuple[object, dict[int, int]]], why: str) -> None:
        """Leaves the ways that some of these readings take."""
        chosen = [ways for _, ways in readings]
        for number in {number for ways in chosen for number in ways}:
            self.keep(number, {ways[number] for ways in chosen}, why)

    def keep_values(self, tag: int, is_true: Callable[[bytes], bool], why: str) -> None:
        """Leaves what makes the value of an element true, if anything does."""
        element = self.elements.get(tag)
        if element is None or element.length == UNDEFINED:
            return
        readings = [reading for reading in self.readings(element.value, element.end) if is_true(reading[0])]
        if readings:
            self.keep_readings(readings, why)

    # What decides ----------------------------------------------------------------------

    def decide(self, shape: Optional[Shape], frame_count: int, table: Table) -> None:
        """All that the file itself can say. `table` has what the offset tables should have, by tag; None is the tag of the basic one."""
        by_prefix(self)
        self.by_values()
        by_meta(self)
        by_frames(self, shape, frame_count)
        tables = Tables(self)
        tables.decide(table)
        self.tables = tables.places
        Chains(self).decide()
        by_terms(self)
        by_version_name(self)
        by_neighbours(self)
        self.keep_values(PADDING, lambda value: not value.strip(b"\0"), IS_PADDING)
        Decider(self).decide()
        Chains(self).decide()  # with the sectors that were decided its items can go on
        by_joints(self)
        by_place(self)
        by_seven_bits(self)
        by_elsewhere(self)
        by_zeros_around(self)
        by_most(self)
        by_frames_alone(self)
        by_preamble(self)

    def by_values(self) -> None:
        """Drops what the VR of a value forbids, where it was not looked at on the way."""
        for element in self.leaves:
            if element.vr not in TEXTS or self.open_runs(element.value, element.end) and self.structure.is_open(element):
                continue
            if NOT_IN_TEXT.search(self.agreed(element).rstrip(b"\0")):  # its writer puts there what the VR forbids
                continue
            for number in self.open_runs(element.value, element.end):
                run = self.runs.runs[number]
                parts = {way: run.part(way, element.value, element.end) for way in self.left[number]}
                own = [number for number, copy in enumerate(self.copies) if is_written(element.vr, element.bytes_of(copy.data))]
                allowed = {way for way, part in parts.items() if not NOT_IN_TEXT.search(part.rstrip(b"\0"))}
                allowed.update(way for way in parts if set(own) & set(run.holders[way]))
                self.keep(number, allowed, "its VR forbids others")

    def agreed(self, element: Element) -> bytes:
        """What all copies have in a value."""
        parts, begin = [], element.value
        for number in self.runs.touching(element.value, element.end):
            parts.append(self.runs.data[begin : self.runs.runs[number].begin])
            begin = self.runs.runs[number].end
        return b"".join([*parts, self.runs.data[begin : element.end]])

    def alike(self, number: int, way: int) -> list[int]:
        """The ways of a run that have the same bytes outside of frames as one: only these are the header's."""
        run, parts = self.runs.runs[number], self.parts[number]
        if self.is_outside(number):
            return [way]
        return [other for other in range(len(run.ways)) if all(run.part(other, *part) == run.part(way, *part) for part in parts)]

    def is_outside(self, number: int) -> bool:
        """Whether all of a run is outside of frames."""
        return self.parts[number] == [(self.runs.runs[number].begin, self.runs.runs[number].end)]

    def holders_of(self, number: int, way: int) -> set[int]:
        """The copies that have what a way has outside of frames."""
        return {copy for other in self.alike(number, way) for copy in self.runs.runs[number].holders[other]}

    def holders(self, number: int) -> set[int]:
        return self.holders_of(number, self.left[number][0])

    def by_copy(self, copy: int) -> None:
        """Takes what one copy has wherever it is open."""
        for number in self.open_runs():
            holders = self.runs.runs[number].holders
            self.keep(number, {way for way in self.left[number] if copy in holders[way]}, "--header names this copy")
        for place in self.alone:
            if not self.copies[copy].lacks(place.offset, place.offset + place.length):
                self.take_alone(place, copy, "--header names this copy")

    def take_alone(self, place: Place, copy: int, why: str) -> None:
        path = self.copies[copy].path
        place.taken, place.why = next(at for at, (names, _) in enumerate(place.values) if path in names), why

    def find_alone(self, strangers: Sequence[Stranger]) -> None:
        """Finds what one copy alone has. `strangers` are copies that were left out."""
        self.alone = places_alone(self, strangers)

    # What came out ---------------------------------------------------------------------

    @property
    def is_open(self) -> bool:
        return bool(self.open_runs()) or any(not place.is_decided for place in self.alone)

    @property
    def is_guessed(self) -> bool:
        """Whether bytes outside of the elements were taken for which nothing speaks."""
        guessed = any(self.why[number] in GUESSES for number in self.parts)
        return guessed or any(first < PREAMBLE for first, _ in held_by_one(self.copies))

    def short(self, tag: int) -> Optional[int]:
        """The value of an element of VR US, if it is decided."""
        value = self.value(tag)
        return int.from_bytes(value, "little") if value is not None and len(value) == 2 else None

    def value(self, tag: int) -> Optional[bytes]:
        element = self.elements.get(tag)
        return None if element is None or element.length == UNDEFINED else self.value_of(element)

    def value_of(self, element: Element) -> Optional[bytes]:
        """The value of an element, if it is decided."""
        is_open = self.open_runs(element.value, element.end)
        return None if is_open else self.runs.bytes_with(element.value, element.end, self.chosen())

    def is_touched(self, element: Element) -> bool:
        """Whether copies differ in the value of an element."""
        return any(number in self.left for number in self.runs.touching(element.value, element.end))

    def differs(self, tag: int) -> bool:
        return tag in self.elements and self.is_touched(self.elements[tag])

    def text(self, tag: int) -> Optional[str]:
        value = self.value(tag)
        return None if value is None else text_of(value).strip()

    def element_at(self, place: int) -> Optional[Element]:
        """The innermost element whose header or value has this place."""
        found = None
        for step in self.structure.steps:
            element = step.element
            if element is None or step.kind == "jump" or element.start > place:
                continue
            if step.kind in ("leaf", "fragment") and element.length != UNDEFINED and place >= element.end:
                continue
            found = element
        return found

    def name_at(self, place: int) -> str:
        if place < PREAMBLE:
            return "preamble"
        if place < FIRST:
            return "DICM"
        element = self.element_at(place)
        if element is None:
            return "nothing that reads"
        return tag_name(element.tag)

    def places(self) -> list[Place]:
        """A Place for each run, in order, next to each other of one element and one decision together."""
        found = []
        for number in sorted(self.parts):
            run, left = self.runs.runs[number], self.left[number]
            values = [([self.copies[copy].path for copy in run.holders[way]], run.ways[way]) for way in range(len(run.ways))]
            taken, why = (left[0], self.why[number]) if len(left) == 1 else (None, "")
            found.append(Place(run.begin, run.end - run.begin, self.name_at(run.begin), values, taken, why))
        return sorted(found + self.tables + self.alone, key=lambda place: place.offset)

    def merged(self) -> bytearray:
        """The file on the axis, with what was decided; frames as the first copy has them."""
        data = bytearray(self.copies[0].data)
        for number, way in self.chosen().items():
            run = self.runs.runs[number]
            for begin, end in self.parts[number]:
                data[begin:end] = run.part(way, begin, end)
        for place in self.tables:
            if place.taken is not None:
                data[place.offset : place.offset + place.length] = place.values[place.taken][1]
        return data
