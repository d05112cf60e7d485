"""What stands where in a file of which there are several copies: its structure, its frames, and its header as far as it is decided."""
from __future__ import annotations

import itertools
from collections import Counter
from collections.abc import Iterator, Sequence
from operator import ne
from typing import Optional

from jls_tools.dicom.axis import exchanged, in_filler, inserted
from jls_tools.dicom.axis.align import Copy, by_chains, on_one_axis
from jls_tools.dicom.axis.apart import differing, size_of
from jls_tools.dicom.axis.bad_places import Range, clipped, outside
from jls_tools.dicom.axis.inserted import SMALLEST_ELEMENT
from jls_tools.dicom.axis.media import SECTOR, SHARE
from jls_tools.dicom.axis.pieces import SHIFTED
from jls_tools.dicom.axis.placed import placed
from jls_tools.dicom.axis.runs import FINEST, Runs, cut_at_sectors
from jls_tools.dicom.axis.stuck import unstuck
from jls_tools.dicom.evidence.csa import is_chain
from jls_tools.dicom.evidence.header import Header
from jls_tools.dicom.evidence.most import agreed
from jls_tools.dicom.evidence.tables import Table
from jls_tools.dicom.read.elements import UNDEFINED, Element
from jls_tools.dicom.read.tags import EXTENDED_LENGTHS, EXTENDED_TABLE, FRAMES
from jls_tools.dicom.walk.frames import Fragments, FramePlace
from jls_tools.dicom.walk.structure import Structure
from jls_tools.dicom.walk.ways import Walk
from jls_tools.dicom.write.build import expected_tables
from jls_tools.frames.codestream import Shape

FAR_MORE = 8  # one in so many places still differs, at most, where copies that read in place are taken to have lost bytes


class Layout:
    """The structure that the copies have together, and the places of the frames."""

    def __init__(self, copies: Sequence[Copy]) -> None:
        self.copies = copies
        self.put_in: list[tuple[str, int, int]] = []  # (a copy, where in it, how many) of bytes that are no part of the file
        ranges = differing([copy.data for copy in copies])
        self.exchanged = exchanged.of_one_copy(copies, ranges)
        self.ranges = sorted([*outside(ranges, self.exchanged), *self.exchanged])
        self.agreed = agreed(copies, self.ranges)
        self.runs, self.structure = self.find()
        self.has_header = self.structure.is_found and self.structure.pixel_data is not None
        self.fragments = Fragments(self.structure, copies) if self.has_header else None
        self.places: list[FramePlace] = self.fragments.frames(self.frame_count()) if self.fragments else []

    def find(self) -> tuple[Runs, Structure]:
        """The way that reaches the end with the least strangeness; with finer runs where coarse ones are strange or lead nowhere."""
        best: Optional[tuple[Runs, Structure]] = None
        apart = sum(end - begin for begin, end in self.ranges)
        for fineness in (0, 1, 2):
            if fineness == 2 and apart > FINEST:
                break
            runs = Runs(self.copies, fineness, self.ranges, self.agreed, self.exchanged)
            structure = Structure(Walk(runs, [copy.data for copy in self.copies]))
            if best is None or structure.is_found and (not best[1].is_found or rank(structure) < rank(best[1])):
                best = runs, structure
            if fineness == 0 and rank(structure) == (False, False, False, 0) or fineness == 1 and is_through(best[1]):
                break
        assert best is not None
        return best

    def frame_count(self) -> Optional[int]:
        """Number of Frames, as far as any copy has a number there that can be true; None if copies have several, or lost it."""
        element = next((element for element in self.structure.elements if element.tag == FRAMES), None)
        if element is None:
            return None if self.structure.can_hide(FRAMES) else 1
        found = set()
        for copy in self.copies:
            text = element.bytes_of(copy.data).strip(b" \0")
            if text.isdigit() and not copy.lacks(element.value, element.end):
                found.add(int(text))
        return found.pop() if len(found) == 1 else None

    @property
    def breaks(self) -> list[tuple[int, int]]:
        return self.structure.jumps if self.structure.is_found else []

    @property
    def is_exact(self) -> bool:
        """Whether each header reads, so that frames can be put where they were."""
        return not self.breaks and not self.structure.is_cut and all(place.is_exact for place in self.places)

    def is_in_item(self, place: int) -> bool:
        """Whether a place stands within an item of Pixel Data: a fragment of a frame, or the offset table."""
        table = None if self.fragments is None else self.fragments.table
        return self.is_in_frame(place) or table is not None and table.value < place < table.end

    def is_in_frame(self, place: int) -> bool:
        """Whether a place stands within a fragment of a frame."""
        return any(begin < place < end for each in self.places for begin, end in each.fragments)

    def is_in_length(self, place: int, size: int) -> bool:
        """Whether a place stands within a sequence, or an item of one, that says how long it is: no element was lost in it.

        It can have taken one in that stands after it, if the header of that is damaged in each copy.
        """
        steps = (step.element for step in self.structure.steps if step.kind in ("open", "item") and step.element)
        holders = [each for each in steps if each.length != UNDEFINED and each.value < place < each.end]
        return bool(holders) and not any(self.can_begin_at(each.end - size) for each in holders)

    def is_held_alike(self, place: int) -> bool:
        """Whether all copies have the same headers of the elements and items that hold a place.

        Of the item of a frame one header is enough where the other copies lost it: the frame, which has to read, confirms how long it is.
        """
        least = 1 if self.is_in_frame(place) else 2
        for step in self.structure.steps:
            element = step.element
            if element is None or element.length == UNDEFINED or not element.start <= place <= element.end:
                continue
            if not self.is_alike(element.start, element.value, least):
                return False
        return True

    def is_alike(self, begin: int, end: int, least: int = 2) -> bool:
        """Whether all copies have the same bytes in a range, but for those that lost them or their sector, where enough others don't."""
        return all(self.is_part_alike(*part, least) for part in cut_at_sectors(begin, end))

    def is_part_alike(self, begin: int, end: int, least: int) -> bool:
        there = [copy for copy in self.copies if not clipped(copy.seen, begin, end) and not copy.lacks(begin, end)]
        well = [copy for copy in there if not is_another_sector(copy, there, begin // SECTOR * SECTOR)]
        own = well if len(well) >= least else self.copies
        return len({copy.data[begin:end] for copy in own}) == 1 and not any(copy.lacks(begin, end) for copy in own)

    def goes_on(self, place: int, size: int) -> bool:
        """Whether the value that holds a place goes on for so many bytes after it: then no element begins there that copies lost."""
        return any(leaf.value < place <= leaf.end - size for leaf in self.leaves())

    def leaves(self) -> Iterator[Element]:
        """The elements that are no sequences."""
        return (step.element for step in self.structure.steps if step.kind == "leaf" and step.element)

    def can_hide_element(self, place: int, sizes: dict[int, int]) -> bool:
        """Whether the value that holds a place can end with an element whose header is damaged in each copy.

        It has taken that in if other copies lost as many bytes of it. `sizes` are those that were cut out, by place. Damage that is the
        same in all copies is of one value.
        """
        for element in self.leaves():
            if element.value <= place <= element.end:
                own = [size for at, size in sizes.items() if element.value <= at <= element.end]
                sums = {sum(part) for count in range(1, len(own) + 1) for part in itertools.combinations(own, count)}
                return any(self.can_begin_at(element.end - size) for size in sums if SMALLEST_ELEMENT <= size <= element.length)
        return False

    def can_begin_at(self, place: int) -> bool:
        """Whether the header of an element can be damaged at a place in each copy."""
        head = self.copies[0].data[place : place + SMALLEST_ELEMENT]
        return not self.is_alike(place, place + SMALLEST_ELEMENT) or len(set(head)) == 1

    def header(self, shape: Optional[Shape], count: int) -> Header:
        """The Header, decided as far as the file can say."""
        ranges = [fragment for place in self.places for fragment in place.fragments]
        header = Header(self.copies, self.runs, self.structure, ranges)
        table: Table = {}
        if self.places and self.fragments:
            basic, extended, sizes = expected_tables(self.places, self.fragments.first)
            table = {EXTENDED_TABLE: (0, extended), EXTENDED_LENGTHS: (0, sizes)}
            if self.fragments.table and self.fragments.table.length == len(basic):
                table[None] = (self.fragments.table.value, basic)
        header.decide(shape, count, table)
        return header


def is_another_sector(copy: Copy, copies: Sequence[Copy], begin: int) -> bool:
    """Whether nearly all bytes of a copy differ in a sector from those of two other copies, which are equal."""
    own, end = copy.data[begin : begin + SECTOR], begin + SECTOR
    others = Counter(other.data[begin:end] for other in copies if other is not copy and not other.lacks(begin, end))
    models = (model for model, count in others.items() if count > 1)
    return not copy.lacks(begin, end) and any(sum(map(ne, own, model)) >= SHARE * len(own) for model in models)


def is_through(structure: Structure) -> bool:
    return structure.is_found and not structure.jumps and not structure.is_cut


def is_in_order(structure: Structure) -> bool:
    return is_through(structure) and not structure.descends


def rank(structure: Structure) -> tuple[bool, bool, bool, int]:
    """What is worse comes later: not found, jumps, an end before the last element's, cost."""
    return (not structure.is_found, bool(structure.jumps), structure.is_cut, structure.cost or 0)


def laid_out(copies: Sequence[Copy], named: Optional[str] = None) -> tuple[list[Copy], Layout]:
    """The copies on one axis, and their Layout. Where it breaks, one copy can have bytes that are no part of the file.

    Or they are laid by runs that they share, if elements and items go on then. A copy that is `named` for its header keeps its bits.
    """
    found, layout, shifted = on_best_axis(copies, named)
    if is_in_order(layout.structure):
        return found, layout
    ways = [found] if are_laid_alike(shifted, found) else [found, shifted]
    for way in ways:
        other = without_inserted(way, named)
        if other is not None:
            return other
    return by_runs(copies, named, ways) or (found, layout)


def by_runs(copies: Sequence[Copy], named: Optional[str], others: Sequence[Sequence[Copy]]) -> Optional[tuple[list[Copy], Layout]]:
    """The copies on the axis of the runs that they share, and their Layout, if it is in order and this axis is none of the others."""
    if len(copies) < 2:
        return None
    found = unstuck(placed(by_chains(copies)), named)
    if any(are_laid_alike(found, other) for other in others):
        return None
    layout = Layout(found)
    return (found, layout) if is_in_order(layout.structure) else without_inserted(found, named)


def are_laid_alike(copies: Sequence[Copy], others: Sequence[Copy]) -> bool:
    """Whether copies lack the same ranges on two axes."""
    return [copy.absent for copy in copies] == [copy.absent for copy in others]


def without_inserted(copies: Sequence[Copy], named: Optional[str]) -> Optional[tuple[list[Copy], Layout]]:
    """The copies without what was put into one of them, and their Layout, if one way to cut out so few ranges makes elements go on."""
    ranges = inserted.held_alone(copies)
    if not 0 < len(ranges) <= inserted.MOST_INSERTED or any(copy.foreign or copy.recoded for copy in copies):
        return None
    found: list[tuple[list[Copy], Layout]] = []
    steps = 0
    for parts in inserted.combinations(copies, ranges):
        if found and len(found[0][1].put_in) < len(parts) or steps > inserted.MOST_STEPS:
            break
        rest = unstuck(inserted.without(copies, parts), named)
        walk = Walk(Runs(rest, 1), [copy.data for copy in rest])
        goes_on = walk.goes_on()
        steps += walk.looks + len(walk.steps)
        if goes_on and is_in_order((layout := Layout(rest)).structure):
            if not all(is_put_in(copies, layout, part, parts) for part in parts):
                return None
            layout.put_in = [told_of(copies, part) for part in parts]
            found.append((rest, layout))
    return found[0] if len(found) == 1 and steps <= inserted.MOST_STEPS else None


def is_put_in(copies: Sequence[Copy], layout: Layout, part: Range, parts: Sequence[Range]) -> bool:
    """Whether a range was put in that is cut out with others in a Layout."""
    place = inserted.place_without(part[0], parts)
    if not layout.is_held_alike(place):
        return False
    sizes: dict[int, int] = {}
    for begin, end in parts:
        at = inserted.place_without(begin, parts)
        sizes[at] = sizes.get(at, 0) + end - begin
    if layout.is_in_item(place) or layout.is_in_length(place, part[1] - part[0]):
        return True
    is_no_element = inserted.is_no_element(copies, part) or layout.goes_on(place, part[1] - part[0])
    is_lacked_twice = sum(part in copy.absent for copy in copies) > 1  # no two copies lost the same bytes of which the other has damage
    is_hidden = layout.can_hide_element(place, sizes) and not is_out_of_chain(copies, layout, part, parts)
    return inserted.is_clear(copies, part) and (is_lacked_twice or is_no_element and not is_hidden)


def is_out_of_chain(copies: Sequence[Copy], layout: Layout, part: Range, parts: Sequence[Range]) -> bool:
    """Whether the value that holds a range is a CSA header without it, and none with it: its items say how long each is."""
    place = inserted.place_without(part[0], parts)
    value = next((slice(leaf.value, leaf.end) for leaf in layout.leaves() if leaf.value < place < leaf.end), slice(0))
    others = [each for each in parts if each != part]
    ways = ([inserted.cut_out(copy.data, ranges)[value] for ranges in (parts, others)] for copy in copies)
    return any(is_chain(without) and not is_chain(beside) for without, beside in ways)


def told_of(copies: Sequence[Copy], part: Range) -> tuple[str, int, int]:
    owner = inserted.owner_of(copies, part)
    return owner.path, inserted.place_in(owner, part[0]), part[1] - part[0]


def side_by_side(copies: Sequence[Copy], named: Optional[str], are_shifted: bool) -> list[Copy]:
    """The copies on one axis, without bad places and bits that are stuck."""
    return unstuck(placed(in_filler.with_others(on_one_axis(copies, are_shifted))), named)


def on_best_axis(copies: Sequence[Copy], named: Optional[str]) -> tuple[list[Copy], Layout, list[Copy]]:
    """The copies on one axis, their Layout, and the copies on the other axis.

    Where the Layout breaks, or far fewer bytes differ then, they lost bytes at different places.
    """
    found = shifted = side_by_side(copies, named, False)
    layout = Layout(found)
    apart = size_of(layout.ranges)
    if not is_through(layout.structure) or apart >= SHIFTED:
        shifted = side_by_side(copies, named, True)
        if is_through(layout.structure) and size_of(differing([copy.data for copy in shifted])) * FAR_MORE > apart:
            return found, layout, shifted
        if [copy.absent for copy in shifted] != [copy.absent for copy in found]:
            other = Layout(shifted)
            if is_through(other.structure):
                return shifted, other, shifted
    return found, layout, shifted
