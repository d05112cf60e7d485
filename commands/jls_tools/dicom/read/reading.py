"""Reads one file anew, by one walk that forgives nothing."""
from __future__ import annotations

import struct
from dataclasses import dataclass, field
from typing import Optional

from jls_tools.dicom.read.elements import UNDEFINED, Element, header_of, tag_name
from jls_tools.dicom.read.tags import FIRST, ITEM, ITEM_END, PIXEL_DATA, SEQUENCE_END

DATA_SET, SEQUENCE, OBJECT, PIXELS = "data set", "sequence", "item", "pixels"


@dataclass(frozen=True)
class Fault:
    """What is wrong, and in which ranges of the file that stands. `can_be_writers` is false where no writer has it.

    `is_unlikely` says that seldom one has: then only who names the header, or says that the copies are of one instance, can know it.
    """

    text: str
    ranges: tuple[tuple[int, int], ...]
    can_be_writers: bool = False
    is_unlikely: bool = False


@dataclass
class Level:
    """What elements or items are read in: its kind, where it ends (None: at its delimiter), the tag before, whether VRs are explicit."""

    kind: str
    until: Optional[int]
    last: Optional[Element] = None
    is_explicit: bool = True


@dataclass
class Reading:
    """One file, read from its first element to its last. `end` is where the last one ends, `faults` are those of its form."""

    data: bytes
    top: list[Element] = field(default_factory=list)  # the elements of the top level
    leaves: list[Element] = field(default_factory=list)  # those of any level that have a value and no items
    items: list[Element] = field(default_factory=list)  # of Pixel Data, the offset table first
    faults: list[Fault] = field(default_factory=list)
    end: int = FIRST
    is_broken: bool = False  # whether the reading ended before the last element did

    def __post_init__(self) -> None:
        levels = [Level(DATA_SET, None)]
        at: Optional[int] = FIRST
        while at is not None and not self.is_at_end(levels, at):
            self.end = at
            at = self.step(levels, at)
        self.end = self.end if at is None else at

    def is_at_end(self, levels: list[Level], at: int) -> bool:
        """Leaves levels that end here. Whether the last element has ended."""
        while levels[-1].until == at:
            levels.pop()
        is_done = len(levels) == 1 and header_of(self.data[at : at + 12], at) is None
        return is_done and (at == len(self.data) or self.has_pixels)

    @property
    def has_pixels(self) -> bool:
        return any(element.tag == PIXEL_DATA for element in self.top)

    @property
    def is_whole(self) -> bool:
        """Whether the elements lead to Pixel Data, its items to its end, and what follows it is not cut."""
        return self.has_pixels and not self.is_broken

    def break_off(self, at: int, text: str) -> Optional[int]:
        """Ends the reading: nothing follows."""
        self.faults.append(Fault(text, ((at, len(self.data)),)))
        self.is_broken = True
        return None

    def step(self, levels: list[Level], at: int) -> Optional[int]:
        """Reads the element, item or delimiter that stands here; answers where the next one does, or nothing."""
        level = levels[-1]
        if at + 8 > len(self.data):
            return self.break_off(at, "the file is cut")
        group, number, length = struct.unpack_from("<HHI", self.data, at)
        tag = group << 16 | number
        if group == 0xFFFE:
            return self.step_item(levels, Element(tag, b"", at, at + 8, length))
        if level.kind in (SEQUENCE, PIXELS):
            return self.break_off(at, f"no item begins at {at}")
        element = header_of(self.data[at : at + 12], at) if level.is_explicit else Element(tag, b"UN", at, at + 8, length)
        if element is None:
            return self.break_off(at, f"no element begins at {at}")
        return self.step_element(levels, element)

    def step_item(self, levels: list[Level], item: Element) -> Optional[int]:
        level = levels[-1]
        if item.tag == ITEM and level.kind == PIXELS and item.length != UNDEFINED:
            self.items.append(item)
            return self.behind(levels, item)
        if item.tag == ITEM and level.kind == SEQUENCE:
            until = None if item.length == UNDEFINED else self.behind(levels, item)
            if self.is_broken:
                return None
            levels.append(Level(OBJECT, until, None, level.is_explicit))
            return item.value
        ends = {SEQUENCE_END: (SEQUENCE, PIXELS), ITEM_END: (OBJECT,)}
        if level.kind in ends.get(item.tag, ()) and level.until is None and item.length == 0:
            levels.pop()
            return item.value
        return self.break_off(item.start, f"an item or a delimiter that can't stand at {item.start} does")

    def behind(self, levels: list[Level], element: Element) -> Optional[int]:
        """Where an element or item ends, unless it is cut."""
        until = next((level.until for level in reversed(levels) if level.until is not None), len(self.data))
        if element.end > until:
            return self.break_off(element.start, f"{tag_name(element.tag)} at {element.start} is cut")
        return element.end

    def step_element(self, levels: list[Level], element: Element) -> Optional[int]:
        level = levels[-1]
        if level.last is not None and element.tag <= level.last.tag:
            heads = ((level.last.start, level.last.value), (element.start, element.value))
            self.faults.append(Fault(f"{tag_name(element.tag)} at {element.start} follows {tag_name(level.last.tag)}", heads, True))
        level.last = element
        is_top = len(levels) == 1
        if is_top:
            self.top.append(element)
        if element.length != UNDEFINED and element.vr != b"SQ":
            self.leaves.append(element)
            return self.behind(levels, element)
        until = None if element.length == UNDEFINED else self.behind(levels, element)
        if self.is_broken:
            return None
        if element.length == UNDEFINED and element.vr not in (b"SQ", b"UN") and not (is_top and element.tag == PIXEL_DATA):
            return self.break_off(element.start, f"{tag_name(element.tag)} at {element.start} has no length")
        kind = PIXELS if is_top and element.tag == PIXEL_DATA else SEQUENCE
        levels.append(Level(kind, until, None, level.is_explicit and element.vr != b"UN"))
        return element.value

    def element(self, tag: int) -> Optional[Element]:
        return next((element for element in self.top if element.tag == tag), None)

    def value(self, tag: int) -> Optional[bytes]:
        element = self.element(tag)
        return None if element is None else element.bytes_of(self.data)
