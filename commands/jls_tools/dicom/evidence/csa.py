"""What a Siemens CSA header can be, as MR files have it in (0029,1010) and (0029,1020): a chain of tags and items that reaches its end.

The layout is as NiBabel and GDCM read it ("SV10"). Each tag has a name, a VR and a count of items; each item says its length three times,
and is a text with zeros after it. So bytes that were overwritten are seen, but in what stands after the end of a name. A long text has only
ASCII, but for names in it: they have few other letters, or are in UTF-8.
"""
from __future__ import annotations

import re
import struct
from collections.abc import Mapping, Sequence
from typing import TYPE_CHECKING, Optional

from jls_tools.dicom.axis.media import SECTOR, SECTORS
from jls_tools.dicom.read.elements import LONG_VRS, SHORT_VRS, Element
from jls_tools.dicom.read.values import NOT_IN_TEXT

if TYPE_CHECKING:
    from jls_tools.dicom.evidence.header import Header

BEGIN = b"SV10\4\3\2\1"
CHECKS = (77, 205)
MOST_TAGS, MOST_ITEMS = 1024, 1 << 16
TAG, ITEM = struct.Struct("<64sI4sIII"), struct.Struct("<4I")
NAME = re.compile(rb"[A-Za-z][\x20-\x7e]*\0")
VRS = LONG_VRS | SHORT_VRS
# Open places nearer than that are first taken together, but not across borders of sectors of this size, where there is one
TOGETHER = ((128, None), *((128, sector) for sector in SECTORS), (16, SECTOR), (0, SECTOR))
MOST_GROUPS = 8
ASCII, BESIDE = re.compile(rb"[\t\n\r\x20-\x7e]*\Z"), 512  # so many bytes of ASCII stand before and after a place in a long text
TEXT = bytes([9, 10, 13, *range(0x20, 0x7F)])
SHARE = 8  # one byte in so many of damage in it, at least, is none of ASCII


def is_chain(value: bytes) -> bool:
    """Whether a value is a CSA header from its first byte to its last."""
    if value[:8] != BEGIN or len(value) < 16:
        return False
    count, check = struct.unpack_from("<II", value, 8)
    if check != CHECKS[0] or not 0 < count <= MOST_TAGS:
        return False
    at: Optional[int] = 16
    for _ in range(count):
        at = behind_tag(value, at) if at is not None else None
    return at is not None and not value[at:].strip(b"\0")


def behind_tag(value: bytes, at: int) -> Optional[int]:
    """Where the tag that begins here ends, with its items; None if none can be here."""
    if at + TAG.size > len(value):
        return None
    name, count, vr, _, items, check = TAG.unpack_from(value, at)
    if not NAME.match(name) or vr[:2] not in VRS or vr[2:] != b"\0\0" or check not in CHECKS:
        return None
    if items > MOST_ITEMS or count > MOST_ITEMS:
        return None
    end: Optional[int] = at + TAG.size
    for _ in range(items):
        end = behind_item(value, end) if end is not None else None
        if end is None:
            return None
    return end


def behind_item(value: bytes, at: int) -> Optional[int]:
    if at + ITEM.size > len(value):
        return None
    first, second, check, third = ITEM.unpack_from(value, at)
    begin = at + ITEM.size
    end: int = begin + second
    behind = end + -second % 4
    if not first == second == third or check not in CHECKS or behind > len(value):
        return None
    text = value[begin:behind].rstrip(b"\0")
    return None if NOT_IN_TEXT.search(text) else behind


def is_no_text(part: bytes) -> bool:
    """Whether many of some bytes are no ASCII, and they are no UTF-8."""
    others = len(part.translate(None, TEXT))
    try:
        part.decode("utf-8")
    except UnicodeDecodeError:
        return others * SHARE >= len(part)
    return False


class Chains:
    """Takes from a Header what makes a CSA header reach its end."""

    def __init__(self, header: Header) -> None:
        self.header = header

    def decide(self) -> None:
        for leaf in self.header.leaves:
            numbers = self.header.open_runs(leaf.value, leaf.end)
            if numbers and any(leaf.bytes_of(copy.data)[:8] == BEGIN for copy in self.header.copies):
                self.decide_one(leaf, numbers)
                for number in self.header.open_runs(leaf.value, leaf.end):
                    self.decide_letters(leaf, number)

    def decide_one(self, leaf: Element, numbers: Sequence[int]) -> None:
        """Leaves of each place what some true chain has there, if it is no true chain with another way of this place alone."""
        tried = (self.chains(leaf, self.groups(numbers, *how)) for how in TOGETHER)
        chains: list[dict[int, int]] = next(filter(None, tried), [])
        left: dict[int, set[int]] = {}
        for chosen in chains:
            for number in numbers:
                for way in self.header.left[number]:
                    if self.is_chain(leaf, {**chosen, number: way}):
                        left.setdefault(number, set()).add(way)
        for number, ways in left.items():
            self.header.keep(number, ways, "its tags and items go on so")

    def decide_letters(self, leaf: Element, number: int) -> None:
        """Leaves the ways of ASCII of a place in a long text, if the others are neither mostly ASCII nor UTF-8."""
        header, run = self.header, self.header.runs.runs[number]
        first, last = max(leaf.value, run.begin - BESIDE), min(leaf.end, run.end + BESIDE)
        chosen = header.chosen()
        before, behind = (header.runs.bytes_with(*part, chosen) for part in ((first, run.begin), (run.end, last)))
        ways = {way: run.part(way, leaf.value, leaf.end) for way in header.left[number]}
        letters = {way for way, part in ways.items() if ASCII.match(part)}
        are_long = len(before) == len(behind) == BESIDE and bool(ASCII.match(before + behind))
        if are_long and all(is_no_text(part) for way, part in ways.items() if way not in letters):
            header.keep(number, letters, "its tags and items go on so")

    def is_chain(self, leaf: Element, chosen: Mapping[int, int]) -> bool:
        return is_chain(self.header.runs.bytes_with(leaf.value, leaf.end, {**self.header.chosen(), **chosen}))

    def chains(self, leaf: Element, groups: Sequence[Sequence[int]]) -> list[dict[int, int]]:
        """The true chains in which the places of each group are of one copy, as {run: way} of these runs."""
        found: list[dict[int, int]] = [{}]
        if len(groups) > MOST_GROUPS:
            return []
        for group in groups:
            found = [{**chosen, **ways} for chosen in found for ways in self.ways_of(group)]
        return [chosen for chosen in found if self.is_chain(leaf, chosen)]

    def groups(self, numbers: Sequence[int], gap: int, sector: Optional[int]) -> list[list[int]]:
        """The numbers of runs that are nearer to each other than a gap, and in one sector."""
        runs = self.header.runs.runs
        found: list[list[int]] = []
        for number in numbers:
            last = runs[found[-1][-1]] if found else None
            is_across = last is not None and sector is not None and last.begin // sector != runs[number].begin // sector
            if last is not None and not is_across and runs[number].begin - last.end < gap:
                found[-1].append(number)
            else:
                found.append([number])
        return found

    def ways_of(self, group: Sequence[int]) -> list[dict[int, int]]:
        """What each copy has in these runs, as far as it is left."""
        header = self.header
        found: list[dict[int, int]] = []
        for copy in range(len(header.copies)):
            ways: dict[int, int] = {}
            for number in group:
                holders = header.runs.runs[number].holders
                ways.update({number: way for way in header.left[number] if copy in holders[way]})
            if len(ways) == len(group) and ways not in found:
                found.append(ways)
        return found
