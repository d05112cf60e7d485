"""Sectors of Pixel Data that a copy lost: there it has no header of an item where the other copies have one, and nothing in common.

A codestream looks like noise, so nothing else in it shows which of two copies was damaged. Such a sector is taken from another copy
before frames are mended: else a damaged frame that can be decoded would dispute the true one.
"""
from __future__ import annotations

import itertools
from collections import Counter
from collections.abc import Iterator, Mapping, Sequence
from typing import TYPE_CHECKING, Optional

from jls_tools.dicom.axis.align import Copy
from jls_tools.dicom.axis.apart import differing
from jls_tools.dicom.axis.media import SECTORS, SHARE
from jls_tools.dicom.axis.seven_bits import sent_in
from jls_tools.dicom.read.elements import ITEM_TAG
from jls_tools.dicom.walk.frames import FramePlace
from jls_tools.dicom.walk.structure import Structure
from jls_tools.dicom.walk.ways import PIXELS, Step
from jls_tools.frames.codestream import fills
from jls_tools.frames.likeness import shares_little

if TYPE_CHECKING:
    from jls_tools.dicom.layout import Layout

HEAD = 8  # bytes of the header of an item
LONG = 32  # so many bytes of code that all lack the highest bit, at least, are so by no chance


def headers_of_items(structure: Structure) -> list[int]:
    """Where the headers of items of Pixel Data stand, and its end."""
    return [step.element.start for step in structure.steps if step.element and step.kind in ("fragment", "end") and is_of_pixels(step)]


def is_of_pixels(step: Step) -> bool:
    return bool(step.before[1][-1][0] == PIXELS)


class Lost:
    """The sectors that each copy lost, in a file whose elements and items go on to the end."""

    def __init__(self, copies: Sequence[Copy], layout: Layout) -> None:
        self.copies = copies
        self.total = len(copies[0].data)
        pixels = layout.structure.pixel_data
        self.begin = pixels.value if pixels else self.total
        self.runs, self.ways = layout.runs, layout.structure.ways
        self.denied: list[list[int]] = [[] for _ in copies]  # for each copy the places in headers of items at which it has others
        for place in headers_of_items(layout.structure):
            self.look_at(place)

    def look_at(self, place: int) -> None:
        """Which copies have another header than was decided."""
        for number in self.runs.touching(place, place + 8):
            ways = self.ways.get(number, ())
            if len(ways) != 1:
                continue
            run = self.runs.runs[number]
            true = run.part(next(iter(ways)), place, place + 8)
            for copy, each in enumerate(self.copies):
                begin, end = max(place, run.begin), min(place + 8, run.end)
                if each.data[begin:end] != true and not each.lacks(begin, end):
                    self.denied[copy].append(begin)

    def ranges(self, own: int, other: int) -> Iterator[tuple[int, int]]:
        """The sectors that a copy lost and the other has."""
        if not self.denied[own]:
            return
        for begin, end in self.stretches(own, other):
            size = next(size for size in SECTORS if size == SECTORS[-1] or self.is_border(begin, size) and self.is_border(end, size))
            for at in range(begin, end, size):
                until = min(at + size, end)
                if self.has_denied(own, at, until) and not self.has_denied(other, at, until):
                    yield max(at, self.begin), until

    def is_border(self, place: int, size: int) -> bool:
        return place % size == 0 or place == self.total

    def has_denied(self, copy: int, begin: int, end: int) -> bool:
        return any(begin <= place < end for place in self.denied[copy])

    def stretches(self, own: int, other: int) -> list[list[int]]:
        """The ranges of sectors next to each other in which two copies have nothing in common."""
        size = SECTORS[-1]
        found: list[list[int]] = []
        for begin in range(self.begin // size * size, self.total, size):
            end = min(begin + size, self.total)
            if self.is_lost(self.copies[own], self.copies[other], begin, end):
                if found and found[-1][1] == begin:
                    found[-1][1] = end
                else:
                    found.append([begin, end])
        return found

    def is_lost(self, own: Copy, other: Copy, begin: int, end: int) -> bool:
        if own.lacks(begin, end) or other.lacks(begin, end):
            return False
        if not own.data[begin:end].strip(own.data[begin : begin + 1]) and other.data[begin:end].strip(other.data[begin : begin + 1]):
            return True
        apart = differing([own.data, other.data], begin, end)
        return sum(last - first for first, last in apart) >= SHARE * (end - begin)

    def filled(self) -> list[bytes]:
        """The bytes of each copy, with those of another one in sectors that it lost."""
        found = [bytearray(copy.data) for copy in self.copies]
        for own, other in itertools.permutations(range(len(self.copies)), 2):
            for begin, end in [*self.ranges(own, other), *self.sent(own, other)]:
                found[own][begin:end] = self.copies[other].data[begin:end]
        return [bytes(data) for data in found]

    def sent(self, own: int, other: int) -> Iterator[tuple[int, int]]:
        """What a copy has of Pixel Data that was sent with seven bits, as another one shows, and no third one denies."""
        data, copies = self.copies[own].data, self.copies
        for begin, end in sent_in(data[self.begin :], copies[other].data[self.begin :]):
            first, last = begin + self.begin, end + self.begin
            others = [copy.data[first:last] for at, copy in enumerate(copies) if at != own and not copy.lacks(first, last)]
            is_there = not copies[own].lacks(first, last) and not copies[other].lacks(first, last)
            if is_there and last - first >= LONG and all(data[first:last] != text for text in others):
                yield first, last

    def of_this_file(self, place: FramePlace, own: Mapping[int, bytes]) -> list[bytes]:
        """Of {copy: its stream of a frame} those that differ, without one of another length that has little in common with the others."""
        denied = {copy for copy in own if self.has_denied(copy, place.begin - HEAD, place.begin)}
        sure = [stream for copy, stream in own.items() if copy not in denied]
        kept = [own[copy] for copy in own if copy not in denied or not any(shares_little(stream, own[copy]) for stream in sure)]
        return list(dict.fromkeys(kept))

    def other_frames(self, place: FramePlace) -> list[bytes]:
        """The streams of copies that have an item of their own where a frame stands, and another header of it: no damage makes such."""
        found = []
        for number, copy in enumerate(self.copies):
            own = copy.has_only(place.begin - HEAD, self.total) if self.has_denied(number, place.begin - HEAD, place.begin) else b""
            end = HEAD + int.from_bytes(own[4:HEAD], "little")
            if own[:4] == ITEM_TAG and end <= len(own) and fills(own[HEAD:end]):
                found.append(own[HEAD:end])
        return found


def inner_losses(copy: Copy) -> list[tuple[int, int]]:
    """What a copy lost ahead of its end: a file that is copied can be cut there."""
    return [pair for pair in copy.lost if pair[1] < len(copy.data)]


def most_of(streams: Sequence[bytes]) -> Optional[bytes]:
    """What most of three streams or more have at each place, if all differ: two that are equal can be copies of one damaged file."""
    if len(streams) < 3 or len(set(streams)) < len(streams) or len(set(map(len, streams))) > 1:
        return None
    found = bytearray(streams[0])
    for begin, end in differing(streams):
        for at in range(begin, end):
            value, count = Counter(stream[at] for stream in streams).most_common(1)[0]
            if count * 2 <= len(streams):
                return None
            found[at] = value
    return bytes(found)


def equal_in_most(
    own: Mapping[int, bytes], copies: Sequence[Copy], put_in: Sequence[tuple[str, int, int]], sources: Sequence[int]
) -> Optional[bytes]:
    """The stream of a frame that most copies have, {copy: its stream}; nothing if these can be copies of one damaged file.

    They are none where they differ elsewhere, lost other bytes ahead of their end, or got others: `put_in` has the paths of which these
    were cut out. Of equal files the others have to differ in one place alone: else each can have damage. `sources` says of which file each
    copy is, as far as its damage shows that.
    """
    stream, count = Counter(own.values()).most_common(1)[0] if own else (b"", 0)
    equal = [copies[copy] for copy in own if own[copy] == stream]
    holders = [(copy.data, inner_losses(copy), [part for path, *part in put_in if path == copy.path]) for copy in equal]
    if len({sources[copy] for copy in own if own[copy] == stream}) < 2:
        return None
    if count < 2 or count * 2 <= len(own) or count == len(own):
        return None
    others = [each for each in own.values() if each != stream]
    if any(len(each) != len(stream) for each in others):
        return None
    are_apart = any(other != holders[0] for other in holders[1:])
    return stream if are_apart or all(len(differing([stream, each])) == 1 for each in others) else None
