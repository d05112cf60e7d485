"""Where the frames of Pixel Data stand (PS3.5, A.4): fragments of a frame together, paired by place. A search comes last."""
from __future__ import annotations

import bisect
from collections.abc import Iterable, Sequence
from dataclasses import dataclass
from typing import TYPE_CHECKING, NamedTuple, Optional

from jls_tools.dicom.axis.align import Copy
from jls_tools.dicom.read.elements import DELIMITER, ITEM_TAG, UNDEFINED
from jls_tools.dicom.read.tags import EXTENDED_TABLE
from jls_tools.frames.codestream import BEGIN

if TYPE_CHECKING:
    from jls_tools.dicom.walk.structure import Structure

Fragment = tuple[int, int, int, bool]  # where its header begins, where its value begins, where it ends, whether the header reads


@dataclass
class FramePlace:
    """A frame: its fragments as (begin, end) on the axis; `is_exact` where each of their headers reads."""

    number: int
    fragments: list[tuple[int, int]]
    is_exact: bool = True

    @property
    def begin(self) -> int:
        return self.fragments[0][0]

    @property
    def end(self) -> int:
        return self.fragments[-1][1]

    @property
    def size(self) -> int:
        return sum(end - begin for begin, end in self.fragments)

    def stream(self, data: bytes) -> bytes:
        return b"".join(data[begin:end] for begin, end in self.fragments)


def table_of(data: bytes, begin: int, end: int, size: int) -> list[int]:
    """The entries of an offset table. A length that lies does not lead beyond the file."""
    end = min(end, len(data))
    return [int.from_bytes(data[at : at + size], "little") for at in range(begin, end - size + 1, size)]


class Fragments:
    """The fragments that a Structure has, and what the offset tables of the copies say."""

    def __init__(self, structure: Structure, copies: Sequence[Copy]) -> None:
        self.copies = copies
        items = structure.items_of_pixels()
        total = structure.walk.total
        self.table = items[0] if items and not isinstance(items[0], tuple) else None
        rest = items[1:] if self.table else items
        # (where its header begins, where its value begins, where it ends, whether the header reads)
        self.found = [
            (item[0], min(item[0] + 8, item[1]), item[1], False)
            if isinstance(item, tuple)
            else (item.start, item.value, min(item.end, total), item.end <= total)
            for item in rest
        ]
        if self.table:
            self.first = self.table.end
        else:
            self.first = self.found[0][0] if self.found else total
        self.extended = next((element for element in structure.elements if element.tag == EXTENDED_TABLE), None)
        self.places = self.table_places()
        self.split_unread()

    def table_places(self) -> set[int]:
        """Offsets of items of frames that an offset table has, in some copy, and that can be true."""
        found: set[int] = set()
        for copy in self.copies:
            entries = table_of(copy.data, self.table.value, self.table.end, 4) if self.table else []
            if self.extended and self.extended.length != UNDEFINED:
                entries += table_of(copy.data, self.extended.value, self.extended.end, 8)
            found.update(self.first + entry for entry in entries)
        return found

    def split_unread(self) -> None:
        """Cuts what stands between two items that read at the places that the tables have."""
        parts = []
        places = sorted(self.places)
        for start, value, end, is_read in self.found:
            borders = [start, *places[bisect.bisect_right(places, start) : bisect.bisect_left(places, end)], end]
            if is_read or len(borders) == 2:
                parts.append((start, value, end, is_read))
                continue
            parts += [(begin, min(begin + 8, until), until, False) for begin, until in zip(borders, borders[1:])]
        self.found = parts

    def begins_frame(self, fragment: Fragment) -> bool:
        start, value, end, _ = fragment
        return start in self.places or any(BEGIN.match(copy.data, value, end) for copy in self.copies)

    def frames(self, count: Optional[int]) -> list[FramePlace]:
        """FramePlaces, if the header says so many frames (None: it does not read)."""
        groups: list[list[Fragment]] = []
        if count == 1:
            groups = [self.found] if self.found else []
        elif count == len(self.found):
            groups = [[fragment] for fragment in self.found]
        else:
            for fragment in self.found:
                if not groups or self.begins_frame(fragment):
                    groups.append([])
                groups[-1].append(fragment)
        return [
            FramePlace(number, [(value, end) for _, value, end, _ in group], all(fragment[3] for fragment in group))
            for number, group in enumerate(groups)
        ]


def by_search(data: bytes) -> list[tuple[int, int]]:
    """Streams of one copy that are found by their first bytes: (begin, end)."""
    places = [found.start() for found in BEGIN.finditer(data)]
    found = []
    for begin, behind in zip(places, places[1:] + [None]):
        end = len(data) if behind is None else behind - 8 if data[behind - 8 : behind - 4] == ITEM_TAG else behind
        delimiter = data.find(DELIMITER, begin, end)
        found.append((begin, delimiter if delimiter >= 0 else max(begin, end)))
    return found


def pieces_of(stream: bytes, size: int = 32) -> set[bytes]:
    """What a stream can be known by: its pieces at whole steps."""
    return {stream[at : at + size] for at in range(64, len(stream) - size, size)}


class Searched(NamedTuple):
    """A stream that a search found in a copy."""

    stream: bytes
    copy: int
    begin: int
    end: int


def are_alike(mine: set[bytes], others: set[bytes]) -> bool:
    count = len(mine & others)
    return count > 0 and count * 4 >= min(len(mine), len(others))


class Group:
    """Streams of several copies that are of one frame, and their pieces."""

    def __init__(self) -> None:
        self.pieces: set[bytes] = set()
        self.found: list[Searched] = []
        self.last: set[bytes] = set()  # the pieces of the last copy's streams

    def has_copy(self, copy: int) -> bool:
        return bool(self.found) and self.found[-1].copy == copy

    def likeness(self, found: Searched, mine: set[bytes]) -> int:
        """How many pieces of a stream the frame has; none if one of the same copy has them too: that is of another frame."""
        return 0 if self.has_copy(found.copy) and are_alike(mine, self.last) else len(mine & self.pieces)

    def add(self, found: Searched, mine: set[bytes]) -> None:
        self.last = self.last | mine if self.has_copy(found.copy) else mine
        self.pieces |= mine
        self.found.append(found)


def paired_by_bytes(searched: Iterable[Searched]) -> list[list[Searched]]:
    """Streams of one copy after the other, together where they have pieces in common. Those of one copy that do are of several frames."""
    groups: list[Group] = []
    for found in searched:
        mine = pieces_of(found.stream)
        group = max(groups, key=lambda each: each.likeness(found, mine), default=None)
        if group is None or not (group.likeness(found, mine) and are_alike(mine, group.pieces)):
            group = Group()
            groups.append(group)
        group.add(found, mine)
    return [group.found for group in groups]
