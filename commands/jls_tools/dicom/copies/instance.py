"""Which copies are of one SOP instance (PS3.3, C.12.1): by their two UIDs, and those that a foreign file has overwritten."""
from __future__ import annotations

import itertools
import re
from collections import Counter
from collections.abc import Iterator, Mapping, Sequence
from dataclasses import dataclass
from typing import Optional

from jls_tools.dicom.axis.align import Copy
from jls_tools.dicom.axis.apart import differing
from jls_tools.dicom.axis.media import BEFORE_BORDER, SECTOR
from jls_tools.dicom.axis.runs import Runs
from jls_tools.dicom.copies.versions import pixels_of
from jls_tools.dicom.evidence.uids import MOST_OF_ONE, are_of_series
from jls_tools.dicom.read.elements import DELIMITER, HEAD, ITEM_TAG, UNDEFINED, instance_of, walk
from jls_tools.dicom.read.tags import FIRST, INSTANCE, PIXEL_DATA
from jls_tools.dicom.walk.structure import Structure
from jls_tools.dicom.walk.ways import Walk
from jls_tools.frames.codings import KINDS, PIECE, PIECES

BLOCK = 128
STRETCH, SHORT, STEP = 256, 64, 16
DENSE = 8  # one byte in so many differs where another file's beginning was written
LARGEST_BEGINNING = 1 << 16  # bytes of a foreign beginning whose end is sought at borders of sectors
MOST_PLACES = 8
MARKER = re.compile(rb"\xff[\x80-\xff]")  # stands in headers, and in no scan (T.87, A.1)
SHARED = 4  # one block in so many of their second half is equal, at its place, in two files of which one was overwritten
STRANGE = "its UIDs don't agree or don't read, and no frame of it fits a copy of the instance"


class TwoInstances(Exception):
    """The copies are of different instances."""


@dataclass
class Identity:
    """What a copy says that it is: `uid` where its two UIDs agree, else nothing."""

    in_meta: str | None
    in_data: str | None

    @property
    def uid(self) -> Optional[str]:
        return self.in_data if self.in_data is not None and self.in_meta == self.in_data else None

    def is_of(self, uid: Optional[str]) -> bool:
        """Whether the copy has this UID in its data set, or in its meta information if that of the data set does not read."""
        return uid is not None and uid == (self.in_meta if self.in_data is None else self.in_data)


def identity_of(data: bytes) -> Identity:
    return Identity(*instance_of(data))


def share_blocks(one: bytes, other: bytes) -> bool:
    """Whether many blocks of the second half of two files are equal at their places, not counting those of one value.

    The first half does not count: slices of one series have much of their headers in common, and nothing of their codestreams.
    """
    equal = counted = 0
    for at in range(min(len(one), len(other)) // 2, min(len(one), len(other)) - BLOCK + 1, BLOCK):
        block = one[at : at + BLOCK]
        if block != block[:1] * BLOCK:
            counted += 1
            equal += block == other[at : at + BLOCK]
    return counted >= 2 and equal * SHARED >= counted


def shares_pieces(data: bytes, other: bytes, begin: int) -> bool:
    """Whether a piece of the scans of a file, which begin after a place, stands in another file too. True where no piece says much.

    Headers of frames are alike in many files, and so are even frames.
    """
    pieces = ((at, data[at : at + PIECE]) for at in range(begin, len(data) - PIECE + 1, PIECE))
    places = [at for at, piece in pieces if len(set(piece)) >= KINDS and not MARKER.search(piece)]
    if not places or any(data[at : at + PIECE] == other[at : at + PIECE] for at in places):
        return True
    return any(data[at : at + PIECE] in other for at in places[:: max(1, len(places) // PIECES)])


def equal_from(one: bytes, other: bytes) -> Optional[int]:
    """Where two files begin to be equal for long, or nothing."""
    for at in range(0, min(len(one), len(other)) - STRETCH + 1, STEP):
        stretch = one[at : at + STRETCH]
        if stretch == other[at : at + STRETCH] and stretch != stretch[:1] * STRETCH:
            return at
    return None


def border_of(data: bytes, other: bytes, place: int) -> int:
    """Where two files that are equal from a place on begin to be so, if a smaller damage of one stands before the place."""
    found = place
    for at in range(place - STEP, max(place - BEFORE_BORDER, 0), -STEP):
        stretch = data[at : at + SHORT]
        if stretch == other[at : at + SHORT] and stretch != stretch[:1] * SHORT:
            found = at
    while found > 0 and data[found - 1] == other[found - 1]:
        found -= 1
    return found


def breaks_at(data: bytes, place: int, is_before: bool = False) -> bool:
    """Whether the elements of a file break off at a place: in the element or item that stands there; or before it too, if that counts."""
    structure = Structure(Walk(Runs([Copy("", data)], 0, []), [data]))
    begin = 0
    for step in structure.steps:
        if step.kind in ("jump", "cut"):
            is_cut = step.kind == "cut" and step.before[0] <= place
            return begin <= place + STEP and (is_before or place <= step.before[0] + STEP) or is_cut
        begin = step.before[0]
    return not structure.is_found and all(element.start <= place + STEP for element in walk(data))


def rests_from(data: bytes, other: bytes) -> Iterator[int]:
    """Where two files can begin to be equal after a foreign beginning of one: where they are so for long, and at borders of sectors."""
    place = equal_from(data, other)
    if place is None:
        return
    yield place
    borders = range(-(-place // SECTOR) * SECTOR, min(len(data), len(other), LARGEST_BEGINNING) + 1, SECTOR)
    for at in borders:
        stretch = data[at : at + STRETCH]
        is_same = stretch == other[at : at + STRETCH] and stretch != stretch[:1] * STRETCH
        if is_same and data[at - SHORT : at] != other[at - SHORT : at]:
            yield at


def apart_until(data: bytes, other: bytes, end: int) -> int:
    """How many bytes of two beginnings of files differ."""
    return sum(last - first for first, last in differing([data[:end], other[:end]]))


def instance_at(data: bytes) -> Optional[int]:
    """Where the SOP Instance UID stands; nothing if the elements don't go on so far."""
    return next((element.start for element in walk(data) if element.tag == INSTANCE), None)


def element_across(data: bytes, place: int) -> Optional[tuple[int, bool]]:
    """Where the element of the top level begins that goes across a place, and whether another one follows it; or nothing."""
    elements = list(walk(data))
    for element, behind in zip(elements, [*elements[1:], None]):
        if element.start < place and (behind is None or place <= behind.start):
            return element.start, behind is not None
    return None


def leads_apart(data: bytes, other: bytes, place: int) -> bool:
    """Whether the elements of two files of one length stand elsewhere before a place, and only those of the other one go on after it."""
    own, beside = element_across(data, place), element_across(other, place)
    if len(data) != len(other) or own is None or beside is None:
        return False
    return own[0] != beside[0] and not own[1] and beside[1]


def overwritten_until(data: bytes, other: bytes) -> Optional[int]:
    """Where the beginning of its own ends that a file has, if it breaks off there and goes on as the other one; else nothing."""
    if not share_blocks(data, other):
        return None
    is_alike = instance_at(data) == instance_at(other)
    for place in itertools.islice(rests_from(data, other), MOST_PLACES):
        # Two slices of one series begin alike: either can be the one that was overwritten, and have other damage
        if is_alike and not leads_apart(data, other, place):
            continue
        if apart_until(data, other, place) * DENSE < place - FIRST or breaks_at(other, place):
            continue
        # Where all is different, a foreign file may have ended before, and other bytes may follow it
        is_foreign = apart_until(data, other, place) * 3 >= (place - FIRST) * 2
        found = next((at for at in (border_of(data, other, place), place) if breaks_at(data, at, is_foreign)), None)
        if found is not None and apart_until(data, other, found) * DENSE >= found - FIRST:
            return found
    return None


def items_and_end(data: bytes) -> tuple[list[tuple[int, int]], int]:
    """The ranges of the items of Pixel Data, and where the elements of a file end or break off; it can be beyond the file."""
    elements = list(walk(data))
    if not elements or elements[-1].length == UNDEFINED and elements[-1].tag != PIXEL_DATA:
        return [], 0
    if elements[-1].length != UNDEFINED:
        return [], elements[-1].end
    at = elements[-1].value
    found: list[tuple[int, int]] = []
    while data[at : at + 4] == ITEM_TAG:
        begin, at = at + 8, at + 8 + int.from_bytes(data[at + 4 : at + 8], "little")
        found.append((begin, at))
    if data[at : at + 8] != DELIMITER:
        return [], at
    rest = list(walk(data, at + 8))
    return found, rest[-1].end if rest else at + 8


def frames_of(data: bytes) -> list[tuple[int, int]]:
    """The ranges of the items of Pixel Data, if a file goes by its elements and items to its end; else nothing."""
    found, end = items_and_end(data)
    return found if end == len(data) else []


def is_instead(data: bytes, other: bytes) -> bool:
    """Whether a foreign file stands in the place of all of a copy: it has the length of the whole file, but its own end is elsewhere.

    It is cut there, or more bytes follow its Pixel Data. No file of another length is cut to just this one, but at a border of sectors.
    """
    if len(data) != len(other) or len(data) % SECTOR == 0 or not frames_of(other):
        return False
    found, end = items_and_end(data)
    if end <= len(data) - HEAD and not (found and end < len(data)):
        return False
    blocks = [data[at : at + BLOCK] for at in range(0, len(data) - BLOCK + 1, BLOCK)]
    return not any(block == other[at * BLOCK : (at + 1) * BLOCK] for at, block in enumerate(blocks) if block.strip(block[:1]))


def border_between(data: bytes, other: bytes) -> Optional[int]:
    """Where a file begins to be overwritten with another one that stands before that place in the other: only so elements go on to the end.

    It lies in a frame. So its codestream is of both, and shows that it is one if it can be decoded.
    """
    if len(data) != len(other) or frames_of(data) or frames_of(other):
        return None
    for border in range(SECTOR, len(data), SECTOR):
        frames = frames_of(data[:border] + other[border:])
        if any(begin + SHORT <= border <= end - SHORT for begin, end in frames):
            return None if frames_of(other[:border] + data[border:]) else border
    return None


class Instances:
    """Sorts copies, by index: `certain` are of the instance, `uncertain` may be. `left_out` are others, with the reason.

    `rests` are copies whose beginning a foreign file has overwritten: where that ends, and the copy from which that was seen. `doubts` are
    copies whose header can be the foreign one, with the reason: two UIDs stand against each other, and no third copy has one of both.
    """

    def __init__(self, texts: Sequence[bytes], is_same: bool) -> None:
        self.texts = texts
        self.identities = [identity_of(data) for data in texts]
        self.left_out: dict[int, str] = {}
        self.rests: dict[int, tuple[int, int]] = {}
        self.doubts: dict[int, str] = {}
        self.uid: Optional[str] = None
        self.certain: list[int] = list(range(len(texts)))
        self.uncertain: list[int] = []
        if is_same:
            return
        self.uid = self.choose()
        self.certain = [at for at, each in enumerate(self.identities) if at not in self.left_out and each.is_of(self.uid)]
        self.uncertain = [at for at, each in enumerate(self.identities) if each.uid is None and at not in self.certain]
        self.leave_out_strange()

    def choose(self) -> Optional[str]:
        """The UID of the instance, if any copy has one; copies of others are left out where that is clear."""
        counts = Counter(each.uid for each in self.identities if each.uid is not None)
        if len(counts) <= 1:
            return next(iter(counts), None)
        self.leave_out_overwritten(counts)
        self.leave_out_half()
        self.leave_out_foreign(counts)
        counts = Counter(each.uid for at, each in enumerate(self.identities) if each.uid is not None and at not in self.left_out)
        (most, count), *others = counts.most_common()
        if others and (count < 2 or others[0][1] == count):
            raise TwoInstances(f"the copies are of several instances: {', '.join(sorted(counts))}")
        for at, each in enumerate(self.identities):
            if each.uid not in (None, most) and at not in self.left_out:
                self.left_out[at] = f"it is of another instance, {each.uid}"
        self.doubt(most)
        return most

    def leave_out_strange(self) -> None:
        """Leaves out copies whose UIDs say nothing, and that have neither the length nor a piece of the scans of copies of the instance.

        One copy of the instance alone can lack all that the other one has.
        """
        begins = {at: place for at in self.certain if (place := pixels_of(self.texts[at])[0]) is not None}
        sizes = {len(self.texts[at]) for at in self.certain}
        for at in list(self.uncertain) if len(begins) > 1 else ():
            is_like = any(shares_pieces(self.texts[one], self.texts[at], begin) for one, begin in begins.items())
            if not is_like and len(self.texts[at]) not in sizes:
                self.uncertain.remove(at)
                self.left_out[at] = STRANGE

    def leave_out_half(self) -> None:
        """Two copies, of which a foreign file has overwritten the end of one and the beginning of the other."""
        for at, beside in ((0, 1), (1, 0)) if len(self.texts) == 2 and not self.left_out else ():
            border = border_between(self.texts[beside], self.texts[at])
            if border is not None:
                self.rests[at] = border, beside
                self.left_out[at] = f"a foreign file, of instance {self.identities[at].uid}, has overwritten its beginning"
                self.left_out[at] += f"; what follows from {border} on is used"
                return

    def leave_out_foreign(self, counts: Mapping[str, int]) -> None:
        """Leaves out a copy that is a foreign file from its beginning to its end."""
        for at, beside in itertools.permutations(range(len(self.texts)), 2):
            own, other = self.identities[at].uid, self.identities[beside].uid
            if own is None or other is None or own == other or counts[own] > 1 or {at, beside} & self.left_out.keys():
                continue
            if is_instead(self.texts[at], self.texts[beside]):
                self.left_out[at] = f"a foreign file, of instance {own}, stands in its place"

    def leave_out_overwritten(self, counts: Mapping[str, int]) -> None:
        """Leaves out copies whose beginning a foreign file has overwritten: further on they are as a copy of another instance is."""
        for at, beside in itertools.permutations(range(len(self.texts)), 2):
            own, other = self.identities[at].uid, self.identities[beside].uid
            if own is None or other is None or own == other or {at, beside} & self.left_out.keys():
                continue
            is_odd = counts[own] == 1 and counts[other] > 1 and share_blocks(self.texts[at], self.texts[beside])
            until = overwritten_until(self.texts[at], self.texts[beside])
            if is_odd or until is not None:
                self.left_out[at] = f"a foreign file, of instance {own}, has overwritten its beginning"
            if until is not None:
                self.rests[at] = until, beside
                self.left_out[at] += f"; what follows from {until} on is used"

    def doubt(self, uid: str) -> None:
        """One copy alone has this UID twice, and another copy has another one twice: each can have the other file's beginning.

        Its elements can lead on to the end all the same: the bytes before are of a third file then, and no copy has the true ones. Nor do
        two copies say more that have this UID, where another one has the same picture and the UID of another file of the series: one of
        them can have been copied from the other.
        """
        own = [at for at, each in enumerate(self.identities) if each.uid == uid]
        others = sorted({each.uid for each in self.identities if each.uid is not None} - {uid})
        is_so = len(own) == 1 or len(own) < MOST_OF_ONE and any(self.is_of_series(at, own[0]) for at in range(len(self.texts)))
        if others and is_so:
            why = f"each of two instances can be the file: {', '.join([uid, *others])}"
            self.doubts = dict.fromkeys(own, why)

    def is_of_series(self, at: int, beside: int) -> bool:
        """Whether a copy has the picture of another one, and the UID of another file of its series."""
        own, other = self.identities[at].uid, self.identities[beside].uid
        if own is None or other is None or not are_of_series(own, other):
            return False
        begin = pixels_of(self.texts[beside])[0]
        is_moved = begin is not None and shares_pieces(self.texts[beside], self.texts[at], begin)
        return is_moved or share_blocks(self.texts[at], self.texts[beside])
