"""What one copy alone has of a header: the others lost it, were overwritten there by a foreign file, or were left out.

Its way is the only one that goes on there. So it is taken where its VR allows the value, unless something speaks against it: a copy
that was left out has the element with another value, the place of a loss is not clear, or the element is strange. The frames, or another
element, confirm some values.
"""
from __future__ import annotations

import re
from collections.abc import Iterator, Sequence
from dataclasses import dataclass
from typing import TYPE_CHECKING

from jls_tools.dicom.axis.align import Copy, may_stand_elsewhere, merged
from jls_tools.dicom.axis.media import BEFORE_BORDER, SECTOR
from jls_tools.dicom.axis.sectors import BESIDE, has_noise_within, is_noise, is_plain
from jls_tools.dicom.evidence.csa import is_chain
from jls_tools.dicom.evidence.most import LOST_TEXT
from jls_tools.dicom.read.elements import Element, tag_name, text_of
from jls_tools.dicom.read.tags import (
    CHARACTER_SET,
    COLUMNS,
    FRAMES,
    GROUP_LENGTH,
    HIGH,
    PADDING,
    PIXEL_DATA,
    ROWS,
    SAMPLES,
    SIGN,
    STORED,
    SYNTAX,
    TWINS,
    VERSION,
)
from jls_tools.dicom.read.values import DIGITS_AND_DOTS, FREE_TEXTS, TEXTS, allows, is_doubtful, is_of_standard, strangeness
from jls_tools.dicom.result import Place
from jls_tools.dicom.walk.ways import Step

if TYPE_CHECKING:
    from jls_tools.dicom.evidence.header import Header

# Group length, transfer syntax, Samples per Pixel, Number of Frames, Rows and Columns: the file or its frames say what they have to be
CONFIRMED = frozenset((GROUP_LENGTH, SYNTAX, SAMPLES, FRAMES, ROWS, COLUMNS, PIXEL_DATA))
ONLY_ASCII = ("", "ISO_IR 6")  # without one, texts have the letters of ASCII (PS3.5, 6.1.2)
ONLY_VERSION = b"\0\1"  # of the meta information (PS3.10, 7.1)
ONE_ALONE = "one copy alone has it"
CLEAR = 32  # so many bytes beside a loss are equal in all copies, where its place is clear
KINDS = 8  # of so many different bytes, at least, the end of a copy that is cut shows where it stands
WRONG_VR = 4  # the strangeness of a known element with another VR
ZERO_BEFORE, LONG_BEGIN = re.compile(rb"\.0\d"), 16
ALIKE = 0.9  # such a share of bytes is of the values that stand behind a border, where a value goes on
LOST = 16  # so many bytes of a copy that were not taken, at least, show that it lost the sector in which they stand


@dataclass
class Stranger:
    """A copy that was left out. `may_be_copy` is false for one of another instance: its values say nothing."""

    path: str
    data: bytes
    may_be_copy: bool


def held_by_one(copies: Sequence[Copy]) -> list[tuple[int, int]]:
    """The ranges of the axis that no two copies have."""
    borders = sorted({0, len(copies[0].data), *(place for copy in copies for pair in copy.absent for place in pair)})
    found = [(begin, end) for begin, end in zip(borders, borders[1:]) if sum(not copy.lacks(begin, end) for copy in copies) < 2]
    return merged(found)


def confirmed(header: Header) -> set[int]:
    """The tags of the top level whose values the file itself confirms."""
    found = set(CONFIRMED)
    for first, second in TWINS:
        one, two = header.value(first), header.value(second)
        if one is not None and two is not None and text_of(one) == text_of(two):
            found.update((first, second))
    padding = header.value(PADDING)
    if padding is not None and not padding.strip(b"\0"):
        found.add(PADDING)
    return found


def elements_alone(header: Header, ranges: Sequence[tuple[int, int]]) -> Iterator[tuple[Step, Element, int]]:
    """The steps of elements of which one copy alone has some byte, and that nothing confirms; and where what counts of each ends."""
    known = confirmed(header)
    for step in header.structure.steps if ranges else ():
        element = step.element
        if element is None or step.kind not in ("leaf", "open") or step.depth == 0 and element.tag in known:
            continue
        end = element.end if step.kind == "leaf" else element.value
        if any(first < end and element.start < last for first, last in ranges):
            yield step, element, end


def is_repeated(copies: Sequence[Copy], strangers: Sequence[Stranger], begin: int, own: bytes) -> bool:
    """Whether a copy that was left out, or the foreign beginning of one, has the same bytes: then they are not damaged."""
    texts = [copy.foreign for copy in copies] + [stranger.data for stranger in strangers]
    return any(text[begin : begin + len(own)] == own for text in texts)


def values_alone(copies: Sequence[Copy], strangers: Sequence[Stranger], begin: int, own: bytes) -> list[tuple[list[str], bytes]]:
    """What each copy has where `own` is taken: [(paths, bytes)], that first."""
    values: dict[bytes, list[str]] = {own: []}
    end = begin + len(own)
    for copy in copies:
        value = copy.foreign[begin:end] if copy.lacks(begin, end) else b""
        values.setdefault(value or copy.has_only(begin, end), []).append(copy.path)
    for stranger in strangers:
        values.setdefault(stranger.data[begin:end], []).append(stranger.path)
    return [(paths, value) for value, paths in values.items()]


# What speaks against it ----------------------------------------------------------------


def unclear_ranges(header: Header) -> list[tuple[int, int]]:
    """What a copy lacks, where the copies differ beside it, or damage of another may hide where it stood: then that is not clear."""
    found = []
    for copy in header.copies:
        for begin, end in copy.lost[1:] if copy.foreign else copy.lost:
            beside = any(meets(header.copies, copy, border, (begin, end)) for border in (begin, end))
            is_moved = any(may_stand_elsewhere(copy, other, (begin, end)) for other in header.copies if other is not copy)
            if beside or is_moved or differs_before(header, begin, end) or header.runs.touching(end, end + CLEAR):
                found.append((begin, end))
    return found


def meets(copies: Sequence[Copy], copy: Copy, border: int, loss: tuple[int, int]) -> bool:
    """Whether a loss of another copy ends or begins where one of a copy does, on the other side, and no third one has both sides."""
    others = [other for other in copies if other is not copy]
    near = border - CLEAR, border + CLEAR
    if border == loss[0]:
        are_beside = any(last <= border <= last + CLEAR for other in others for _, last in other.lost)
    else:
        are_beside = any(border <= first <= border + CLEAR for other in others for first, _ in other.lost)
    return are_beside and all(other.lacks(*near) for other in others)


def differs_before(header: Header, begin: int, end: int) -> bool:
    """Whether copies differ before a loss. Where a copy is cut, fewer bytes have to be equal."""
    if end < len(header.copies[0].data):
        return bool(header.runs.touching(max(0, begin - CLEAR), begin))
    texts = {copy.data[max(0, begin - 2 * CLEAR) : begin] for copy in header.copies}
    ends = {text[-CLEAR // 2 :] for text in texts}
    if len(ends) == 1 and len(set(*ends)) >= KINDS:
        return False
    return sum(len(set(values)) > 1 for values in zip(*texts)) > CLEAR


def is_across(element: Element, border: int) -> bool:
    """Whether a foreign beginning may end elsewhere than at this border: in a value across it in which a text is not seen to be wrong."""
    return element.value < border < element.end and (element.vr not in TEXTS or element.length > SECTOR)


def ends_clearly(copy: Copy) -> bool:
    """Whether a foreign beginning ends at a border of sectors, where the bytes of the other copy go on: as noise, or unlike them."""
    border = copy.absent[0][1]
    before, after = copy.data[border - BESIDE : border], copy.data[border : border + BESIDE]
    foreign = copy.foreign[border - BESIDE : border]
    if border % SECTOR or not (is_plain(before) and is_plain(after)):
        return False
    return is_noise(foreign) or share_of(before, after) >= ALIKE and share_of(foreign, after) <= 1 - ALIKE


def share_of(data: bytes, other: bytes) -> float:
    """Which share of some bytes are of values that others have."""
    return sum(byte in other for byte in data) / max(1, len(data))


def denies(text: bytes, own: bytes, element: Element) -> bool:
    """Whether the bytes of a copy that was left out, or of a foreign beginning, go another way through an element that can be true."""
    other = text[element.start : element.start + len(own)]
    if len(other) < len(own):
        return False
    head = element.value - element.start
    shared = sum(one == two != 0 for one, two in zip(own, other))
    if other[:head] != own[:head] and shared * 2 < len(own) - own.count(0):
        return False
    return not (element.vr in TEXTS and (LOST_TEXT in other[head:] or not allows(element.vr, other[head:])))


def is_against_rules(header: Header, element: Element, value: bytes) -> bool:
    """Whether an element of the top level has what PS3.10, 7.1, or PS3.5, 8.1.1, forbids: High Bit is one less than Bits Stored."""
    if element.tag == VERSION:
        return value != ONLY_VERSION
    if element.tag == SIGN:
        return value not in (b"\0\0", b"\1\0")
    stored, high = header.short(STORED), header.short(HIGH)
    return element.tag in (STORED, HIGH) and stored is not None and high is not None and high != stored - 1


def is_in_lost_sector(header: Header, begin: int, end: int) -> bool:
    """Whether a range that one copy alone has stands in sectors that this copy lost, as far as others have them and were taken there."""
    first, last = begin // SECTOR * SECTOR, -(-end // SECTOR) * SECTOR
    owners = {number for number, copy in enumerate(header.copies) if not copy.lacks(begin, end)}
    chosen = header.chosen()
    against = (number for number in header.runs.touching(first, last) if number in chosen and not owners & header.holders(number))
    runs = (header.runs.runs[number] for number in against)
    return sum(min(run.end, last) - max(run.begin, first) for run in runs) >= LOST


class Doubts:
    """What speaks against the values that one copy alone has."""

    def __init__(self, header: Header, strangers: Sequence[Stranger]) -> None:
        self.header = header
        self.unclear = unclear_ranges(header)
        self.lost = [pair for pair in held_by_one(header.copies) if is_in_lost_sector(header, *pair)]
        self.borders = [copy.absent[0][1] for copy in header.copies if copy.foreign and not ends_clearly(copy)]
        # (from where on it counts, the bytes)
        self.texts = [(len(copy.foreign) - BEFORE_BORDER, copy.foreign) for copy in header.copies if copy.foreign]
        self.texts += [(0, stranger.data) for stranger in strangers if stranger.may_be_copy]
        self.data = bytes(header.merged())
        self.is_ascii = CHARACTER_SET not in header.elements or header.text(CHARACTER_SET) in ONLY_ASCII
        self.uids = [(leaf.value, leaf.bytes_of(self.data)) for leaf in header.leaves if leaf.vr == b"UI"]

    def has(self, step: Step, element: Element, own: bytes) -> bool:
        """Whether something speaks against an element, whose bytes these are."""
        value, end = own[element.value - element.start :], element.start + len(own)
        if strangeness(element.tag, element.vr) >= WRONG_VR or not is_of_standard(element.tag) or element.tag <= step.before[2]:
            return True
        if step.kind == "leaf" and is_doubtful(element.vr, value) and not self.is_said_twice(element, value):
            return True
        if step.kind == "leaf" and self.is_ascii and element.vr in FREE_TEXTS and not value.isascii():
            return True
        if step.depth == 0 and is_against_rules(self.header, element, value):
            return True
        if step.kind == "leaf" and (element.vr in TEXTS and LOST_TEXT in value or has_noise_within(self.data, element.value, element.end)):
            return True
        if any(first < end and element.start < behind for first, behind in [*self.unclear, *self.lost]):
            return True
        if step.kind == "leaf" and any(is_across(element, border) for border in self.borders) and not is_chain(value):
            return True
        return any(element.start >= first and denies(text, own, element) for first, text in self.texts)

    def is_said_twice(self, element: Element, value: bytes) -> bool:
        """Whether a UID has zeros before numbers, which none should have, but another one of the file begins with them too."""
        last = max((found.end() for found in ZERO_BEFORE.finditer(value)), default=0)
        if element.vr != b"UI" or last < LONG_BEGIN or not DIGITS_AND_DOTS.match(value):
            return False
        return any(own != element.value and uid.startswith(value[:last]) for own, uid in self.uids)


def places_alone(header: Header, strangers: Sequence[Stranger]) -> list[Place]:
    """A Place for each of these elements: decided, unless something speaks against what the one copy has."""
    copies, data = header.copies, bytes(header.merged())
    doubts = Doubts(header, strangers)
    found: list[Place] = []
    for step, element, end in elements_alone(header, held_by_one(copies)):
        own = data[element.start : end]
        if is_repeated(copies, strangers, element.start, own):
            continue
        begin = element.value if element.value < end else element.start
        values = values_alone(copies, strangers, begin, data[begin:end])
        place = Place(element.start, len(own), tag_name(element.tag), values)
        if not doubts.has(step, element, own):
            place.taken, place.why = 0, ONE_ALONE
        found.append(place)
    return found
