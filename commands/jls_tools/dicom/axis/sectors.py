"""Whole sectors that a copy lost: where it changes its kind of bytes just at borders of sectors, and another copy goes on.

Disks and tapes lose bytes by sectors, and a file's own bytes change their kind anywhere. So a sector is lost that is one value alone, is
noise, or is bytes of another kind than stand before and after it, if that begins and ends at its borders. The other copy must not look
lost too: then nothing is decided.
"""
from __future__ import annotations

import math
from collections.abc import Iterable, Iterator, Sequence
from typing import Optional

from jls_tools.dicom.axis.apart import are_exchanged
from jls_tools.dicom.axis.media import MOST_LOST, SECTOR
from jls_tools.dicom.axis.periods import period_of
from jls_tools.dicom.read.elements import Element

NEAR = 3  # so many bytes of the one value can stand before a border of sectors by chance
LEAST = 16  # so many bytes of a sector differ, at least, where one copy has one value alone
BESIDE = 64
WINDOW = 4096
CONTEXT = 256
PLAIN = bytes([0, 9, 10, 13, *range(0x20, 0x7F)])  # what texts, and fields that are not full, are made of
SHARE = len(PLAIN) / 256
FITS, STRANGE, LEAST_MORE, MOST_BITS = 1.0, 2.0, 3.0, 5.0  # bits a byte
LOST_VALUES = (b"\0", b"\xff")  # what stands where bytes were lost
IS_VALUE, IS_NOISE = "others are one value, from border to border of sectors", "others are noise"
IS_TEXT = "others are one text again and again, from border to border of sectors"
IS_STRANGE = "others are of another kind, from border to border of sectors"
LONGEST_SUM = 64  # bytes, of SHA-512


def plainness(data: bytes) -> float:
    """By how many standard deviations more bytes are plain than are in noise."""
    count = len(data) - len(data.translate(None, PLAIN))
    return (count - SHARE * len(data)) / math.sqrt(SHARE * (1 - SHARE) * len(data))


def variety(data: bytes) -> float:
    """How many different bytes there are, as a share of those of noise."""
    return len(set(data)) / (256 * (1 - (255 / 256) ** len(data)))


def is_noise(data: bytes) -> bool:
    return len(data) >= 16 and plainness(data) <= 2.5 and variety(data) >= 0.88


def is_plain(data: bytes) -> bool:
    """Whether bytes are surely no noise."""
    return len(data) >= 16 and (plainness(data) >= 5 or variety(data) <= 0.7)


def is_noise_alone(data: bytes, begin: int, end: int) -> bool:
    """Whether noise that is longer than a sum stands in a range, and none beside it."""
    beside = (data[max(0, begin - BESIDE) : begin], data[end : end + BESIDE])
    return end - begin > LONGEST_SUM and is_noise(data[begin:end]) and all(map(is_plain, beside))


def has_noise_within(data: bytes, begin: int, end: int) -> bool:
    """Whether sectors of noise stand in a range between others that are none: damage that no other copy shows."""
    borders = range(-(-begin // SECTOR) * SECTOR, end - SECTOR + 1, SECTOR)
    noisy = [is_noise(data[at : at + SECTOR]) for at in borders]
    first = next((at for at, border in enumerate(borders) if noisy[at] and is_plain(data[max(begin, border - BESIDE) : border])), None)
    if first is None:
        return False
    last = next((at for at in range(first, len(noisy)) if not noisy[at]), len(noisy)) * SECTOR + borders.start
    return is_plain(data[last : min(end, last + BESIDE)])


def run_length(data: bytes, value: bytes) -> int:
    """How many of one value stand at the beginning."""
    return len(data) - len(data.lstrip(value))


class Kind:
    """How bytes follow each other in a context."""

    def __init__(self, context: bytes) -> None:
        self.pairs: dict[tuple[int, int], int] = {}
        self.singles: dict[int, int] = {}
        self.before: dict[int, int] = {}
        for at, value in enumerate(context):
            self.singles[value] = self.singles.get(value, 0) + 1
            if at:
                pair = context[at - 1], value
                self.pairs[pair] = self.pairs.get(pair, 0) + 1
                self.before[pair[0]] = self.before.get(pair[0], 0) + 1
        self.total = len(context)

    def bits(self, data: bytes) -> float:
        """The bits that a byte of these costs."""
        cost = 0.0
        for last, value in zip(data, data[1:]):
            single = (self.singles.get(value, 0) + 0.25) / (self.total + 64)
            cost -= math.log2((self.pairs.get((last, value), 0) + 2 * single) / (self.before.get(last, 0) + 2))
        return cost / max(1, len(data) - 1)


class Pair:
    """Two copies: `own`, of which it is asked where it lost sectors, and `other`."""

    def __init__(self, own: bytes, other: bytes, leaves: Sequence[Element]) -> None:
        self.own, self.other = own, other
        self.leaves = leaves
        self.total = len(own)

    def is_one_value(self, begin: int, end: int) -> bool:
        """Whether a copy has one value alone from border to border, where the other one has more, and no noise."""
        own, other = self.own[begin:end], self.other[begin:end]
        value = own[:1]
        if own.strip(value) or len(other) - other.count(value) < LEAST or is_noise(other):
            return False
        if not self.are_beside(begin, end) or self.is_of_another_kind(self.other, begin, end):
            return False
        before = run_length(self.own[max(0, begin - WINDOW) : begin][::-1], value)
        after = run_length(self.own[end : end + WINDOW], value)
        sides = (self.side(before, run_length(other, value), begin), self.side(after, run_length(other[::-1], value), end))
        return None not in sides and ("exact" in sides or sides == ("near", "near"))

    def is_one_text(self, begin: int, end: int) -> bool:
        """Whether a copy has one text again and again from border to border, and neither beyond nor in the other copy.

        It can begin anew in each sector, as a rescue writes them one by one.
        """
        period = period_of(self.own[begin : begin + SECTOR])
        sectors = {self.own[at : at + SECTOR] for at in range(begin, end, SECTOR)}
        is_one = len(sectors) == 1 or self.own[begin + period : end] == self.own[begin : end - period]
        if period < 2 or not is_one or begin == 0 or end == self.total:
            return False
        first, last = max(0, begin - NEAR - 1), min(self.total, end + NEAR + 1)
        is_before = self.own[first:begin] == self.own[first + period : begin + period]
        goes_on = is_before or self.own[end:last] == self.own[end - period : last - period]
        others = [self.other[at : min(at + SECTOR, end)] for at in range(begin, end, SECTOR)]
        if goes_on or any(period_of(part) or is_noise(part) for part in others) or not self.are_beside(begin, end):
            return False
        return not self.is_of_another_kind(self.other, begin, end)

    def side(self, outside: int, inside: int, border: int) -> Optional[str]:
        """What speaks for it that one value begins at a border of sectors: how many stand outside, and inside of the other copy.

        Where the value goes on beyond, nothing does: true zeros can begin at the other border by chance.
        """
        if border in (0, self.total):
            return "open"
        if inside <= NEAR:
            return "exact" if outside == 0 else "near" if outside <= NEAR else None
        return None

    def agree_beside(self, begin: int, end: int) -> bool:
        """Whether two copies are equal before and after a range: else damage of a copy can end there, and make a border."""
        return self.agree(begin - BESIDE, begin) and self.agree(end, end + BESIDE)

    def are_beside(self, begin: int, end: int) -> bool:
        """Whether two copies are equal before and after a range, but where the other one lost the sector there, as it shows by itself."""
        sides = (begin - BESIDE, begin, begin - SECTOR), (end, end + BESIDE, end)
        return all(self.agree(first, last) or period_of(self.other[max(0, at) : at + SECTOR]) > 0 for first, last, at in sides)

    def agree(self, begin: int, end: int) -> bool:
        return self.own[max(0, begin) : end] == self.other[max(0, begin) : end]

    def is_own_noise(self, begin: int, end: int) -> bool:
        """Whether a copy has noise from border to border, and the other copy, which has none, goes on as before and after it."""
        if not all(is_noise(self.own[at : min(at + SECTOR, end)]) for at in range(begin, end, SECTOR)):
            return False
        other = self.other[begin:end]
        beside = (self.own[max(0, begin - BESIDE) : begin], self.own[end : end + BESIDE])
        edges = (self.own[begin : begin + BESIDE], self.own[end - BESIDE : end])
        if not (all(map(is_plain, beside)) and all(map(is_noise, edges)) and is_plain(other) and self.agree_beside(begin, end)):
            return False
        if self.is_of_another_kind(self.other, begin, end):
            return False
        if other.strip(other[:1]):
            return all(map(self.is_other_plain, range(begin, end, SECTOR)))
        return beside[0].endswith(other[:1] * LEAST) or beside[1].startswith(other[:1] * LEAST)

    def is_strange(self, begin: int, end: int) -> bool:
        """Whether a copy has bytes of another kind from border to border than the value has before and after, and the other has not."""
        sectors = range(begin, end, SECTOR)
        if not self.is_of_another_kind(self.own, begin, end) or any(period_of(self.other[at : at + SECTOR]) > 1 for at in sectors):
            return False
        limit, kind = self.limit(*self.beside(begin, end))
        others = [kind.bits(self.other[at : at + SECTOR]) for at in sectors]
        owns = [kind.bits(self.own[at : at + SECTOR]) for at in sectors]
        if sum(others) > (limit + FITS) * len(sectors) or sum(owns) < sum(others) + LEAST_MORE * len(sectors):
            return False
        return all(other < own for own, other in zip(owns, others))

    def is_of_another_kind(self, data: bytes, begin: int, end: int) -> bool:
        """Whether one of both has bytes of another kind in a range than the value has before and after, from its first to its last."""
        left, right = self.beside(begin, end)
        if len(left) < CONTEXT or len(right) < CONTEXT:
            return False
        limit, kind = self.limit(left, right)
        inner = (data[begin : begin + BESIDE], data[end - BESIDE : end], data[begin:end])
        return limit <= MOST_BITS and all(kind.bits(part) >= limit + STRANGE for part in inner)

    def ends_as_noise(self, begin: int, end: int) -> bool:
        """Whether noise of a copy begins or ends at a border of sectors, where the other copy has none."""
        if not all(is_noise(self.own[at : min(at + SECTOR, end)]) and self.is_other_plain(at) for at in range(begin, end, SECTOR)):
            return False
        if self.is_of_another_kind(self.other, begin, end):
            return False
        before, after = self.own[max(0, begin - BESIDE) : begin], self.own[end : end + BESIDE]
        begins = is_plain(before) and is_noise(self.own[begin : begin + BESIDE]) and self.agree(begin - BESIDE, begin)
        return begins or is_plain(after) and is_noise(self.own[end - BESIDE : end]) and self.agree(end, end + BESIDE)

    def is_patch(self, begin: int, end: int) -> bool:
        """Whether a copy has noise in a range with no noise beside it, where the other copy goes on as before and after it.

        Zeros in zeros can be lost bytes. Noise can be true, as a sum is: the range has to lie within a value, and to be longer than a sum.
        """
        own, other = self.own[begin:end], self.other[begin:end]
        if len(own) <= LONGEST_SUM:
            return False
        if not (is_noise(own) and is_plain(other) and self.agree_beside(begin, end)):
            return False
        if not other.strip(other[:1]) and other[:1] in LOST_VALUES:
            return False
        if not (is_plain(self.own[max(0, begin - BESIDE) : begin]) and is_plain(self.own[end : end + BESIDE])):
            return False
        left, right = self.beside(begin, end)
        if len(left) < CONTEXT or len(right) < CONTEXT:
            return False
        limit, kind = self.limit(left, right)
        return kind.bits(other) <= limit + FITS

    def are_exchanged(self, begin: int, end: int) -> bool:
        """Whether a range of one copy is that of the other with the bytes of each pair exchanged."""
        return begin >= 0 and are_exchanged(self.own[begin:end], self.other[begin:end])

    def fits_less(self, begin: int, end: int) -> bool:
        """Whether what a copy has in a range follows the bytes before and after it less than what the other one has there."""
        context = b"".join(self.beside(begin, end))
        kind = Kind(context)
        return len(context) >= CONTEXT and kind.bits(self.own[begin:end]) >= kind.bits(self.other[begin:end]) + FITS

    def is_lost_between(self, begin: int, end: int) -> bool:
        """Whether a copy lost all of a range: it has one value alone, or most of it differs."""
        own = self.own[begin:end]
        apart = sum(one != two for one, two in zip(own, self.other[begin:end]))
        return not own.strip(own[:1]) or apart * 2 >= end - begin

    def run_around(self, begin: int, end: int) -> Optional[tuple[int, int]]:
        """The run of one value of a copy in which a range lies, as far as it may count; nothing if it has several."""
        value, other = self.own[begin : begin + 1], self.other[begin:end]
        if self.own[begin:end].strip(value) or value not in LOST_VALUES or not other.strip(value):
            return None
        before = run_length(self.own[max(0, begin - WINDOW) : begin][::-1], value)
        return begin - before, end + run_length(self.own[end : end + WINDOW], value)

    def lost_around(self, border: int) -> tuple[int, int]:
        """The sectors around a border that have nothing but the one lost value that the sector there has; else that sector alone."""
        first, last = border, min(border + SECTOR, self.total)
        value = self.own[first : first + 1]
        if value in LOST_VALUES and not self.own[first:last].strip(value):
            while first > 0 and not self.own[first - SECTOR : first].strip(value) and last - first < MOST_LOST:
                first -= SECTOR
            while last < self.total and not self.own[last : last + SECTOR].strip(value) and last - first < MOST_LOST:
                last = min(last + SECTOR, self.total)
        return first, last

    def begins_or_ends(self, first: int, last: int) -> bool:
        """Whether one lost value begins or ends in a copy just at a border of sectors, where the other copy goes on: one of both is enough.

        Where true bytes of that value are beside the border, so much as can be seen has to speak for it on both sides.
        """
        value, other = self.own[first : first + 1], self.other[first:last]
        if value not in LOST_VALUES or self.own[first:last].strip(value):
            return False
        is_begun, is_ended = first > 0 and self.own[first - 1 : first] != value, self.own[last : last + 1] not in (value, b"")
        begins = run_length(other, value) <= NEAR and self.agree(first - BESIDE, first)
        ends = run_length(other[::-1], value) <= NEAR and self.agree(last, last + BESIDE)
        return is_begun and begins or is_ended and ends or (is_begun or begins) and (is_ended or ends)

    def is_noise_alone(self, begin: int) -> bool:
        """Whether a copy has noise in a sector, and the other one has none."""
        return 0 <= begin < self.total and is_noise(self.own[begin : begin + SECTOR]) and self.is_other_plain(begin)

    def is_cut_out(self, begin: int) -> bool:
        """Whether the other copy has one value in a sector as if that was lost: from border to border of sectors, and no further."""
        end = min(begin + SECTOR, self.total)
        value = self.other[begin : begin + 1]
        if value not in LOST_VALUES or self.other[begin:end].strip(value):
            return False
        before = run_length(self.other[max(0, begin - WINDOW) : begin][::-1], value)
        after = run_length(self.other[end : end + WINDOW], value)
        return (begin - before) % SECTOR <= NEAR and (end + after) % SECTOR <= NEAR

    def is_other_plain(self, begin: int) -> bool:
        """Whether the other copy has neither noise in a sector nor one text again and again, which can have been written over it."""
        sector = self.other[begin : begin + SECTOR]
        return is_plain(sector) and period_of(sector) < 2

    def limit(self, left: bytes, right: bytes) -> tuple[float, Kind]:
        """The bits that a byte costs of what stands beside a range, and the kind of what stands farther from it."""
        kind = Kind(left[:-BESIDE] + right[BESIDE:])
        return max(kind.bits(left[-BESIDE:]), kind.bits(right[:BESIDE])), kind

    def beside(self, begin: int, end: int) -> tuple[bytes, bytes]:
        """What both have before and after a range, of the value in which it lies: as far as they are equal."""
        leaf = self.leaf_of(begin, end)
        if leaf is None:
            return b"", b""
        first, last = max(leaf.value, begin - WINDOW), min(leaf.end, end + WINDOW)
        left = equal_end(self.own[first:begin], self.other[first:begin])
        return left, equal_end(self.own[end:last][::-1], self.other[end:last][::-1])[::-1]

    def leaf_of(self, begin: int, end: int) -> Optional[Element]:
        return next((leaf for leaf in self.leaves if leaf.value <= begin and end <= leaf.end), None)

    def lost(self, places: Iterable[int]) -> Iterator[tuple[int, int, str, bool]]:
        """(begin, end, why, whether other places have to speak for it) of the sectors with these places that the copy lost."""
        for begin, end in apart(self.own, self.other, places):
            for first, last in blocks(self.own, begin, end):
                if self.is_one_value(first, last):
                    yield first, last, IS_VALUE, False
                elif self.is_one_text(first, last):
                    yield first, last, IS_TEXT, False
                elif self.is_own_noise(first, last):
                    yield first, last, IS_NOISE, False
                elif self.ends_as_noise(first, last):
                    yield first, last, IS_NOISE, True
                elif (first, last) == (begin, end) and self.is_strange(first, last):
                    yield first, last, IS_STRANGE, False


def equal_end(one: bytes, other: bytes) -> bytes:
    """The end of two of one length, as far as they are equal."""
    count = len(one)
    while count and one[count - 1] == other[count - 1]:
        count -= 1
    return one[count:]


def apart(one: bytes, other: bytes, places: Iterable[int]) -> list[tuple[int, int]]:
    """The ranges of whole sectors, next to each other, in which two copies differ, and in which one of these places is."""
    found, until = [], 0
    for place in places:
        begin = place // SECTOR * SECTOR
        end = begin
        while end < len(one) and one[end : end + SECTOR] != other[end : end + SECTOR] and end - begin < MOST_LOST:
            end += SECTOR
        while begin > until and one[begin - SECTOR : begin] != other[begin - SECTOR : begin] and end - begin < MOST_LOST:
            begin -= SECTOR
        if begin >= until and begin < end < begin + MOST_LOST:
            found.append((begin, min(end, len(one))))
            until = end
    return found


def form_of(data: bytes) -> Optional[bytes]:
    """One value, one text again and again, noise, or none of these."""
    if not data.strip(data[:1]):
        return data[:1]
    return b"text" if period_of(data) else b"noise" if is_noise(data) else None


def blocks(data: bytes, begin: int, end: int) -> list[tuple[int, int]]:
    """The parts of a range of sectors that are one value, one text or noise, and the range itself."""
    found = {(begin, end): None}
    first, form = begin, form_of(data[begin : min(begin + SECTOR, end)])
    for at in range(begin + SECTOR, end + SECTOR, SECTOR):
        following = form_of(data[at : min(at + SECTOR, end)]) if at < end else b""
        if following != form:
            if form is not None:
                found[first, min(at, end)] = None
            first, form = at, following
    return list(found)
