"""Copies on one axis: each byte of the file has one offset, whatever a copy lost before it.

A byte that a copy has not (it is cut, or lost bytes) is taken from another copy that has it; `absent` says where that was done. So all
copies have one length then, and where they differ each has a byte of its own.
"""
from __future__ import annotations

import re
from collections.abc import Collection, Iterable, Sequence
from dataclasses import dataclass, field, replace
from typing import Optional

from jls_tools.dicom.axis.apart import differing, size_of
from jls_tools.dicom.axis.chains import Chain
from jls_tools.dicom.axis.one_loss import BYTE, PLACE, both_places_of, cost_of, place_of
from jls_tools.dicom.axis.pieces import SHIFTED, pieces
from jls_tools.dicom.axis.sectors import is_noise

SHARE_APART = 64  # fewer than one in so many bytes differ where copies of one length were damaged in place
SLIDE = 4096  # so far a loss can be moved
MOST_SLID = 16  # losses of a copy
LONG_WAY = 16  # a loss that can be moved so far is not clear
PRINTABLE = re.compile(rb"[\x20-\x7e]+\Z")
LEAST_FEWER = 2  # so many bytes fewer differ, at least, where a loss is moved: one can be a flipped bit
Gaps = tuple[list[tuple[int, int, int]], list[tuple[int, int, int]]]  # what each of two lacks of the other, as insert_gaps takes it


@dataclass
class Copy:
    """A copy on the axis. `absent` are the ranges of the axis that it has not; `foreign` is what was written over its beginning.

    `bad` are ranges that a list names as bad, and `seen` those that look so: of the copy itself, and on the axis once they are `placed`.
    `recoded` are those of `absent` that the copy has in another coding: there it lost nothing. `stuck` are its pages in which a bit is
    stuck: where each begins in the copy, and how many bytes are taken from others. `hidden` are (place, bit) of these pages where no other
    copy has the byte: the bit can be the other one.
    """

    path: str
    data: bytes
    absent: list[tuple[int, int]] = field(default_factory=list)
    foreign: bytes = b""
    bad: Sequence[tuple[int, int]] = ()
    seen: Sequence[tuple[int, int]] = ()
    recoded: Sequence[tuple[int, int]] = ()
    stuck: Sequence[tuple[int, int]] = ()
    hidden: Sequence[tuple[int, int]] = ()

    @property
    def lost(self) -> list[tuple[int, int]]:
        """What it has in no coding."""
        found = list(self.absent)
        for begin, end in self.recoded:
            parts = (part for first, last in found for part in ((first, min(last, begin)), (max(first, end), last)))
            found = [part for part in parts if part[0] < part[1]]
        return found

    def lacks(self, begin: int, end: int) -> bool:
        return any(first < end and begin < last for first, last in self.absent)

    def has_only(self, begin: int, end: int) -> bytes:
        """The bytes of a range that it has itself."""
        parts, at = [], begin
        for first, last in self.absent:
            if first < end and at < last:
                parts.append(self.data[at : max(at, min(first, end))])
                at = max(at, min(last, end))
        return b"".join(parts) + self.data[at:end]


def insert_gaps(copy: Copy, gaps: Collection[tuple[int, int, int]], source: bytes) -> Copy:
    """Puts bytes into a copy that it has not: `gaps` are (its offset, count, offset in the source)."""
    parts, absent, at, shift = [], [], 0, 0
    for offset, count, place in gaps:
        parts += [copy.data[at:offset], source[place : place + count]]
        absent.append((offset + shift, offset + shift + count))
        shift, at = shift + count, offset
    parts.append(copy.data[at:])
    absent += moved_by(copy.absent, gaps)
    return replace(copy, data=b"".join(parts), absent=merged(absent), recoded=moved_by(copy.recoded, gaps))


def moved_by(ranges: Iterable[tuple[int, int]], gaps: Collection[tuple[int, int, int]]) -> list[tuple[int, int]]:
    """Where ranges stand when gaps are put in. One with a gap inside gets longer."""
    found = []
    for begin, end in ranges:
        before = sum(count for offset, count, _ in gaps if offset <= begin)
        inside = sum(count for offset, count, _ in gaps if begin < offset < end)
        found.append((begin + before, end + before + inside))
    return found


def merged(ranges: Iterable[tuple[int, int]]) -> list[tuple[int, int]]:
    found: list[tuple[int, int]] = []
    for begin, end in sorted(ranges):
        if found and found[-1][1] >= begin:
            found[-1] = (found[-1][0], max(found[-1][1], end))
        else:
            found.append((begin, end))
    return found


def gaps_of(parts: Iterable[tuple[int, int]]) -> Gaps:
    """What each of two lacks of the other: for each a list as insert_gaps takes it. `parts` are as `pieces` gives them."""
    at = beside = 0
    in_one, in_other = [], []
    for count, counts in parts:
        if count > counts:
            in_other.append((beside, count, at))
        elif counts > count:
            in_one.append((at, counts, beside))
        at, beside = at + count, beside + counts
    return in_one, in_other


def aligned(one: bytes, other: bytes, are_shifted: bool) -> Gaps:
    """(gaps in one, gaps in the other). Those of one length are taken by offset, unless they have far more in common when shifted."""
    if len(one) != len(other):
        return cheaper(one, other, gaps_of(pieces(one, other)))
    apart = size_of(differing([one, other]))
    if apart < SHIFTED or not are_shifted and apart * SHARE_APART < len(one):
        return [], []
    gaps = cheapest(one, other, gaps_of(pieces(one, other, True)), gap_of_each(one, other))
    left, right = laid(one, other, gaps)
    absent, left_apart = size_of(left.absent) + size_of(right.absent), size_of(differing([left.data, right.data]))
    if are_shifted and len(gaps[0]) == len(gaps[1]) == 1:
        return gaps if in_common(one, other, gaps) - (len(one) - apart) >= SHIFTED else ([], [])
    return gaps if (left_apart + absent) * 2 < apart else ([], [])


def laid(one: bytes, other: bytes, gaps: Gaps) -> tuple[Copy, Copy]:
    """Two texts on one axis."""
    return insert_gaps(Copy("", one), gaps[0], other), insert_gaps(Copy("", other), gaps[1], one)


def cheaper(one: bytes, other: bytes, gaps: Gaps) -> Gaps:
    """These gaps of two texts of different lengths, or the one gap of the shorter, if less damage explains them then."""
    if len(gaps[0]) + len(gaps[1]) < 2:
        return gaps
    count = abs(len(one) - len(other))
    at = place_of(*sorted((one, other), key=len))
    return cheapest(one, other, gaps, ([], [(at, count, at)]) if len(one) > len(other) else ([(at, count, at)], []))


def gap_of_each(one: bytes, other: bytes) -> Optional[Gaps]:
    """One gap of each of two texts of one length, as where one has bytes more in one place, and the other as many in another."""
    found = both_places_of(one, other)
    if found is None:
        return None
    first, last, count = found
    if count > 0:
        return [(last, count, last - count)], [(first, count, first)]
    return [(first, -count, first)], [(last, -count, last + count)]


def cheapest(one: bytes, other: bytes, *ways: Optional[Gaps]) -> Gaps:
    """The gaps of two texts with which least damage explains them."""
    return min((gaps for gaps in ways if gaps is not None), key=lambda gaps: cost_of_gaps(one, other, gaps))


def cost_of_gaps(one: bytes, other: bytes, gaps: Gaps) -> float:
    """How many bits say in what two texts with these gaps differ."""
    left, right = laid(one, other, gaps)
    return cost_of(left.data, right.data, left.absent + right.absent)


def gaps_of_chain(one: bytes, other: bytes) -> Gaps:
    """The gaps of two texts by the runs of bytes that stand in both; as `aligned` lays them if there are none."""
    parts = list(Chain(one, other).parts())
    return gaps_of(parts) if parts else aligned(one, other, True)


def by_chains(copies: Sequence[Copy]) -> list[Copy]:
    """All copies on one axis by the runs of bytes that they share. Each is laid beside the one with which it has most in common."""
    order = sorted(range(len(copies)), key=lambda index: -len(copies[index].data))
    placed = {order[0]: copies[order[0]]}
    for index in order[1:]:
        text = copies[index].data
        ways = [(each.data, gaps_of_chain(each.data, text)) for each in placed.values()]
        base, (in_base, in_copy) = max(ways, key=lambda way: in_common(way[0], text, way[1]))
        placed = {key: insert_gaps(copy, in_base, text) for key, copy in placed.items()}
        placed[index] = insert_gaps(copies[index], in_copy, base)
    return in_same_places([placed[index] for index in range(len(copies))])


def in_common(one: bytes, other: bytes, gaps: Gaps) -> int:
    """How many bytes of two texts with these gaps are equal."""
    left, right = laid(one, other, gaps)
    return len(left.data) - size_of(left.absent) - size_of(right.absent) - size_of(differing([left.data, right.data]))


def in_same_places(copies: Sequence[Copy]) -> list[Copy]:
    """The copies with a loss where another copy lost as many bytes, if hardly more bytes differ then.

    There one more event says nothing, and costs more than some bytes do: in a sector of noise as many are equal by chance.
    """
    found = list(copies)
    for number in range(len(copies)):
        others = found[:number] + found[number + 1 :]
        saved = PLACE // BYTE * len(others)
        for loss in found[number].lost:
            parts = {part for other in others for part in other.lost if part[1] - part[0] == loss[1] - loss[0]}
            ways = [with_loss_at(found[number], loss, part, others) for part in sorted(parts - set(found[number].absent))]
            best = min(ways, key=lambda way: apart_from(way, others), default=found[number])
            if apart_from(best, others) <= apart_from(found[number], others) + saved:
                found[number] = best
    return found


def with_loss_at(copy: Copy, loss: tuple[int, int], part: tuple[int, int], others: Sequence[Copy]) -> Copy:
    """A copy that lacks another range in place of a loss of as many bytes; what it lacks is taken from a copy that has it."""
    owner = next((other for other in others if not other.lacks(*part)), others[0])
    rest = copy.data[: loss[0]] + copy.data[loss[1] :]
    data = rest[: part[0]] + owner.data[slice(*part)] + rest[part[0] :]
    kept = [each for each in copy.absent if each != loss]
    return replace(copy, data=data, absent=merged([*kept, part]))


def apart_from(copy: Copy, others: Sequence[Copy]) -> int:
    """How many bytes of a copy and each of others differ."""
    return sum(size_of(differing([copy.data, other.data])) for other in others)


def on_one_axis(copies: Sequence[Copy], are_shifted: bool = False) -> list[Copy]:
    """All copies on one axis, which the longest copy begins. `are_shifted`: two of one length may have lost bytes at different places."""
    order = sorted(range(len(copies)), key=lambda index: -len(copies[index].data))
    placed = {order[0]: copies[order[0]]}
    for index in order[1:]:
        base = placed[order[0]]
        in_base, in_copy = aligned(base.data, copies[index].data, are_shifted)
        before = base.data
        if in_base:
            source = copies[index].data
            placed = {key: insert_gaps(copy, in_base, source) for key, copy in placed.items()}
        placed[index] = insert_gaps(copies[index], in_copy, before)
    return slid([placed[index] for index in range(len(copies))])


def slid(copies: Sequence[Copy]) -> list[Copy]:
    """The copies with each loss where they differ least: where bytes repeat, it can have been found too early, too late, or in parts."""
    found = list(copies)
    for number, copy in enumerate(copies):
        if len(copy.absent) > MOST_SLID:
            continue
        for gaps in near_each_other(copy.lost) + [[gap] for gap in copy.lost]:
            others = found[:number] + found[number + 1 :]
            changed = (in_one_place(found[number], other, gaps) for other in others if set(gaps) <= set(found[number].absent))
            found[number] = next((each for each in changed if each), found[number])
    return found


def near_each_other(gaps: Iterable[tuple[int, int]]) -> list[list[tuple[int, int]]]:
    """Lists of two losses and more, each near the one before."""
    found: list[list[tuple[int, int]]] = []
    for gap in gaps:
        if found and gap[0] - found[-1][-1][1] < SLIDE:
            found[-1].append(gap)
        else:
            found.append([gap])
    return [near for near in found if len(near) > 1]


def in_one_place(copy: Copy, other: Copy, gaps: Sequence[tuple[int, int]]) -> Optional[Copy]:
    """A copy with these losses in one place near them, filled from another copy, if far fewer bytes differ so; else nothing."""
    begin, end = gaps[0][0], gaps[-1][1]
    if begin == 0 or end == len(copy.data):
        return None
    borders = [place for each in (copy, other) for pair in each.absent if pair not in gaps for place in pair]
    first = max([begin - SLIDE, 0] + [place for place in borders if place <= begin])
    last = min([end + SLIDE, len(copy.data)] + [place for place in borders if place >= end])
    if other.lacks(first, last) or any(begin < place < end for place in borders):
        return None
    own, whole = copy.has_only(first, last), other.data[first:last]
    count, at = fewest(own, whole)
    if count + LEAST_FEWER > apart_itself(copy, whole, first):
        return None
    gap = (first + at, first + at + len(whole) - len(own))
    data = copy.data[:first] + own[:at] + other.data[slice(*gap)] + own[at:] + copy.data[last:]
    return replace(copy, data=data, absent=merged([pair for pair in copy.absent if pair not in gaps] + [gap]))


def apart_itself(copy: Copy, other: bytes, begin: int) -> int:
    """How many of a copy's own bytes differ from others, which stand from a place on."""
    end = begin + len(other)
    absent = ((max(begin, first), min(end, last)) for first, last in copy.absent)
    inside = [(first, last) for first, last in absent if first < last]
    parts = [(begin, end), *inside]
    whole, *counts = (sum(one != two for one, two in zip(copy.data[first:last], other[first - begin :])) for first, last in parts)
    return whole - sum(counts)


def fewest(own: bytes, whole: bytes) -> tuple[int, int]:
    """(how many bytes differ, where) if what some bytes lack of others stands in the one place where fewest differ."""
    lost = len(whole) - len(own)
    best = count = sum(one != two for one, two in zip(own, whole[lost:]))
    place = 0
    for at, byte in enumerate(own):
        count += (byte != whole[at]) - (byte != whole[at + lost])
        if count < best:
            best, place = count, at + 1
    return best, place


def may_stand_elsewhere(copy: Copy, other: Copy, gap: tuple[int, int]) -> bool:
    """Whether a loss can stand farther away where a few bytes more differ, which damage of the other copy can have made."""
    begin, end = gap
    if begin == 0 or end == len(copy.data):
        return False
    first, last = max(0, begin - SLIDE), min(len(copy.data), end + SLIDE)
    sides = (
        (copy.data[first:begin][::-1], other.data[first + end - begin : end][::-1]),
        (copy.data[end:last], other.data[begin : last - end + begin]),
    )
    return any(may_be_damage(own, beside, end - begin) for own, beside in sides)


def may_be_damage(own: bytes, other: bytes, size: int) -> bool:
    """Whether of two texts nothing differs for long but one bit, noise, or a few bytes that are no printable text."""
    apart = [at for at, (one, two) in enumerate(zip(own, other)) if one != two]
    if not apart:
        return False
    near = [at for at in apart if at < apart[0] + size]
    until = apart[len(near)] if len(near) < len(apart) else min(len(own), len(other))
    if until - near[-1] <= LONG_WAY:
        return False
    patch = other[near[0] : near[-1] + 1]
    if len(patch) >= LONG_WAY:
        return is_noise(patch)
    is_bit = len(near) == 1 and bin(own[near[0]] ^ other[near[0]]).count("1") == 1
    return is_bit or not PRINTABLE.match(patch)
