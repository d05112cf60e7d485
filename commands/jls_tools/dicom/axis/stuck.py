"""A bit of a copy that is stuck: it has one value in each 64th byte of a page, as where a line of a bus or a cell of memory fails.

There the other copies differ from it in this bit alone. And it is odd for a lane to have one value of a bit, where the other lanes of its
page have both, or the other one. But a file can have records, with such a lane in each. Then another lane of the page is as odd, this one
is so in the page before or after, or the other copy has the bit there more often than in the page. And one stretch of a lane in which the
other copy differs can be damage of that copy.

Where no other copy has a byte of such a lane, as they lost it, the bit hides what the file has.
"""
from __future__ import annotations

import math
from collections import Counter
from collections.abc import Iterable, Iterator, Mapping, Sequence
from dataclasses import replace
from typing import Optional

from jls_tools.dicom.axis.align import Copy
from jls_tools.dicom.axis.bad_places import Range
from jls_tools.dicom.axis.media import SECTOR

PAGE, LANE = 4096, 64
LEAST = 4  # bytes of a lane that differ, at least: fewer cost no more as flipped bits, each for itself
LEAST_KINDS = 8  # so many different bytes, at least, has a lane without its bit: else its bit can be so in the file
MARGIN = 20.0  # bits: a lane is so odd by chance in one of a million
BY_CHANCE = 1.0  # bits: a lane that has one value alone is at most so odd, as one in two are, where that is usual in its page
MOST_APART = 10.0  # bits: that of the other copy has the bit so often as its page, as all but one in a thousand have
MOST_LANES = 2  # of a page: where more look so, it is damage of another kind


def unstuck(copies: Sequence[Copy], named: Optional[str] = None) -> list[Copy]:
    """The copies on one axis, with what the others have where a bit of one is stuck, but for one that is named."""
    found = list(copies)
    for number, copy in ((at, copy) for at, copy in enumerate(copies) if copy.path != named):
        others = [other for at, other in enumerate(copies) if at != number]
        pages: dict[int, int] = {}
        bits: dict[int, int] = {}
        hidden: dict[int, int] = {}
        for begin, ranges in pages_of(copy):
            places = {place: bit for place, bit in places_stuck(copy, others, ranges) if place not in bits}
            if places:
                for place, bit in unsaid(copy, others, ranges, places):
                    is_shown = any(has_byte(other, place, copy.data[place] ^ bit) for other in others)
                    (places if is_shown else hidden)[place] = bit
                pages[begin] = pages.get(begin, 0) + len(places)
                bits.update(places)
        if pages:
            data = with_bits(copy.data, bits.items())
            found[number] = replace(copy, data=data, stuck=[*copy.stuck, *sorted(pages.items())], hidden=sorted(hidden.items()))
    return found


def with_bits(data: bytes, bits: Iterable[tuple[int, int]]) -> bytes:
    """Bytes with each of these bits turned: (place, bit)."""
    changed = bytearray(data)
    for place, bit in bits:
        changed[place] ^= bit
    return bytes(changed)


def unsaid(copy: Copy, others: Sequence[Copy], ranges: Sequence[Range], stuck: Mapping[int, int]) -> list[tuple[int, int]]:
    """[(place, bit)] of further bytes of stuck lanes that no other copy has: each can be so, or have the other bit.

    `stuck` are the bytes of the page of which another copy shows that they are changed.
    """
    places = [at for part in ranges for at in range(*part)]
    lanes = {(number % LANE, stuck[place]) for number, place in enumerate(places) if place in stuck}
    found = ((place, bit) for lane, bit in sorted(lanes) for place in places[lane::LANE] if place not in stuck)
    own = ((place, bit) for place, bit in found if not copy.lacks(place, place + 1))
    return [(place, bit) for place, bit in own if not any(has_byte(other, place, copy.data[place]) for other in others)]


def has_byte(copy: Copy, place: int, value: int) -> bool:
    """Whether a copy itself has this byte at a place."""
    return copy.data[place] == value and not copy.lacks(place, place + 1)


def without_hidden(copies: Sequence[Copy], texts: Sequence[bytes]) -> list[bytes]:
    """The bytes of each copy, with the sectors of another one where a stuck bit hides in it what they lost."""
    found = [bytearray(text) for text in texts]
    for number, copy in enumerate(copies):
        for border in {place // SECTOR * SECTOR for place, _ in copy.hidden}:
            for other in (other for at, other in enumerate(found) if at != number):
                other[border : border + SECTOR] = texts[number][border : border + SECTOR]
    return [bytes(text) for text in found]


def pages_of(copy: Copy) -> Iterator[tuple[int, list[Range]]]:
    """The pages of a copy: where each begins in it, and its ranges on the axis, several if a loss is in it.

    They are counted from its own beginning, and from that of the file too: it can have lost bytes after a bit was stuck. Then what is
    before a loss and what is behind it count each by itself.
    """
    pages: dict[int, list[Range]] = {}
    parts = parts_of(copy)
    for own, first, last in parts:
        for begin in range(own - own % PAGE, own + last - first, PAGE):
            at = first + begin - own
            pages.setdefault(begin, []).append((max(first, at), min(last, at + PAGE)))
    yield from pages.items()
    known = {ranges[0] for ranges in pages.values() if len(ranges) == 1}
    for own, first, last in parts:
        for at in range(first - first % PAGE, last, PAGE):
            part = max(first, at), min(last, at + PAGE)
            if part not in known:
                yield own + part[0] - first, [part]


def parts_of(copy: Copy) -> list[tuple[int, int, int]]:
    """What a copy has between its losses: (where it begins in the copy, where it begins and ends on the axis)."""
    borders = [0, *(place for pair in copy.absent for place in pair), len(copy.data)]
    own, found = len(copy.foreign), []
    for first, last in zip(borders[::2], borders[1::2]):
        found.append((own, first, last))
        own += last - first
    return found


def places_stuck(copy: Copy, others: Sequence[Copy], ranges: Sequence[Range]) -> list[tuple[int, int]]:
    """[(place, bit)] of the bytes of a page that a stuck bit has changed, as another copy shows and no third one denies."""
    for other in others:
        own, model = (b"".join(each.data[first:last] for first, last in ranges) for each in (copy, other))
        if own == model:
            continue
        bits = {lane: bit_of(own, model, lane) for lane in range(min(LANE, len(own)))}
        lanes = [(lane, bit) for lane, bit in bits.items() if bit is not None]
        places = [at for part in ranges for at in range(*part)]
        found = [(places[at], bit) for lane, bit in lanes for at in range(lane, len(own), LANE) if model[at] == own[at] ^ bit]
        is_denied = any(third.data[at] == copy.data[at] and not third.lacks(at, at + 1) for at, _ in found for third in others)
        if 0 < len(lanes) <= MOST_LANES and not is_denied and not has_records(copy.data, own, model, ranges, lanes):
            return found
    return []


def bit_of(page: bytes, model: bytes, lane: int) -> Optional[int]:
    """The bit that is stuck in a lane of a page, if the page of another copy shows that."""
    own, beside = page[lane::LANE], model[lane::LANE]
    if own == beside:
        return None
    bit, count = Counter(one ^ two for one, two in zip(own, beside) if one != two).most_common(1)[0]
    if count < LEAST or bit & (bit - 1) or len({byte & ~bit for byte in own}) < LEAST_KINDS or is_stretch(own, beside, bit):
        return None
    return bit if oddness(page, lane, bit) >= MARGIN and is_usual(model, lane, bit) else None


def oddness(page: bytes, lane: int, bit: int) -> float:
    """By how many bits it is odd that a lane has one value of a bit alone, from how often the other lanes of its page have it."""
    own = page[lane::LANE]
    if len({byte & bit for byte in own}) != 1:
        return 0.0
    alike = sum(byte & bit == own[0] & bit for at, byte in enumerate(page) if at % LANE != lane)
    return len(own) * math.log2((len(page) - len(own) + 1) / (alike + 1))


def is_usual(page: bytes, lane: int, bit: int) -> bool:
    """Whether a lane has a bit about as often as the other lanes of its page."""
    own, count = page[lane::LANE], sum(byte & bit > 0 for byte in page)
    ones = sum(byte & bit > 0 for byte in own)
    found, share = ones / len(own), (count - ones + 1) / (len(page) - len(own) + 2)
    apart = sum(part * math.log2(part / usual) for part, usual in ((found, share), (1 - found, 1 - share)) if part)
    return len(own) * apart < (BY_CHANCE if ones in (0, len(own)) else MOST_APART)


def is_stretch(own: bytes, beside: bytes, bit: int) -> bool:
    """Whether the places of a lane that differ in a bit follow each other, and others don't: one damage of the other copy does that."""
    apart = [one ^ two == bit for one, two in zip(own, beside)]
    begin, count = apart.index(True), sum(apart)
    return count < len(apart) and all(apart[begin : begin + count])


def has_records(data: bytes, own: bytes, model: bytes, parts: Sequence[Range], lanes: Sequence[tuple[int, int]]) -> bool:
    """Whether a bit has one value in lanes of the file itself: in another lane of the page, or in these in the page before or after."""
    others = (lane for lane in range(min(LANE, len(own))) if own[lane::LANE] == model[lane::LANE])
    if any(oddness(own, lane, 1 << bit) >= MARGIN for lane in others for bit in range(8)):
        return True
    first, last = parts[0][0], parts[-1][1]
    begin = max(0, first - PAGE)
    for page, shift in ((data[begin:first], first - begin), (data[last : last + PAGE], -len(own))):
        if any(oddness(page, (lane + shift) % LANE, bit) >= MARGIN for lane, bit in lanes):
            return True
    return False
