"""Two texts laid beside each other by a search that goes from one loss of either to the next."""
from __future__ import annotations

from collections.abc import Iterator
from typing import Optional

from jls_tools.dicom.axis.media import MOST_LOST

ANCHOR = 32  # so many bytes that are equal, and not all alike, show how two copies lie to each other
ANCHOR_KINDS = 8
STEPS = (0, 16, 48, 128, 256, 512, 768, 1024, 2048, 4096, 6144, 8192, 16384, 32768, 65536)
BLOCK = 1 << 16
WINDOW = 256
CLOSE = 16  # a place where both meet after so few bytes counts, whatever follows it
FURTHER = 384  # so many bytes show whether two copies go on alike
LEAST_GAIN = 8  # so many bytes of a window differ, at least, where bytes before it are lost
MOST_LOOKS = 256  # so often it is looked whether bytes are lost where most of what comes is equal
SHIFTED = 64  # so many bytes more are equal, at least, where copies of one length are taken to have lost bytes at different places


def equal_length(one: bytes, other: bytes, at: int, beside: int) -> int:
    """How many bytes are equal from here on."""
    begin, most = at, min(len(one) - at, len(other) - beside)
    done, size = 0, 64
    while done < most:
        size = min(size, most - done)
        left, right = one[begin + done : begin + done + size], other[beside + done : beside + done + size]
        if left != right:
            if size == 1:
                return done
            size = max(1, size // 2) if size > 64 else 1 if size <= 2 else size // 2
            continue
        done += size
        size = min(BLOCK, size * 2)
    return done


def same_way_on(one: bytes, other: bytes, at: int, beside: int) -> Optional[int]:
    """How far the next run of bytes that are equal at these offsets is, if most of what comes is equal; else nothing."""
    window = min(256, len(one) - at, len(other) - beside)
    left, right = one[at : at + window], other[beside : beside + window]
    equal = sum(a == b for a, b in zip(left, right))
    if equal * 2 < window or window < 16:
        return None
    for step in range(1, window):
        if left[step : step + 4] == right[step : step + 4]:
            return step
    return None


def anchor_at(data: bytes, at: int) -> Optional[bytes]:
    anchor = data[at : at + ANCHOR]
    return anchor if len(anchor) == ANCHOR and len(set(anchor)) >= ANCHOR_KINDS else None


def meet_again(one: bytes, other: bytes, at: int, beside: int) -> Optional[tuple[int, int]]:
    """The next offsets (in both) from which they are equal again, with bytes lost between or not; nothing if there are none.

    Of several from which both go on alike the nearest is taken, as what is lost may stand a second time further on. A nearer one counts
    where more is lost or damaged after it, if fewer bytes are lost and differ on the way through it.
    """
    alike: Optional[tuple[int, tuple[int, int]]] = None
    near: Optional[tuple[int, tuple[int, int]]] = None
    for step in STEPS:
        if alike is not None and alike[0] <= step or near is not None and near[0] <= CLOSE:
            break
        for meet in meetings(one, other, at, beside, step):
            found = max(meet[0] - at, meet[1] - beside), meet
            if go_on_alike(one, other, *meet):
                alike = min(found, alike or found)
            else:
                near = min(found, near or found)
    if alike is None or near is None:
        best = alike or near
        return best[1] if best is not None else None
    is_through = near < alike and is_shorter_through(one, other, (at, beside), near[1], alike[1])
    return near[1] if is_through else alike[1]


def is_shorter_through(one: bytes, other: bytes, begin: tuple[int, int], near: tuple[int, int], far: tuple[int, int]) -> bool:
    """Whether fewer bytes are lost and differ up to a place where both go on alike, by way of a nearer one where they meet."""
    (shift, apart), (last, until) = (shift_to(begin, near), shift_to(begin, far))
    behind = max(0, until - apart - equal_length(one, other, *near))
    return abs(shift) + abs(last - shift) + apart + behind < abs(last) + until


def shift_to(begin: tuple[int, int], meet: tuple[int, int]) -> tuple[int, int]:
    """How many bytes more one of two skips than the other up to a place, and how many both do."""
    one, other = meet[0] - begin[0], meet[1] - begin[1]
    return one - other, min(one, other)


def go_on_alike(one: bytes, other: bytes, at: int, beside: int) -> bool:
    """Whether most bytes are equal for long at these offsets: words stand a second time, but seldom so much."""
    left, right = one[at : at + FURTHER], other[beside : beside + FURTHER]
    return sum(a == b for a, b in zip(left, right)) * 4 >= 3 * max(len(left), len(right))


def meetings(one: bytes, other: bytes, at: int, beside: int, step: int) -> Iterator[tuple[int, int]]:
    """Where what stands so far on in one of both stands in the other one."""
    near, far = anchor_at(one, at + step), anchor_at(other, beside + step)
    if near is not None and near == far:
        yield back(one, other, at, beside, at + step, beside + step)
        return
    found = other.find(near, beside, beside + step + MOST_LOST) if near is not None else -1
    if found >= 0:
        yield back(one, other, at, beside, at + step, found)
    found = one.find(far, at, at + step + MOST_LOST) if far is not None else -1
    if found >= 0:
        yield back(one, other, at, beside, found, beside + step)


def lost_here(one: bytes, other: bytes, at: int, beside: int) -> Optional[tuple[int, int]]:
    """Where both go on after bytes that one of them lost: equal for long, and far less so at equal offsets; else nothing."""
    window = min(WINDOW, len(one) - at, len(other) - beside)
    apart = sum(a != b for a, b in zip(one[at : at + window], other[beside : beside + window]))
    meet = meet_again(one, other, at, beside) if apart >= LEAST_GAIN else None
    if meet is None or meet[0] - at == meet[1] - beside or min(meet[0] - at, meet[1] - beside) > 0:
        return None
    left, right = one[meet[0] : meet[0] + SHIFTED], other[meet[1] : meet[1] + SHIFTED]
    return meet if len(left) == len(right) == SHIFTED and left == right else None


def goes_to_end(one: bytes, other: bytes, at: int, beside: int, step: Optional[int]) -> Optional[tuple[int, int]]:
    """Where both go on after bytes that one lost, if all that follows in both is equal then, and less at equal offsets."""
    more = len(one) - at - (len(other) - beside)
    meet = at + max(0, more), beside + max(0, -more)
    size = equal_length(one, other, *meet) if more else 0
    own = 0 if step is None else step + equal_length(one, other, at + step, beside + step)
    return meet if size > own and size >= SHIFTED and size == len(one) - meet[0] else None


def back(one: bytes, other: bytes, at: int, beside: int, meet: int, meets: int) -> tuple[int, int]:
    """The first of the equal bytes before a place where both are equal."""
    while meet > at and meets > beside and one[meet - 1] == other[meets - 1]:
        meet, meets = meet - 1, meets - 1
    return meet, meets


def pieces(one: bytes, other: bytes, is_free: bool = False) -> Iterator[tuple[int, int]]:
    """(bytes of one, bytes of the other) in turn: as many of both, or none of one.

    Where as many bytes follow in both, they are taken by offset, unless the way is free.
    """
    at = beside = looks = 0
    while at < len(one) and beside < len(other):
        count = equal_length(one, other, at, beside)
        if count == 0 and (is_free or len(one) - at != len(other) - beside):
            step = same_way_on(one, other, at, beside)
            looks += step is not None
            meet = goes_to_end(one, other, at, beside, step)
            if meet is None and step is not None and looks < MOST_LOOKS:
                meet = lost_here(one, other, at, beside)
            if step is None or meet is not None:
                meet = meet or meet_again(one, other, at, beside)
                if meet is not None:
                    both = min(meet[0] - at, meet[1] - beside)
                    yield both, both
                    yield meet[0] - at - both, meet[1] - beside - both
                    at, beside = meet
                    continue
                step = min(len(one) - at, len(other) - beside)
            count = step
        elif count == 0:
            count = len(one) - at
        yield count, count
        at, beside = at + count, beside + count
    yield len(one) - at, 0
    yield 0, len(other) - beside
