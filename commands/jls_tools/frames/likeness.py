"""Whether two streams are of one frame: what they have in common after their headers."""
from __future__ import annotations

import re
from collections.abc import Iterator

from jls_tools.frames.codestream import HEADERS

# A frame is known by what stands after its headers
FEWEST_HEADERS, LEAST_SHARED, LEAST_SPLICED = 64, 128, 16
SOI = b"\xff\xd8\xff"  # and the first byte of the next marker
SAME_RUN, SAME_KINDS, REST_KINDS = re.compile(rb"\0{8,}"), 6, 24
ZERO_RUN = re.compile(rb"\0{8,}")
EQUAL_RUN = re.compile(rb"\0{4,}")


def equal_bytes(one: bytes, other: bytes) -> int:
    """How many bytes of two streams are equal at equal offsets."""
    size = min(len(one), len(other))
    apart = int.from_bytes(one[:size], "big") ^ int.from_bytes(other[:size], "big")
    return apart.to_bytes(size, "big").count(0)


def is_zeros(stream: bytes, other: bytes) -> bool:
    """Whether a stream is zeros wherever it differs from the other one, nearly."""
    size = min(len(stream), len(other))
    apart = [one for one, two in zip(stream[:size], other[:size]) if one != two]
    return len(apart) == 0 or apart.count(0) * 10 >= len(apart) * 9


def shares_little(stream: bytes, other: bytes) -> bool:
    """Whether another copy has a codestream at this place with less than half of these bytes.

    What is zeros wherever it differs is none, nor is what does not begin as a codestream: it is no frame, but damage. So is one that has
    a stretch of the same codestream.
    """
    if other[:3] != SOI or equal_bytes(stream, other) * 2 >= min(len(stream), len(other)):
        return False
    return not is_zeros(other, stream) and not shares_stretch(stream, other)


def equal_stretches(one: bytes, other: bytes) -> Iterator[tuple[int, bytes]]:
    """(begin, bytes) of what two streams have in common after their headers, eight bytes or more each."""
    begin, end = max(behind_headers(one) or FEWEST_HEADERS, behind_headers(other)), min(len(one), len(other))
    apart = int.from_bytes(one[begin:end], "big") ^ int.from_bytes(other[begin:end], "big")
    for run in SAME_RUN.finditer(apart.to_bytes(max(0, end - begin), "big")):
        yield begin + run.start(), one[begin + run.start() : begin + run.end()]


def shares_stretch(one: bytes, other: bytes) -> bool:
    """Whether two streams have a stretch in common after their headers that codes no even area."""
    return any(len(set(stretch)) >= SAME_KINDS for _, stretch in equal_stretches(one, other))


def shares_rest(one: bytes, other: bytes) -> bool:
    """Whether two streams of one length have a long stretch in common after a place where they differ: of two pictures none have."""
    if len(one) != len(other):
        return False
    differ = next((at for at, (left, right) in enumerate(zip(one, other)) if left != right), len(one))
    return any(begin > differ and len(set(stretch)) >= REST_KINDS for begin, stretch in equal_stretches(one, other))


def behind_headers(stream: bytes) -> int:
    """Where the first scan begins; 0 if no header of one stands near the beginning."""
    at = stream.find(b"\xff\xda", 0, HEADERS)
    return at + 2 + int.from_bytes(stream[at + 2 : at + 4], "big") if at >= 0 else 0


def without_zeros(stream: bytes) -> int:
    """How many bytes stand outside of long runs of zeros, which may be damage."""
    return len(ZERO_RUN.sub(b"", stream))


def is_connected(one: bytes, other: bytes) -> bool:
    """Whether two streams at one place are of one picture: most bytes after their headers are equal, or their ends, and these are many."""
    left, right = one[FEWEST_HEADERS:], other[FEWEST_HEADERS:]
    apart = int.from_bytes(left[: len(right)], "big") ^ int.from_bytes(right[: len(left)], "big")
    mask = apart.to_bytes(min(len(left), len(right)), "big")
    equal = sum(without_zeros(left[run.start() : run.end()]) for run in EQUAL_RUN.finditer(mask))
    least = min(without_zeros(left), without_zeros(right))
    return one == other or (equal >= LEAST_SHARED and equal * 2 >= least) or shares_rest(one, other)


def is_spliced(stream: bytes, one: bytes, other: bytes) -> bool:
    """Whether a mended stream has bytes of each of two copies that the other has not."""
    if not len(stream) == len(one) == len(other):
        return False
    triples = [(own, left, right) for own, left, right in zip(stream, one, other) if left != right]
    of_one, of_other = (sum(triple[0] == triple[at] for triple in triples) for at in (1, 2))
    return of_one >= LEAST_SPLICED and of_other >= LEAST_SPLICED
