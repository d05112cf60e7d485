"""Where bytes of a file are bad, in few cells from its begin to its end. A cell is a digit: 0 where all of it is well, 9 where none is.

Of copies that differ, bytes are bad where these do. Of equal ones they are what `jls-salvage check` could not decode. Where lines of a scan
by sample are missing, they are all of its data, or those from the offset on up to which jls-splice says that one prefix fits.
"""
from __future__ import annotations

import re
from typing import Iterable, Iterator, List, Mapping, Sequence, Tuple

from jls_tools.frames.by_sample import scan_of

CELLS = 64
LARGEST = 1 << 25  # bytes: of larger files nothing is said
NEXT_MARKER = re.compile(rb"\xff[\x80-\xfe]", re.S)
PIECE = re.compile(r"piece \d+ \d+ (\d+) ")
END = re.compile(r"end (?:input|fault \d+(?: at)?) (\d+)")
BEFORE = re.compile(r"before (\d+)")  # of jls-splice, which prints no line on a piece
Range = Tuple[int, int]


def apart(one: bytes, other: bytes) -> int:
    """How many bytes of two differ; those that only one has do."""
    size = min(len(one), len(other))
    mask = int.from_bytes(one[:size], "big") ^ int.from_bytes(other[:size], "big")
    return size - mask.to_bytes(size, "big").count(0) + max(len(one), len(other)) - size


def cells_of(size: int) -> Iterator[Range]:
    count = min(CELLS, size)
    return ((at * size // count, (at + 1) * size // count) for at in range(count))


def digit(bad: int, size: int) -> str:
    return str(-(-9 * min(bad, size) // size))


def of_copies(texts: Sequence[bytes]) -> str:
    """Where copies differ from the first one."""
    size = max(map(len, texts), default=0)
    if len(texts) < 2 or size > LARGEST:
        return ""
    found = []
    for begin, end in cells_of(size):
        own = [text[begin:end] for text in texts]
        found.append(digit(max(apart(own[0], each) for each in own[1:]), end - begin))
    return "".join(found)


def of_edits(differs: Mapping[int, Sequence[Tuple[int, int, int]]], sizes: Sequence[int]) -> str:
    """Where any of several copies has other bytes than the mended file of its coding: (offset, length, new length) by copy, from 1 on."""
    lists = ([(offset, offset + max(1, length)) for offset, length, _ in differs.get(at, ())] for at in range(1, len(sizes) + 1))
    cells = [of_ranges(ranges, size) for ranges, size in zip(lists, sizes)]
    return "".join(map(max, zip(*cells)))


def of_ranges(ranges: Iterable[Range], size: int) -> str:
    """The same for ranges of a file."""
    if not size or size > LARGEST:
        return ""
    found = list(ranges)
    bad = (sum(max(0, min(end, last) - max(begin, first)) for first, last in found) for begin, end in cells_of(size))
    return "".join(digit(count, end - begin) for count, (begin, end) in zip(bad, cells_of(size)))


def ranges_in(stream: bytes, lines: Sequence[str], begin: int = 0) -> List[Range]:
    """What `check` said of a codestream that stands at `begin` of a file: each piece that is none, and what it did not come to."""
    found = []
    for line in lines:
        piece, end = PIECE.match(line), END.match(line)
        if piece:
            at = int(piece.group(1))
            marker = NEXT_MARKER.search(stream, at)
            found.append((begin + at, begin + (marker.start() if marker else len(stream))))
        elif end:
            found.append((begin + int(end.group(1)), begin + len(stream)))
    return found or range_by_sample(stream, lines, begin)


def range_by_sample(stream: bytes, lines: Sequence[str], begin: int) -> List[Range]:
    """The same of a scan by sample, where jls-splice said it: it names no piece."""
    scan = scan_of(stream)
    if not scan or not any(line.startswith("missing ") for line in lines):
        return []
    before = next(filter(None, map(BEFORE.match, lines)), None)
    return [(begin + (int(before.group(1)) if before else scan.end()), begin + len(stream))]
