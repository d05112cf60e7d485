"""Where texts of one length differ."""
from __future__ import annotations

import re
from collections.abc import Iterable, Sequence
from typing import Optional

Range = tuple[int, int]
BLOCK = 1 << 16
NOT_ZERO = re.compile(rb"[^\0]+")


def size_of(ranges: Iterable[tuple[int, int]]) -> int:
    return sum(end - begin for begin, end in ranges)


def are_exchanged(own: bytes, other: bytes) -> bool:
    """Whether some bytes are others with those of each pair exchanged, as a wrong order of bytes makes them."""
    return own != other and len(own) % 2 == 0 and own[::2] == other[1::2] and own[1::2] == other[::2]


def differing(texts: Sequence[bytes], begin: int = 0, end: Optional[int] = None) -> list[tuple[int, int]]:
    """The ranges, of one byte or more, in which texts of one length differ. Each byte in them differs."""
    end = len(texts[0]) if end is None else end
    found: list[tuple[int, int]] = []
    for at in range(begin, end, BLOCK):
        blocks = [text[at : min(end, at + BLOCK)] for text in texts]
        if all(block == blocks[0] for block in blocks[1:]):
            continue
        base = int.from_bytes(blocks[0], "big")
        mask = 0
        for block in blocks[1:]:
            mask |= base ^ int.from_bytes(block, "big")
        for run in NOT_ZERO.finditer(mask.to_bytes(len(blocks[0]), "big")):
            if found and found[-1][1] == at + run.start():
                found[-1] = (found[-1][0], at + run.end())
            else:
                found.append((at + run.start(), at + run.end()))
    return found
