"""Checks of frames whose two copies lost whole sectors to noise: jls-splice has too many finer parts to try."""
from __future__ import annotations

import random
from collections.abc import Iterator

from dicom_files import Bench, File, changed, frame
from jls_tools.frames.by_sectors import by_sectors, sectors_apart

Check = tuple[str, bool]
SIDE, SECTOR, BLOCK = 200, 512, 4096


def border(at: int) -> int:
    """The next border of sectors."""
    return -(-at // SECTOR) * SECTOR


def checks_of_frames_by_sectors(bench: Bench, folder: str, rng: random.Random) -> Iterator[Check]:
    """The file comes back where each sector stands in one copy, though the search over splices is cut off."""
    count = 0
    for _ in range(4):
        made = File([frame(rng, 12, SIDE, SIDE, folder)], 12, SIDE, SIDE, stored=16)
        first = border(made.items[0] + 100)
        one = changed(made.bytes, (first, rng.randbytes(BLOCK)))
        two = changed(made.bytes, (first + BLOCK + SECTOR, rng.randbytes(SECTOR)))
        status, out, printed, _, _ = bench.mend([one, two])
        count += "in each sector" in printed
        yield f"noise in sectors of both: the same file ({status}, {printed})", (status, out == made.bytes) == (0, True)
        status, out, printed, _, _ = bench.mend([one, made.bytes])
        count += "in each sector" in printed
        yield f"noise in sectors of one: the same file ({status}, {printed})", (status, out == made.bytes) == (0, True)
        flipped = changed(two, (first + 20, bytes([two[first + 20] ^ 1])))
        status, out, printed, _, _ = bench.mend([one, flipped])
        yield f"and a flipped bit in these: nothing false ({status}, {printed})", out in (None, made.bytes)
    yield f"the rule was asked {count} times", count > 0


def checks_of_sectors_apart(folder: str, rng: random.Random) -> Iterator[Check]:
    """Which two streams are taken sector by sector, by hand."""
    true = frame(rng, 12, 100, 100, folder)
    begin = 700
    at = border(begin + 100) - begin
    noise = changed(true, (at, bytes(byte ^ 0x5A for byte in true[at : at + SECTOR])))
    yield "a sector", sectors_apart(true, noise, begin) == [(at, at + SECTOR)]
    yield "another place of the file", sectors_apart(true, noise, begin + 100) is None
    yield "a byte elsewhere", sectors_apart(true, changed(noise, (at - 20, bytes([true[at - 20] ^ 1]))), begin) is None
    yield "another length", sectors_apart(true, noise[:-1], begin) is None
    yield "one reads", by_sectors([noise, true], begin, lambda stream: bool(stream == true)) == true
    yield "both read", by_sectors([noise, true], begin, lambda stream: True) is None
    yield "none reads", by_sectors([noise, true], begin, lambda stream: False) is None
    deep = [changed(stream, (6, b"\x10")) for stream in (noise, true)]
    yield "samples of 16 bits", by_sectors(deep, begin, lambda stream: bool(stream == deep[1])) is None


BY_SECTORS = [checks_of_frames_by_sectors, checks_of_sectors_apart]
