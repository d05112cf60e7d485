"""Damages copies of a DICOM file as disks, tapes and transfers do, and keeps which bytes of the file are still true in a copy."""
from __future__ import annotations

import random
import re
from typing import Optional

ITEM = b"\xfe\xff\x00\xe0"
PIXEL_DATA = re.compile(rb"\xe0\x7f\x10\x00O[BW]\x00\x00\xff\xff\xff\xff")
KINDS = [
    *("sectors 512 zeroed", "sectors 512 other data", "sectors 512 of another file"),
    *("sectors 4096 zeroed", "sectors 4096 other data", "sectors 4096 of another file"),
    *("header zeroed", "header other data", "item headers", "offset table", "frames zeroed", "frames other data"),
    *("flipped bits in frames", "flipped bits", "lost bytes", "cut", "foreign beginning", "three copies"),
    *("padding behind the end", "neighbour's beginning", "transfer syntax of a third copy"),
]
INSTANCE = re.compile(rb"\x02\0\x03\0UI(.)\0", re.S)
NUMBER = re.compile(rb"(?:DS|IS|TM)(.)\0([0-9.]{2,16})", re.S)
BLOCKS = (4096, 2048, 1024, 512)


def neighbour(rng: random.Random, data: bytes) -> bytes:
    """Another slice of the series: the same elements at the same places, with another instance UID and other numbers."""
    found, uid = bytearray(data), INSTANCE.search(data)
    assert uid is not None
    for number in NUMBER.finditer(data):
        at = number.end(2) - 1
        if 0x30 <= data[at] <= 0x39 and rng.random() < 0.5:
            found[at] = rng.choice(b"0123456789")
    old = data[uid.end() : uid.end() + uid.group(1)[0]].rstrip(b"\0")
    new = old[:-1] + (b"7" if old[-1:] != b"7" else b"3")
    return bytes(found).replace(old, new)


def pixels_of(true: bytes) -> int:
    """Where the items of Pixel Data begin."""
    found = PIXEL_DATA.search(true)
    assert found is not None
    return found.end()


class Copy:
    """`data` is the copy; `is_true` has for each byte of the undamaged file whether the copy has it."""

    def __init__(self, true: bytes) -> None:
        self.data = bytearray(true)
        self.is_true = bytearray(b"\1" * len(true))

    def overwrite(self, begin: int, new: bytes, true: bytes) -> None:
        end = min(len(true), begin + len(new))
        self.data[begin:end] = new[: end - begin]
        for at in range(begin, end):
            self.is_true[at] = self.data[at] == true[at]

    def lose(self, begin: int, end: int) -> None:
        del self.data[begin:end]
        self.is_true[begin:end] = bytes(len(self.is_true[begin:end]))


class Damage:
    """Damages `count` copies of a file, each elsewhere where that can be."""

    def __init__(self, rng: random.Random, true: bytes, foreign: bytes) -> None:
        self.rng = rng
        self.true = true
        self.foreign = foreign
        self.used: list[tuple[int, int]] = []
        self.pixels = pixels_of(true)

    def fill(self, kind: str, begin: int, size: int) -> bytes:
        if "zeroed" in kind:
            return bytes(size)
        if "another" in kind:
            return (self.foreign * (1 + (begin + size) // len(self.foreign)))[begin : begin + size]
        return self.rng.randbytes(size)

    def is_free(self, begin: int, end: int) -> bool:
        if any(begin < last and first < end for first, last in self.used):
            return False
        self.used.append((begin, end))
        return True

    def place(self, begin: int, end: int, size: int, step: int = 1) -> Optional[int]:
        """A range that no damage has yet, or nothing."""
        for _ in range(20):
            at = self.rng.randrange(begin, max(begin + 1, end - size + 1)) // step * step
            if self.is_free(at, at + size):
                return at
        return None

    def sectors(self, copy: Copy, kind: str) -> None:
        size = int(kind.split()[1])
        for _ in range(self.rng.choice((1, 2, 3))):
            at = self.place(0, len(self.true) + size - 1, size, size)
            if at is not None:
                copy.overwrite(at, self.fill(kind, at, size), self.true)

    def header(self, copy: Copy, kind: str) -> None:
        size = self.rng.choice((16, 64, 256))
        at = self.place(132, self.pixels, size)
        if at is not None:
            copy.overwrite(at, self.fill(kind, at, size), self.true)

    def frames(self, copy: Copy, kind: str) -> None:
        for _ in range(self.rng.choice((1, 2, 4))):
            size = self.rng.choice((8, 32, 128))
            at = self.place(self.pixels + 64, len(self.true) - 8, size)
            if at is not None:
                copy.overwrite(at, self.fill(kind, at, size), self.true)

    def items(self, copy: Copy, kind: str) -> None:
        found = [match.start() for match in re.finditer(re.escape(ITEM), self.true[self.pixels :])]
        for at in self.rng.sample(found, min(len(found), 2)):
            if self.is_free(at + self.pixels, at + self.pixels + 8):
                new = self.rng.choice((bytes(8), self.rng.randbytes(8), ITEM + self.rng.randbytes(4)))
                copy.overwrite(at + self.pixels, new, self.true)

    def table(self, copy: Copy, kind: str) -> None:
        size = int.from_bytes(self.true[self.pixels + 4 : self.pixels + 8], "little")
        at = self.place(self.pixels, self.pixels + 8 + size, 4)
        if at is not None:
            copy.overwrite(at, self.fill(self.rng.choice(("zeroed", "other")), at, 4), self.true)
        self.frames(copy, "zeroed")

    def flips(self, copy: Copy, kind: str) -> None:
        for _ in range(2):
            at = self.place(self.pixels + 40 if "frames" in kind else 132, len(self.true) - 10, 1)
            if at is not None:
                copy.overwrite(at, bytes([self.true[at] ^ 1 << self.rng.randrange(8)]), self.true)

    def lost(self, copy: Copy, kind: str) -> None:
        size = self.rng.choice((1, 16, 512))
        at = self.place(200, len(self.true) - size, size + 64)
        if at is not None:
            copy.lose(at, min(at + size, len(self.true)))

    def cut(self, copy: Copy, kind: str) -> None:
        at = self.rng.randrange(len(self.true) // 3, len(self.true))
        if self.used:
            self.frames(copy, "zeroed")
        else:
            self.used.append((at, len(self.true)))
            copy.lose(at, len(self.true))

    def padding(self, copy: Copy, kind: str) -> None:
        """Zeros to the end of a block of a tape behind one copy; damage in frames of the other."""
        if self.used:
            self.frames(copy, "zeroed")
        else:
            copy.data += bytes(-len(copy.data) % 4096 or 4096)
            self.used.append((len(self.true), len(self.true)))

    def chimera(self, copy: Copy, kind: str) -> None:
        """The first block of another slice, whole and consistent, over one copy; damage behind it, or in frames, of the other."""
        size = next((size for size in BLOCKS if size <= self.pixels), BLOCKS[-1])
        if not self.used:
            copy.overwrite(0, neighbour(self.rng, self.true)[:size], self.true)
            self.used.append((0, size))
        elif self.rng.random() < 0.5:
            copy.overwrite(size, self.fill(self.rng.choice(("zeroed", "other")), size, size), self.true)
        else:
            self.frames(copy, "zeroed")

    def beginning(self, copy: Copy, kind: str) -> None:
        size = self.rng.choice((512, 4096, 8192))
        if self.used:
            self.frames(copy, "zeroed")
        elif self.is_free(0, size):
            copy.overwrite(0, self.fill("another", 0, min(size, len(self.true) // 2)), self.true)

    def copies(self, kind: str) -> list[Copy]:
        ways = {"sectors": self.sectors, "header": self.header, "item": self.items, "offset": self.table, "frames": self.frames}
        ways |= {"flipped": self.flips, "lost": self.lost, "cut": self.cut, "foreign": self.beginning, "three": self.sectors}
        ways |= {"padding": self.padding, "neighbour's": self.chimera, "transfer": self.frames}
        found = [Copy(self.true) for _ in range(3 if kind == "three copies" else 2)]
        for copy in found:
            each = self.rng.choice(KINDS[:6]) if kind == "three copies" else kind
            ways[kind.split()[0]](copy, each)
        return found
