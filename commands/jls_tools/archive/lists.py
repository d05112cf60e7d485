"""Lists of bad places of whole trees, as `jls-archive --bad` takes them: a folder of lists, or the mapfile of a tree's disk."""
from __future__ import annotations

import errno
import fcntl
import os
import re
import struct
from typing import Dict, Iterator, List, NamedTuple, Sequence, Tuple, Union

from jls_tools.dicom.axis import align, bad_lists, bad_places
from jls_tools.dicom.axis.bad_lists import BadList
from jls_tools.file_names import printable

Range = Tuple[int, int]
Extent = Tuple[int, int, int]  # where in the file, where on the disk, how many bytes
ENDING = ".map"  # of the name of a list, behind that of its file, if it has one
WORD = re.compile(r"([1-9]\d{0,3}):(.+)", re.S)
OF_PARTITION = re.compile(r"(.+)@(\d{1,19})", re.S)
# FS_IOC_FIEMAP of <linux/fs.h>: what the kernel says of the extents of a file
ASK, HEAD, EXTENT = 0xC020660B, struct.Struct("=QQIIII"), struct.Struct("=QQQQQIIII")
AT_ONCE, SYNCED = 64, 1
NOT_PLACED = 0x2 | 0x4 | 0x8 | 0x80 | 0x200 | 0x800  # unknown, not yet written, encoded, encrypted, inside of an inode, never written
LAST = 0x1


class OfFolder(NamedTuple):
    """A folder that has for a file PATH of the tree a list, PATH or PATH.map."""

    folder: str

    def places(self, path: str, _: str) -> List[Range]:
        """The bad places of a file. One without a list has none."""
        for ending in ("", ENDING):
            name = os.path.join(self.folder, path + ending)
            if os.path.isfile(name):
                return list(bad_lists.read(name))
        return []


class OfDisk(NamedTuple):
    """The bad places of a disk or its image, and where on it the file system begins that the tree is of."""

    ranges: Sequence[Range]
    begin: int

    def places(self, _: str, file: str) -> List[Range]:
        """The bad places of a file, by where its file system says that it stands."""
        found: List[Range] = []
        for logical, physical, length in extents_of(file):
            move = logical - physical - self.begin
            inner = bad_places.clipped(self.ranges, physical + self.begin, physical + self.begin + length)
            found += [(begin + move, end + move) for begin, end in inner]
        return sorted(found)


Source = Union[OfFolder, OfDisk]


def extents_of(file: str) -> Iterator[Extent]:
    """The parts of a file that stand on its disk as they are."""
    with open(file, "rb") as opened:
        at = 0
        while True:
            buffer = bytearray(HEAD.pack(at, (1 << 64) - 1 - at, SYNCED, 0, AT_ONCE, 0)) + bytes(EXTENT.size * AT_ONCE)
            try:
                fcntl.ioctl(opened, ASK, buffer)
            except OSError as fault:
                if fault.errno in (errno.ENOTTY, errno.EOPNOTSUPP):
                    raise OSError(fault.errno, "its file system does not say where it stands on the disk", file) from fault
                raise
            count = HEAD.unpack_from(buffer)[3]
            flags = LAST
            for number in range(count):
                logical, physical, length, _, _, flags, *_ = EXTENT.unpack_from(buffer, HEAD.size + number * EXTENT.size)
                if not flags & NOT_PLACED:
                    yield logical, physical, length
                at = logical + length
            if flags & LAST:
                return


def of_word(text: str) -> Tuple[int, str]:
    """(the number of a tree, the place of its lists) of a word N:PLACE. A ValueError says that it is none."""
    found = WORD.fullmatch(text)
    if not found:
        raise ValueError(text)
    return int(found.group(1)), found.group(2)


def source_of(place: str) -> Source:
    """The lists at a place. A BadList or an OSError says why there are none."""
    if os.path.isdir(place):
        return OfFolder(os.path.realpath(place))
    name, begin = place, 0
    partition = OF_PARTITION.fullmatch(place)
    if partition and not os.path.lexists(place):
        name, begin = partition.group(1), int(partition.group(2))
    return OfDisk(bad_lists.read(name), begin)


class Lists:
    """The lists of all trees, by the number of the tree from 0."""

    def __init__(self) -> None:
        self.of: Dict[int, List[Source]] = {}

    def add(self, tree: int, place: str) -> None:
        self.of.setdefault(tree, []).append(source_of(place))

    def places(self, tree: int, path: str, file: str) -> List[Range]:
        """The bad places of a file of a tree."""
        found = (source.places(path, file) for source in self.of.get(tree, ()))
        return list(align.merged(pair for places in found for pair in places))

    def text(self, tree: int, path: str, file: str) -> str:
        """What a row keeps of them: a text that changes if they do."""
        try:
            places = self.places(tree, path, file)
        except BadList as fault:
            return f"bad {tree} {fault}"
        except OSError as fault:
            return f"bad {tree} {fault.errno}"
        return f"bad {tree} {places}" if places else ""


def note_of(fault: BadList) -> str:
    return f"a list can't be used: {printable(str(fault))}"
