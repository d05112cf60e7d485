"""Versions of a header: copies of one picture whose headers all read whole and have other lengths, as archives make them that coerce.

Damage makes no such header: where bytes are lost elements break off, or one swallows the next, and all else is as in the longer header.
So each can be true, and no value of one is mixed with those of another. The header of most copies is taken, or that of a copy which the
caller names; else none is, and a table by tag says where they differ.
"""
from __future__ import annotations

from collections.abc import Sequence
from dataclasses import dataclass, field
from typing import Optional

from jls_tools.dicom.axis.pieces import ANCHOR, equal_length
from jls_tools.dicom.evidence.most import header_end
from jls_tools.dicom.read.elements import DELIMITER, PIXELS_BEGIN, UNDEFINED, has_prefix, tag_name
from jls_tools.dicom.read.reading import Reading
from jls_tools.dicom.read.tags import FIRST, PIXEL_DATA
from jls_tools.dicom.result import VersionTable
from jls_tools.dicom.write.finished import of_meta, of_uids

MOST_LOSSES = 4


@dataclass
class Version:
    """A header that reads whole. `name` is A, B, ..; `head` is all before Pixel Data, and `tail` what follows it, if any copy has that."""

    name: str
    head: bytes
    copies: list[int]
    tail: Optional[bytes] = None

    def in_place_of(self, text: bytes) -> bytes:
        """A copy with this header and tail in the place of its own; the copy itself if it is not clear where its Pixel Data begins."""
        begin, end = pixels_of(text)
        if begin is None:
            return text
        if end is None or self.tail is None:
            return self.head + text[begin:]
        return self.head + text[begin:end] + self.tail


@dataclass
class Versions:
    """All versions, if there are several. `taken` is one that counts; `is_open` says that nothing chose it."""

    found: list[Version] = field(default_factory=list)
    taken: Optional[Version] = None
    is_open: bool = False

    def texts(self, texts: Sequence[bytes], copies: Sequence[int]) -> list[bytes]:
        """The copies, those of other versions with the header that was taken."""
        version = self.taken
        if version is None:
            return list(texts)
        return [version.in_place_of(text) if at in copies and at not in version.copies else text for at, text in enumerate(texts)]

    def moved(self, ranges: Sequence[tuple[int, int]], text: bytes) -> list[tuple[int, int]]:
        """Where ranges of a copy stand when it has got the header that was taken; those of its own header are gone."""
        begin = pixels_of(text)[0]
        if self.taken is None or begin is None:
            return list(ranges)
        shift = len(self.taken.head) - begin
        return [(max(first, begin) + shift, last + shift) for first, last in ranges if last > begin]

    def fault(self) -> Optional[str]:
        """Why no file can be written with the header that was taken, or nothing."""
        if self.is_open:
            return "several headers of one picture read whole, and each can be the file's: --header chooses one"
        if self.taken is not None and self.taken.tail is None:
            return "no copy that has this header has what follows Pixel Data"
        return None

    def heads(self) -> list[bytes]:
        """The header that was taken, and the others."""
        return [version.head for version in sorted(self.found, key=lambda version: version is not self.taken)]

    def choose(self, data: bytes) -> None:
        """Takes the version that a file has."""
        self.taken = next((version for version in self.found if data.startswith(version.head)), self.taken)
        self.is_open = False

    def told(self, paths: Sequence[str]) -> Optional[VersionTable]:
        """What is told of the versions, if there are several."""
        if not self.found:
            return None
        taken = None if self.is_open or self.taken is None else self.taken.name
        return VersionTable([(each.name, [paths[at] for at in each.copies]) for each in self.found], taken, self.table())

    def table(self) -> list[tuple[str, list[Optional[bytes]]]]:
        """(a tag of the top level, its value in each version, None where it has no such element), of elements that are not alike in all."""
        values = [values_of(version.head) for version in self.found]
        rows = [(tag, [each.get(tag) for each in values]) for tag in sorted({tag for each in values for tag in each})]
        return [(tag_name(tag), row) for tag, row in rows if len(set(row)) > 1]


def versions_of(texts: Sequence[bytes], copies: Sequence[int], named: Optional[int]) -> Versions:
    """The versions of these copies, by index, which are of one instance. `named` is the copy whose header the caller wants."""
    heads = {at: head for at in copies if (head := head_of(texts[at])) is not None}
    whole = {head[FIRST:] for head in heads.values()}
    lost = {head for head in whole if any(is_lost_from(head, other) for other in whole)}
    if len({len(head) for head in whole - lost}) < 2:
        return Versions()
    found: dict[bytes, Version] = {}
    for at, head in heads.items():
        if head[FIRST:] not in lost:
            version = found.setdefault(head[FIRST:], Version(chr(ord("A") + len(found)), head, []))
            version.copies.append(at)
            end = pixels_of(texts[at])[1]
            if version.tail is None and end is not None:
                version.tail = texts[at][end:]
    versions = list(found.values())
    chosen = next((version for version in versions if named in version.copies), None)
    most = next((version for version in versions if len(version.copies) * 2 > len(copies)), None)
    taken = chosen or most
    return Versions(versions, taken or max(versions, key=lambda version: len(version.copies)), taken is None)


def head_of(text: bytes) -> Optional[bytes]:
    """All before Pixel Data, if the elements read so far, none looks damaged, and no rule of PS3.10 on them is broken."""
    end = header_end(text, [(0, len(text))]) if has_prefix(text) else None
    if end is None:
        return None
    reading = Reading(text[:end])
    return None if reading.faults or any(of_meta(reading)) or any(of_uids(reading)) else text[:end]


def is_lost_from(head: bytes, other: bytes) -> bool:
    """Whether a header is a longer one without some ranges of it: then these can be lost bytes."""
    at = beside = losses = 0
    while len(head) < len(other) and losses <= MOST_LOSSES:
        size = equal_length(head, other, at, beside)
        at, beside = at + size, beside + size
        if at == len(head):
            return True
        beside, losses = other.find(head[at : at + ANCHOR], beside), losses + 1
        if beside < 0:
            return False
    return False


def pixels_of(text: bytes) -> tuple[Optional[int], Optional[int]]:
    """Where Pixel Data begins and ends, each if that is clear."""
    reading = Reading(text)
    pixels = reading.element(PIXEL_DATA)
    if pixels is None:
        begins = [match.start() for match in PIXELS_BEGIN.finditer(text)]
        return (begins[0] if len(begins) == 1 else None), None
    if pixels.length != UNDEFINED:
        return pixels.start, pixels.end
    return pixels.start, reading.items[-1].end + len(DELIMITER) if reading.is_whole and reading.items else None


def values_of(head: bytes) -> dict[int, bytes]:
    """The values of the top level, by tag. One of several items is all that stands up to the next element."""
    top = Reading(head).top
    ends = [element.start for element in top[1:]] + [len(head)]
    return {element.tag: head[element.value : end] for element, end in zip(top, ends)}
