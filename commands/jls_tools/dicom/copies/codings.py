"""Copies of one instance whose frames several writers coded: with other thresholds, RESET, restart intervals, scans, or another P.

They have no bytes of Pixel Data in common. One coding stands: that of which the file is written. A copy of another one gets the Pixel Data
of a copy of that coding, as bytes that it lacks. So all stand on one axis, and the header is decided as ever. Its own frames are kept
beside, and their lines mend those of the coding that stands.
"""
from __future__ import annotations

import struct
from collections import Counter
from collections.abc import Callable, Iterator, Sequence
from dataclasses import dataclass, field
from typing import Optional

from jls_tools.dicom.axis.align import Copy
from jls_tools.dicom.axis.bad_places import Range, clipped
from jls_tools.dicom.axis.tails import end_behind
from jls_tools.dicom.copies.instance import identity_of
from jls_tools.dicom.copies.versions import pixels_of
from jls_tools.dicom.layout import Layout
from jls_tools.dicom.read.elements import DELIMITER, HEAD
from jls_tools.dicom.read.reading import Reading
from jls_tools.dicom.read.tags import EXTENDED_LENGTHS, EXTENDED_TABLE
from jls_tools.dicom.walk.frames import by_search
from jls_tools.dicom.write.build import even, item
from jls_tools.frames.codestream import BEGIN, HEADERS, unpadded
from jls_tools.frames.codings import Coding, coding_of, have_one_coding

MOST_LOOKED_AT = 16  # codestreams of a copy that say in which coding it is
MOST_COMPARED = 1 << 20  # bytes of a codestream


def streams_in(text: bytes, begin: int) -> Iterator[bytes]:
    """The beginnings of the codestreams that stand after a place."""
    places = [found.start() for found, _ in zip(BEGIN.finditer(text, begin), range(MOST_LOOKED_AT + 1))]
    for at, end in zip(places[:MOST_LOOKED_AT], [*places[1:], len(text)]):
        yield text[at : min(end, at + MOST_COMPARED)]


def streams_of_items(text: bytes) -> list[bytes]:
    """The beginnings of the codestreams with which items begin: a foreign sector, or what stands after the end, can have others."""
    begins = [item for item in Reading(text).items if BEGIN.match(text, item.value)]
    return [text[item.value : min(item.end, item.value + MOST_COMPARED)] for item in begins[:MOST_LOOKED_AT]]


@dataclass
class Pixels:
    """Pixel Data of a copy: where it begins, where it ends if that is clear, and beginnings of its codestreams by coding."""

    begin: int
    end: Optional[int]
    is_through: bool  # whether its items lead to its end
    streams: dict[Coding, bytes]
    coding: Optional[Coding]  # of most of them


def pixels(text: bytes) -> Optional[Pixels]:
    """The Pixel Data of a copy, if it is clear where that begins."""
    begin, end = pixels_of(text)
    is_through = end is not None
    if begin is None:
        return None
    streams = streams_of_items(text) if is_through else []
    found = [(coding_of(stream[:HEADERS]), stream) for stream in streams or streams_in(text, begin)]
    known = {coding: stream for coding, stream in reversed(found) if coding is not None}
    counts = Counter(coding for coding, _ in found if coding is not None)
    if end is None and end_behind(text) == len(text) and text.rfind(DELIMITER) > begin:
        end = text.rfind(DELIMITER) + len(DELIMITER)
    return Pixels(begin, end, is_through, known, counts.most_common(1)[0][0] if counts else None)


@dataclass
class Codings:
    """What was found of several codings. `others` has for each copy that is not of the coding that stands what its frames can be."""

    texts: list[bytes]
    absent: dict[int, list[Range]] = field(default_factory=dict)
    others: dict[int, list[list[bytes]]] = field(default_factory=dict)
    stands: Optional[int] = None  # a copy of the coding that stands, where there are several
    further: list[list[int]] = field(default_factory=list)  # the copies of each other one


def grouped(found: Sequence[Optional[Pixels]]) -> list[list[int]]:
    """The copies of each coding. Those whose headers don't read are in none."""
    groups: list[list[int]] = []
    for at, own in enumerate(found):
        if own is None or own.coding is None:
            continue
        group = next((group for group in groups if is_of(own, found[group[0]])), None)
        if group is None:
            groups.append([at])
        else:
            group.append(at)
    return groups


def is_of(own: Pixels, other: Optional[Pixels]) -> bool:
    """Whether two copies are of one coding."""
    if other is None or own.coding is None or other.coding is None:
        return False
    return own.coding == other.coding or have_one_coding(own.streams[own.coding], other.streams[other.coding])


def frames_of(text: bytes, begin: int) -> list[list[bytes]]:
    """What the codestreams of a copy by itself can be: those of its items, and those that are found by search."""
    places = Layout([Copy("", text)]).places
    searched = [text[begin + first : begin + last] for first, last in by_search(text[begin:])]
    ways = [[place.stream(text) for place in places], searched]
    return [list(map(without_padding, streams)) for streams in ways if streams]


def without_padding(stream: bytes) -> bytes:
    """A codestream without what ends an item, or Pixel Data."""
    return unpadded(stream.removesuffix(DELIMITER))


def of_instance(texts: Sequence[bytes]) -> list[int]:
    """The copies that say that they are of the instance of which most are."""
    identities = [identity_of(text) for text in texts]
    counts = Counter(each.uid for each in identities if each.uid is not None)
    return [at for at, each in enumerate(identities) if counts and each.is_of(counts.most_common(1)[0][0])]


Wanted = tuple[Optional[int], Optional[int]]  # the copy whose coding is wanted, and that whose header is


def codings_of(texts: Sequence[bytes], is_same: bool, wanted: Wanted, reads: Callable[[bytes], bool]) -> Codings:
    """The copies on one coding. `reads` says of a codestream whether it is whole.

    The coding stands of which a copy has all frames whole; else that of the named copy, one of a copy whose items lead to the end of Pixel
    Data, that of most copies, or that of the first.
    """
    copies = list(range(len(texts))) if is_same else of_instance(texts)
    found = [pixels(text) if at in copies else None for at, text in enumerate(texts)]
    if len({own.coding for own in found if own is not None and own.coding is not None}) < 2:
        return Codings(list(texts))
    groups = grouped(found)
    if len(groups) < 2:
        return Codings(list(texts))
    frames = {at: frames_of(texts[at], own.begin) for at, own in enumerate(found) if own is not None}

    def rank(group: list[int]) -> tuple[bool, bool, bool, bool, int]:
        is_whole = any(all(map(reads, streams)) for at in group for streams in frames[at][:1])
        coding, header = (each not in group for each in wanted)
        return coding, not is_whole, header, not any(is_through(found[at]) for at in group), -len(group)

    standing, *rest = sorted(groups, key=rank)
    model = max(standing, key=lambda at: is_through(found[at]))
    codings = Codings(list(texts), stands=model, further=rest)
    if len(standing) == 1 and not is_through(found[model]):
        codings.texts[model] = repacked(texts[model], found[model], frames[model][-1:])
    filler = with_table(codings.texts[model])
    for at in (at for group in rest for at in group):
        codings.others[at] = frames[at]
        codings.texts[at], codings.absent[at] = recoded(texts[at], filler, found[at], pixels(filler))
    return codings


def is_through(own: Optional[Pixels]) -> bool:
    return own is not None and own.is_through


def repacked(text: bytes, own: Optional[Pixels], ways: Sequence[Sequence[bytes]]) -> bytes:
    """A copy whose items don't lead to the end of Pixel Data, with items of the lengths that its frames have in it."""
    if own is None or own.end is None or not ways:
        return text
    begin = own.begin + HEAD
    has_table = text[begin + 4 : begin + 8] != bytes(4)
    table = bytes(4 * len(ways[0])) if has_table else b""
    middle = b"".join(item(even(stream)) for stream in ways[0])
    return with_table(text[:begin] + item(table) + middle + text[own.end - len(DELIMITER) :])


def with_table(text: bytes) -> bytes:
    """A copy with the offset table that its items want, if each of them is a frame, or there is one frame."""
    reading = Reading(text)
    table, items = (reading.items[0], reading.items[1:]) if reading.is_whole and reading.items else (None, [])
    if table is None or not items or table.length not in (4, 4 * len(items)):
        return text
    starts = [each.start - items[0].start for each in items][: table.length // 4]
    return text[: table.value] + struct.pack(f"<{len(starts)}I", *starts) + text[table.end :]


def recoded(text: bytes, model: bytes, own: Optional[Pixels], other: Optional[Pixels]) -> tuple[bytes, list[Range]]:
    """A copy with the Pixel Data of another one, and its offset tables; and where these stand, which it lacks."""
    assert own is not None and other is not None
    head, absent = bytearray(text[: own.begin + HEAD]), []
    mine, theirs = Reading(text[: own.begin]), Reading(model[: other.begin])
    for tag in (EXTENDED_TABLE, EXTENDED_LENGTHS):
        place, beside = mine.element(tag), theirs.element(tag)
        if place and beside and place.length == beside.length and place.end <= len(head):
            head[place.value : place.end] = model[beside.value : beside.end]
            absent.append((place.value, place.end))
    middle, tail = model[other.begin + HEAD :], b""
    if own.end is not None and other.end is not None:
        middle, tail = model[other.begin + HEAD : other.end - len(DELIMITER)], text[own.end - len(DELIMITER) :]
    return bytes(head) + middle + tail, [*absent, (len(head), len(head) + len(middle))]


def moved(ranges: Sequence[Range], text: bytes, codings: Codings, at: int) -> list[Range]:
    """Where ranges of a copy stand when it has got another one's Pixel Data; those in its own are gone."""
    if at not in codings.absent:
        return list(ranges)
    begin, end = codings.absent[at][-1]
    rest = len(codings.texts[at]) - end
    shift = len(codings.texts[at]) - len(text)
    behind = clipped(ranges, len(text) - rest, len(text))
    return [*clipped(ranges, 0, begin), *((first + shift, last + shift) for first, last in behind)]
