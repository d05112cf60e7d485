"""Builds the mended DICOM file: with each byte in its place, or packed anew; and stores it whole or not at all."""
from __future__ import annotations

import hashlib
import os
import struct
from collections.abc import Iterator, Sequence
from typing import Optional

from jls_tools.dicom.axis.align import Copy
from jls_tools.dicom.read.elements import UNDEFINED, tag_bytes
from jls_tools.dicom.read.tags import EXTENDED_LENGTHS, EXTENDED_TABLE, ITEM, PIXEL_DATA, PREAMBLE, PREFIX, SEQUENCE_END
from jls_tools.dicom.walk.frames import FramePlace
from jls_tools.dicom.walk.structure import Structure

MOST_TRIED = 4096
NO_TABLE_FROM = 1 << 32
Choice = tuple[int, int, list[bytes]]  # (begin, end, what can stand there)


def padding(place: FramePlace, stream: bytes, copies: Sequence[Copy]) -> Optional[bytes]:
    """The bytes between the end of a frame's stream and the end of its place, or None if the frame does not fit there."""
    count = place.size - len(stream)
    if count < 0:
        return None
    tails = {place.stream(copy.data)[len(stream) :] for copy in copies}
    if b"\0" * count in tails:
        return b"\0" * count
    return tails.pop() if len(tails) == 1 and count <= 1 else None


def in_fragments(place: FramePlace, stream: bytes) -> Iterator[tuple[int, bytes]]:
    """The parts of a stream for the fragments of its place: (begin, bytes)."""
    at = 0
    for begin, end in place.fragments:
        yield begin, stream[at : at + end - begin]
        at += end - begin


def put_frames(data: bytearray, places: Sequence[FramePlace], streams: Sequence[bytes], copies: Sequence[Copy]) -> bool:
    """Puts streams into their places; answers whether all of them fit there."""
    for place, stream in zip(places, streams):
        pad = padding(place, stream, copies)
        if pad is None:
            return False
        for begin, part in in_fragments(place, stream + pad):
            data[begin : begin + len(part)] = part
    return True


def item(value: bytes) -> bytes:
    return tag_bytes(ITEM) + struct.pack("<I", len(value)) + value


def even(stream: bytes) -> bytes:
    return stream + b"\0" * (len(stream) % 2)


def pixel_data(streams: Sequence[bytes], vr: bytes) -> bytes:
    """Pixel Data with an offset table, a fragment for each frame."""
    offsets, at = [], 0
    for stream in streams:
        offsets.append(at)
        at += 8 + len(even(stream))
    table = b"" if at >= NO_TABLE_FROM else struct.pack(f"<{len(offsets)}I", *offsets)
    parts = [tag_bytes(PIXEL_DATA), vr, b"\0\0", struct.pack("<I", UNDEFINED), item(table)]
    parts += [item(even(stream)) for stream in streams]
    return b"".join(parts) + tag_bytes(SEQUENCE_END) + b"\0\0\0\0"


def top_level(data: bytes, structure: Structure) -> list[tuple[int, bytes]]:
    """[(tag, bytes)] of the elements before Pixel Data, each with all that it has inside."""
    elements = structure.elements
    found = []
    for element, following in zip(elements, elements[1:]):
        if element.tag == PIXEL_DATA:
            break
        found.append((element.tag, bytes(data[element.start : following.start])))
    return found


def packed(data: bytes, structure: Structure, streams: Sequence[bytes], elements: Optional[list[tuple[int, bytes]]] = None) -> bytes:
    """The file with these streams as its frames. `elements` stand for those before Pixel Data, where they were changed."""
    elements = top_level(data, structure) if elements is None else elements
    head = b"".join(value for tag, value in elements if tag not in (EXTENDED_TABLE, EXTENDED_LENGTHS))
    preamble, pixels = bytes(data[:PREAMBLE]) + PREFIX, structure.pixel_data
    assert pixels is not None
    return preamble + head + pixel_data(streams, pixels.vr) + bytes(data[structure.end_of_pixels() :])


def expected_tables(places: Sequence[FramePlace], first: int) -> tuple[bytes, bytes, bytes]:
    """What offset tables should have, for frames whose places are known: {tag or None: (where it begins, bytes)} without the places."""
    starts = [max(0, place.begin - 8 - first) for place in places]  # a file that is cut in a header has less than eight bytes there
    basic = struct.pack(f"<{len(starts)}I", *(start & 0xFFFFFFFF for start in starts))
    extended = struct.pack(f"<{len(starts)}Q", *starts)
    sizes = struct.pack(f"<{len(places)}Q", *(place.size for place in places))
    return basic, extended, sizes


# Sums ----------------------------------------------------------------------------------


def find_sum(data: bytes, choices: Sequence[Choice], wanted: str) -> Optional[list[int]]:
    """The combination of choices with which a file has this SHA-256, as a list of indices; None if none of those that are tried has.

    `choices` are (begin, end, [bytes]) in order, not overlapping.
    """
    tried = 0
    ends = [begin for begin, _, _ in choices[1:]] + [len(data)]
    first = hashlib.sha256(data[: choices[0][0] if choices else len(data)])
    if not choices:
        return [] if first.hexdigest() == wanted else None
    waiting: list[tuple[hashlib._Hash, list[int]]] = [(first, [])]
    while waiting and tried < MOST_TRIED:
        before, taken = waiting.pop()
        if len(taken) == len(choices):
            tried += 1
            if before.hexdigest() == wanted:
                return taken
            continue
        _, end, ways = choices[len(taken)]
        following = data[end : ends[len(taken)]]
        for number in reversed(range(len(ways))):
            sums = before.copy()
            sums.update(ways[number])
            sums.update(following)
            waiting.append((sums, [*taken, number]))
    return None


def with_choices(data: bytes, choices: Sequence[Choice], taken: Sequence[int]) -> bytes:
    parts: list[bytes] = []
    at = 0
    for (begin, end, ways), number in zip(choices, taken):
        parts += [data[at:begin], ways[number]]
        at = end
    return b"".join([*parts, data[at:]])


# Storing -------------------------------------------------------------------------------


def store(data: bytes, out: str, folder: str) -> None:
    """Stores a new file: whole, or not at all. `folder` is one for temporary files in the same file system. It replaces nothing."""
    part = os.path.join(folder, "out")
    with open(part, "xb") as file:
        file.write(data)
        file.flush()
        os.fsync(file.fileno())
    os.chmod(part, 0o666 & ~USER_MASK)
    try:
        os.link(part, out)
    except PermissionError:  # a file system without links
        if os.path.lexists(out):
            raise FileExistsError(17, "it is there already", out) from None
        os.rename(part, out)


def user_mask() -> int:
    mask = os.umask(0o077)
    os.umask(mask)
    return mask


USER_MASK = user_mask()  # as the user has it; commands may set a stricter one for temporary files
