"""Checks of bytes after the last element of copies, which are no part of the file, and of what can be one.

Each case says what the status has to be and what OUT; "" stands for no OUT. `words` is what has to be printed.
"""
from __future__ import annotations

import hashlib
import random
from collections.abc import Iterator

from dicom_files import Bench, File, changed, element
from dicom_truth import Check, case, damaged
from jls_tools.dicom.axis.tails import without_tails

SECTOR = 512


def checks_of_tails(bench: Bench, made: File, neighbour: File) -> Iterator[Check]:
    """Bytes behind the last element are cut where a whole copy lacks them or most do. In all copies they stay."""
    true, zeros, noise = made.bytes, bytes(-len(made.bytes) % 4096), random.Random(4).randbytes(300)
    flipped = changed(true, (made.name_at, b"E"))
    for name, copies in {
        "zeros to a border behind one": [true, true + zeros],
        "zeros behind a damaged one": [true, damaged(made) + zeros],
        "zeros behind a whole one": [damaged(made), true + zeros],
        "noise": [true, true + noise],
        "the rest of another file": [true + neighbour.bytes[len(true) // 2 :], damaged(made)],
        "zeros behind two of three": [true + zeros, true + zeros + bytes(4096), true],
        "zeros behind one of three": [damaged(made), damaged(made, 1), true + noise],
        "zeros behind one without a header of an item": [true, changed(true, (made.items[1], bytes(8))) + zeros],
        "a header of an item is gone in each": [changed(true, (made.items[2], bytes(8))), changed(true, (made.items[1], bytes(8))) + zeros],
    }.items():
        yield case(bench, f"a tail: {name}", copies, 0, true, "they were cut from")
    both = [true + zeros, damaged(made) + zeros]
    yield case(bench, "a tail in each copy", both, 0, true + zeros, "every copy has them")
    yield case(bench, "the same, and a sum without it", both, 0, true, "matched", ["--sha256", hashlib.sha256(true).hexdigest()])
    both = [true + noise, damaged(made) + noise]
    yield case(bench, "a tail of noise in each copy", both, 1, b"", "of every copy, and are no padding")
    yield case(bench, "a tail of noise in each copy, and --header", both, 0, true + noise, "every copy has them", ("--header", "COPY0"))
    sums = ["--sha256", hashlib.sha256(true + noise).hexdigest()]
    yield case(bench, "a tail that one copy lacks, and a sum with it", [true, damaged(made) + noise], 0, true + noise, "matched", sums)
    alone = [true[: len(true) // 2], true + noise]
    yield case(bench, "a tail, and the other copy is cut", alone, 1, b"", "what stands after the last element")
    sums = ["--sha256", hashlib.sha256(true).hexdigest()]
    yield case(bench, "the same, and a sum without it", alone, 0, true, "matched", sums)
    yield case(bench, "two tails that differ", [true + zeros, true + noise], 1, b"", "what stands after the last element")
    rests = [random.Random(seed).randbytes(-len(true) % 4096) for seed in (5, 6)]
    for order in (rests, rests[::-1]):
        yield case(bench, "rests of other files up to a border", [true + order[0], damaged(made) + order[1]], 0, true, "they were cut from")
    both = [true + rests[0], damaged(made) + rests[1][:-2]]
    yield case(bench, "rests of other files, of which one ends at no border", both, 1, b"", "what stands after the last element")
    ended = [true + rests[0], damaged(made) + neighbour.bytes[-300:]]
    for order in (ended, ended[::-1]):
        yield case(bench, "rests of other files, of which one ends there", order, 0, true, "they were cut from")
    lost = true[: made.items[0] + 70] + true[made.items[0] + 72 :]
    for name, rest, wanted in (("", rests[1], (0, true, "they were cut from")), (", which end at no border", rests[1][:-1], (1, b"", ""))):
        both = [true + rests[0], lost + rest]
        yield case(bench, f"rests of other files{name}, and bytes lost before one", both, *wanted)
    both = [true + rests[0], damaged(made) + zeros]
    yield case(bench, "the rest of another file, and zeros", both, 1, b"", "what stands after the last element")
    three = [true + rests[0], damaged(made) + bytes(3), damaged(made, 1) + rests[1]]
    yield case(bench, "the rests of two other files, and zeros", three, 0, true, "they were cut from")
    yield case(bench, "rests of two other files, and zeros", [true + rests[0], damaged(made) + zeros, true + rests[1]], 0, true, "cut from")
    lower = element(0x185100, "CS", "HFS") + element(0x20000D, "UI", "1.2.3")
    reads_on = true + (lower * 300)[: len(rests[0])]
    yield case(bench, "elements of another file that begin there, and its rest", [reads_on, damaged(made) + rests[0]], 0, true, "cut from")
    yield case(bench, "such elements behind each copy", [true + lower, damaged(made) + lower], 0, true + lower, "every copy has it so")
    yield case(bench, "the rest of another file, zeros, and zeros", [true + rests[0], damaged(made) + zeros, true + zeros], 1, b"")
    yield from of_shorter_copies(bench, made, zeros, rests[0])
    yield from of_padded_copies(bench, made, rests[0])
    padding = changed(true, (len(true) - 42, b"\x13\x57\x9b\xdf"))
    yield case(bench, "the last element's tag is damaged", [padding, damaged(made)], 0, true)
    both = [changed(true, (len(true) - 38, b"z")), changed(true, (len(true) - 36, b"\x07"))]
    yield case(bench, "the last element's header is damaged in each copy", both, 0, true)
    yield case(bench, "a tail, and a letter of a name", [true, flipped + zeros], 1, b"", "(0010,0010), undecided")


def of_padded_copies(bench: Bench, made: File, rest: bytes) -> Iterator[Check]:
    """Bytes of one value behind the elements are no part of the file, where not all copies have the same."""
    true, inside = made.bytes, made.items[2] + 60
    lost = true[:inside] + true[inside + 2 :]
    for name, copies in (
        ("two zeros, and a hundred", [true + bytes(2), damaged(made) + bytes(100)]),
        ("zeros, and ones", [true + bytes(64), damaged(made) + b"\xff" * 64]),
        ("zeros, and the other copy is cut", [true + bytes(300), true[:-60]]),
        ("zeros behind a copy with bytes too many, and behind another one", [more_in_frame(made) + bytes(512), damaged(made) + bytes(2)]),
        ("zeros behind a copy with bytes too many, and behind one that lost some", [more_in_frame(made) + bytes(2), lost + bytes(100)]),
    ):
        for order in (copies, copies[::-1]):
            yield case(bench, name, order, 0, true, "they were cut from")
    whole = true + bytes(100)
    yield case(bench, "the same zeros, and a third copy is cut", [whole, damaged(made) + bytes(100), true[:-60]], 0, whole, "every copy")
    for other in (true[:-60], damaged(made) + bytes(2), more_in_frame(made) + bytes(2)):
        yield case(bench, "a rest of several values, and none or zeros", [true + rest, other], 1, b"", "OUT is not written")
    zeros, lost = bytes(2), true[:inside] + true[inside + 16 :]
    for order in ([true + zeros, lost + zeros], [lost + zeros, true + zeros]):
        yield case(bench, "the same zeros behind two copies, of which one lost bytes", order, 0, true + zeros, "every copy has them")
    more = bytes(300)
    far = true[:inside] + true[inside + 400 :] + more
    yield case(bench, "more zeros behind two copies, of which one lost more", [true + more, far], 0, true + more, "every copy has them")
    yield case(bench, "zeros, and a copy that lost bytes and its end", [true + zeros, lost[:-42] + zeros], 1, b"", "OUT is not written")
    hidden = [changed(true, (len(true) - 42, bytes(size)), (len(true) - 9, b"x")) for size in (5, 9)]
    yield case(bench, "an element whose header is zeroed in each, and not its value", hidden, 1, b"", "OUT is not written")


def more_in_frame(made: File) -> bytes:
    """A copy with five bytes too many in its last frame."""
    at = made.items[-1] + 60
    return made.bytes[:at] + b"\x13\x57\x9b\xdf\x11" + made.bytes[at:]


def of_shorter_copies(bench: Bench, made: File, zeros: bytes, rest: bytes) -> Iterator[Check]:
    """A copy that lost bytes ends where the elements of another one do. One that was cut at a border of sectors does not show it.

    Nor does one with another end of the last frame, as another file has it.
    """
    true, gone = made.bytes, made.bytes[:600] + made.bytes[616:]
    for name, tail in (("zeros", zeros), ("the rest of another file", rest)):
        for order in ([gone, true + tail], [true + tail, gone]):
            yield case(bench, f"{name}, and the other copy lost bytes", order, 0, true, "they were cut from")
    at = made.items[-1] + len(made.frames[-1]) - 20
    strange = changed(true, (at, bytes(byte ^ 0x55 for byte in true[at : at + 20])))
    found = without_tails([gone, strange + rest])
    yield f"the same, and another end of the last frame: no cut ({found.cut})", not found.cut and not found.is_decided
    bare, size = true[:-42], (len(true) - 42) % SECTOR + SECTOR  # without the element behind Pixel Data
    turned = changed(bare, (SECTOR, bare[-size:]), (len(bare) - size, bare[SECTOR : SECTOR + size]))
    found = without_tails([bare[:900] + bare[916:], turned])
    yield f"a copy whose end stands elsewhere in it: no cut ({found.cut})", not found.cut
    more = true[:700] + b"\x91\x3c\x77" + true[700:]
    for name, tail in (("zeros", zeros), ("the rest of another file", rest)):
        yield case(bench, f"{name} behind a copy that has bytes too many", [more + tail, damaged(made)], 0, true, "they were cut from")
        yield case(bench, f"{name}, and each has bytes too many", [more + tail, more_in_frame(made)], 0, true, "they were cut from")
    yield "no tail: no cut", not without_tails([gone, true]).cut
    yield case(bench, "the same, and it ends before", [gone[:-1], true + rest], 1, b"", "what stands after the last element")
    size = -(len(true) + 12) % 512  # bytes of an element that ends the file at a border of sectors
    even = true + element(0xFFFCFFFC, "OB", bytes(size))
    shorter = even[:600] + even[616:]
    yield case(bench, "the same, and the elements end at a border", [shorter, even + rest], 1, b"", "what stands after the last element")
    size = -(len(true) - 16 + 12) % 512  # the same of the shorter copy alone
    even = true + element(0xFFFCFFFC, "OB", bytes(size))
    shorter = even[:600] + even[616:]
    yield case(bench, "the same, and the shorter one does", [shorter, even + rest], 1, b"", "what stands after the last element")
    other = changed(gone, (len(gone) - 9, b"\1"))
    yield case(bench, "the same, and it ends with other bytes", [other, true + rest], 1, b"", "what stands after the last element")
    padded = true + element(0xFFFCFFFC, "OB", bytes(300))
    cut = padded[:600] + padded[616:-100]
    yield case(bench, "the same, and it is cut inside of zeros", [cut, padded + rest], 1, b"", "what stands after the last element")


TAILS = [checks_of_tails]
