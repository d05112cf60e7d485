"""Checks of what `jls-dicom info` says of files that are intact and not supported, and of one that is damaged; such files."""
from __future__ import annotations

import os
import random
from collections.abc import Iterator

from dicom_files import HERE, Bench, File, called, changed, frame, get

Check = tuple[str, bool]

SCAN = b"\xff\x11\x42" * 20 + b"\xff\xd9"  # the headers alone tell, so that a scan of anything will do


def near_of(stream: bytes) -> bytes:
    """A codestream that says NEAR 3."""
    at = stream.index(b"\xff\xda")
    return changed(stream, (at + 2 + int.from_bytes(stream[at + 2 : at + 4], "big") - 3, b"\3"))


def unsupported(stream: bytes) -> dict[str, bytes]:
    """{its name: a codestream of a kind that isn't read}, by T.87, C.2.2 and C.2.3, and T.81, B.2.2."""
    three = "ffd8fff70011080010001003011100021100031100ffda000c03010002000300"
    size, one = "080010001001", bytes.fromhex("ffda0008010100000000") + SCAN
    return {
        "near-lossless coding": near_of(stream),
        "one component interleaved by sample": bytes.fromhex(f"ffd8fff7000b{size}011100 ffda0008010100000200") + SCAN,
        "several components in a scan without interleaving": bytes.fromhex(f"{three}000000") + SCAN,
        "a mapping table": bytes.fromhex(f"ffd8fff7000b{size}011100 fff80006020101aa ffda0008010101000000") + SCAN,
        "subsampling": bytes.fromhex(f"ffd8fff7000b{size}012200") + one,
        "a height of 0": bytes.fromhex("ffd8fff7000b08000000100101 1100") + one,
        "a point transform": bytes.fromhex(f"ffd8fff7000b{size}011100 ffda0008010100000001") + SCAN,
    }


def unsupported_by_sample() -> dict[str, bytes]:
    """The same of three components that are interleaved by sample."""
    three = "ffd8fff700110800100010030111000211000311"
    scan = "00ffda000c03010002000300"
    large = "ffd8fff70011 08 ffff ffff 03 011100021100031100ffda000c03010002000300000200"
    return {
        "near-lossless coding": bytes.fromhex(f"{three}{scan}030200") + SCAN,
        "a mapping table": bytes.fromhex(f"{three}00ffda000c03010002010300000200") + SCAN,
        "a point transform": bytes.fromhex(f"{three}{scan}000201") + SCAN,
        "subsampling": bytes.fromhex(f"{three[:-2]}22{scan}000200") + SCAN,
        "an interval of more than 2^28 samples": bytes.fromhex(large) + SCAN,
    }


def checks_of_info(work: str, rng: random.Random) -> Iterator[Check]:
    stream, name = frame(rng, 8, 16, 12, work), f"{work}/one.jls"
    for kind, data in [*unsupported(stream).items(), *unsupported_by_sample().items()]:
        with open(name, "wb") as file:
            file.write(data)
        status, printed, _ = called("info", name)
        named = f"\nframe 0 not supported: {kind}, " in printed and printed.endswith(f"\nnot supported: {kind}\n")
        yield f"info: {kind} ({status}, {printed})", (status, named, "missing" in printed) == (3, True, False)
    with open(name, "wb") as file:
        file.write(bytes.fromhex("ffd8ffc0000b080010001001011100") + SCAN)
    status, printed, faults = called("info", name)
    yield f"info: JPEG, lossy ({status}, {printed}, {faults})", status == 3 and "not supported: JPEG, lossy" in faults
    status, printed, _ = called("info", os.path.join(HERE, "examples", "head-first.jls"))
    told = "\ndamaged: no line decodes; jls-splice needs a second copy\n"
    yield f"info: damaged ({status}, {printed})", (status, printed.endswith(told), "not supported" in printed) == (1, True, False)
    with open(name, "wb") as file:
        file.write(stream)
    status, printed, _ = called("info", name)
    yield f"info: whole ({status}, {printed})", status == 0 and "damaged" not in printed and "not supported" not in printed


def checks_of_info_on_headers(made: File, folder: str) -> Iterator[Check]:
    """What of a header does not read is told so, at status 1, and frames that a search found are numbered by themselves."""
    name, true = f"{folder}/header.dcm", made.bytes
    samples, pixels = true.index(b"\x28\0\x02\0US"), true.index(b"\xe0\x7f\x10\0OB\0\0\xff")
    icon, count = true.index(b"\x88\0\x00\x02SQ"), true.index(b"\x28\0\x08\0IS")
    numbers = "header: 24x20, 12 bits, samples 1, frames 4"
    rest, only = "; the rest does not read", "; numbers count only these"
    cases: dict[str, tuple[bytes, int, str, str]] = {
        "nothing is damaged": (true, 0, numbers, "frames 4, found by items"),
        "its numbers are zeros": (changed(true, (samples, bytes(icon - samples))), 1, "header: does not read", "frames 4, found by items"),
        "its last numbers are zeros": (
            changed(true, (count, bytes(icon - count))),
            1,
            f"header: samples 1{rest}",
            "frames 4, found by items",
        ),
        "Number of Frames is noise": (
            changed(true, (count + 8, b"\x84")),
            1,
            f"header: 24x20, 12 bits, samples 1{rest}",
            "frames 4, found by items",
        ),
        "the header of Pixel Data is zeros": (
            changed(true, (icon, bytes(pixels + 12 - icon))),
            1,
            numbers,
            f"frames 4, found by search{only}",
        ),
        "two headers of items are zeros": (
            changed(true, (made.items[1], bytes(8)), (made.items[2], bytes(8))),
            0,
            numbers,
            f"frames 4, found by items, some of which don't read{only}",
        ),
    }
    for what, (data, wanted, header, found) in cases.items():
        with open(name, "wb") as file:
            file.write(data)
        status, printed, _ = called("info", name)
        lines = printed.splitlines()
        yield f"info: {what} ({status}, {printed})", status == wanted and {header, found} <= {*lines} and "None" not in printed


def checks_of_equal_frames(bench: Bench, made: File) -> Iterator[Check]:
    """Where no header leads to Pixel Data, equal frames come back each for itself, also where one of them is damaged in each copy."""
    frames = [made.frames[0], made.frames[0], made.frames[0], made.frames[1]]
    true = File(frames, 12, 24, 20, stored=16)
    pixels = true.bytes.index(b"\xe0\x7f\x10\0OB\0\0\xff")
    lost, first, second = changed(true.bytes, (pixels, bytes(12))), true.items[0] + 90, true.items[1] + 90
    cases = {
        "none is damaged": [lost, lost],
        "one copy": [lost],
        "others are damaged in each copy": [changed(lost, (first, b"abcdef")), changed(lost, (second + 110, b"ghijkl"))],
        "one is damaged in both": [changed(lost, (second, b"abcdef")), changed(lost, (second + 110, b"ghijkl"))],
    }
    for what, copies in cases.items():
        status, out, printed, _, name = bench.mend(copies)
        found = [(get(f"{name}.frames/frame-{number:04}.jls") or b"").rstrip(b"\0") for number in range(9)]
        counts = [found.count(frame) for frame in frames[2:]]
        yield f"equal frames: {what} ({status}, {counts}, {printed})", (status, out, counts) == (1, None, [3, 1])


def checks_of_unsupported(bench: Bench, work: str, rng: random.Random) -> Iterator[Check]:
    """Copies of a coding that isn't read are refused by name; a frame of one is never filled as a lost one is."""
    stream = frame(rng, 8, 16, 12, work)
    near = File([near_of(stream)] * 2, 8, 16, 12).bytes
    other = changed(near, (near.rindex(b"\xff\xd9") - 40, b"abcdef"))
    status, out, _, faults, _ = bench.mend([near, other])
    named = "not supported: near-lossless" in faults
    yield f"near-lossless frames: refused by name ({status}, {faults})", (status, out, named) == (3, None, True)
    mixed = File([stream, near_of(stream)], 8, 16, 12).bytes
    for words in ((), ("--with-gaps", "0")):
        status, out, printed, _, _ = bench.mend([mixed, changed(mixed, (20, b"x"))], *words)
        told = "frame 1 not supported: near-lossless coding" in printed
        yield f"one near-lossless frame, {words}: no OUT ({status}, {printed})", (status, out, told) == (1, None, True)


INFO = [checks_of_info, checks_of_info_on_headers, checks_of_equal_frames, checks_of_unsupported]
