"""Checks of files with thousands of frames, and of lengths that lie: frames that read take no process, and time grows as their number."""
from __future__ import annotations

import hashlib
import struct
import time
from typing import Any, Iterator, List, Tuple

from dicom_files import Bench, File, changed, frame
from jls_tools.dicom import mend
from jls_tools.programs import Outcome, Programs

Check = Tuple[str, bool]
MANY = 12000
MOST_SECONDS = 40  # a walk whose time grows as a square of the frames takes some minutes


class Counting(Programs):
    """The programs, and how often they were run."""

    def __init__(self) -> None:
        super().__init__()
        self.runs = 0

    def run(self, *words: Any, **more: Any) -> Outcome:
        self.runs += 1
        return super().run(*words, **more)


def numbered(stream: bytes, number: int) -> bytes:
    """A codestream with a comment behind its SOI, so that no two are equal (T.81, B.2.4.5)."""
    return stream[:2] + b"\xff\xfe\0\x22" + hashlib.sha256(str(number).encode()).hexdigest()[:32].encode() + stream[2:]


def many_frames(count: int, rng: Any, folder: str) -> File:
    """A file of small frames of a few pictures."""
    streams = [frame(rng, 8, 8, 8, folder) for _ in range(4)]
    return File([numbered(streams[at % 4], at) for at in range(count)], 8, 8, 8)


def checks_of_many_frames(folder: str, rng: Any) -> Iterator[Check]:
    """A file of thousands of frames, of which one is damaged in each copy."""
    many = many_frames(MANY, rng, folder)
    places = [many.items[at] + 60 for at in (MANY // 3, MANY // 2)]
    names: List[str] = []
    for at, place in enumerate(places):
        names.append(f"{folder}/many-{at}.dcm")
        with open(names[-1], "wb") as file:
            file.write(changed(many.bytes, (place, bytes(12))))
    programs, begun = Counting(), time.process_time()
    result = mend.mend(names, f"{folder}/many.dcm", None, programs)
    seconds = time.process_time() - begun
    with open(f"{folder}/many.dcm", "rb") as file:
        is_same = file.read() == many.bytes
    yield f"{MANY} frames: the same file ({result.status}, {result.notes})", (result.status, is_same) == (0, True)
    yield f"{MANY} frames: no program for those that read ({programs.runs})", programs.library is None or programs.runs <= 20
    yield f"{MANY} frames: {seconds:.1f} seconds", seconds < MOST_SECONDS


def checks_of_lying_lengths(bench: Bench, made: File) -> Iterator[Check]:
    """Lengths of the group, of an item and of an element that lie: the other copy has them, and no time or memory goes into them."""
    true, first = made.bytes, made.items[0]
    name = made.name_at - 2
    other = changed(true, (first + 70, bytes(8)))
    for length in (0, 3, 0x7FFFFFF0, 0xFFFFFFFE, 0xFFFFFFFF):
        lie = struct.pack("<I", length)
        for what, copy in (
            ("the group length", changed(true, (140, lie))),
            ("an item length", changed(true, (first + 4, lie))),
            ("the last item length", changed(true, (made.items[-1] + 4, lie))),
            ("the length of a name", changed(true, (name, lie[:2]))),
        ):
            begun = time.process_time()
            status, out, printed, faults, _ = bench.mend([copy, other])
            seconds = time.process_time() - begun
            yield f"{what}, {length}: the same file, or none ({status}, {printed}, {faults})", out in (None, true) and status in (0, 1)
            yield f"{what}, {length}: {seconds:.1f} seconds", seconds < 2 and "Traceback" not in faults
    for what, place in (("the group length", 140), ("an item length", first + 4)):
        status, out, printed, _, _ = bench.mend([changed(true, (place, b"\xfe\xff\xff\x7f")), other])
        yield f"{what} that lies in one copy: the same file ({status}, {printed})", (status, out) == (0, true)


def checks_of_other_items(bench: Bench, made: File) -> Iterator[Check]:
    """Two copies that have a border of items at two places: either can be the true one, so no frame beside it is told as whole."""
    true, first, second = made.bytes, *made.items[:2]
    sizes = [int.from_bytes(true[at + 4 : at + 8], "little") for at in (first, second)]
    moved = b"\xfe\xff\x00\xe0" + struct.pack("<I", sizes[1] + 8)
    other = changed(true, (first + 4, struct.pack("<I", sizes[0] - 8)), (second - 8, moved), (second, bytes(range(1, 9))))
    status, out, printed, faults, _ = bench.mend([true, other])
    told = [f"frame {number} disputed, " in printed for number in (0, 1)]
    yield f"other items: undecided ({status}, {printed}, {faults})", (status, out, told) == (1, None, [True, True])
    yield "other items: the frames behind them are whole", all(f"frame {number} whole" in printed for number in (2, 3))


MANY_FRAMES = (checks_of_many_frames, checks_of_lying_lengths, checks_of_other_items)
