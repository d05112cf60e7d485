"""Mends one frame by samples that another copy has uncompressed.

Raw samples show no damage by themselves. So they are coded as the frame is, and nothing is taken of them but what its own bytes confirm:
jls-splice has to promise the picture, from a stream with zeros at one place. And no sample with one byte changed may fit the bytes of the
frame as well, since that could be the true one.
"""
from __future__ import annotations

import struct
from collections.abc import Callable, Iterator, Sequence
from dataclasses import dataclass
from typing import Optional

from jls_tools.frames.codestream import EOI, unpadded
from jls_tools.frames.coder import Lines, Params, Picture, Trials, coded
from jls_tools.frames.codings import Coding, coding_of, segments
from jls_tools.frames.mending import FrameMender, Mended
from jls_tools.frames.mending_codings import MARK, MARRED

CONFIRMED = "an uncompressed copy has what was lost, and the bytes of the frame confirm it"
UNCONFIRMED = "an uncompressed copy has its lines, and nothing confirms them"
Samples = Callable[[int], Optional[Sequence[Lines]]]  # those of a frame by component and row, if they have so many bits
SOI, FRAME_HEADER, PRESETS, RESTARTS, SCAN_HEADER = b"\xff\xd8", 0xF7, 0xF8, 0xDD, 0xDA
BY_LINE = 1
FILLED_END = b"\xff" + EOI
LEAST_HELD = 8  # equal bytes in a row: fewer can be equal by chance where the others were lost
MOST_SAMPLES = 1 << 22  # of a frame


@dataclass
class Model:
    """The headers of a codestream that has nothing in them but what its samples confirm."""

    head: bytes  # all before the first scan header
    coding: Coding
    rows: int
    columns: int
    names: list[int]  # of the components
    end: bytes  # EOI, after a fill byte where some writers make the length even so

    @property
    def scans(self) -> list[list[int]]:
        """The components of each scan."""
        each = self.coding.interleave[0]
        return [list(range(at, at + each)) for at in range(0, len(self.names), each)]

    def scan_header(self, components: Sequence[int]) -> bytes:
        named = b"".join(bytes([self.names[at], 0]) for at in components)
        return segment(SCAN_HEADER, bytes([len(components)]) + named + bytes([0, self.coding.interleave[1], 0]))


def segment(code: int, payload: bytes) -> bytes:
    return bytes([0xFF, code]) + struct.pack(">H", 2 + len(payload)) + payload


def model_of(stream: bytes) -> Optional[Model]:
    """The headers of a codestream, if they have usual names of components and no more segments than they need."""
    coding, found = coding_of(stream), list(segments(stream))
    if coding is None or len({code for code, _ in found}) < len(found) or found[0][0] == SCAN_HEADER:
        return None
    head = SOI + b"".join(segment(code, payload) for code, payload in found[:-1])
    frame = dict(found).get(FRAME_HEADER, b"")
    if {code for code, _ in found} - {FRAME_HEADER, PRESETS, RESTARTS, SCAN_HEADER} or len(frame) < 6 or not stream.startswith(head):
        return None
    _, rows, columns, count = struct.unpack_from(">BHHB", frame)
    names = list(frame[6::3])
    is_plain = frame[6:] == b"".join(bytes([name, 0x11, 0]) for name in names) and names in usual_names(count)
    has_fill = len(stream) % 2 == 0 and stream.endswith(FILLED_END)
    model = Model(head, coding, rows, columns, names, FILLED_END if has_fill else EOI)
    if not is_plain or not has_usual_scans(coding, count) or not stream.startswith(head + model.scan_header(model.scans[0])):
        return None
    return model if coding.presets[0] < 1 << coding.precision else None


def usual_names(count: int) -> tuple[list[int], list[int]]:
    return list(range(1, count + 1)), list(range(count))


def has_usual_scans(coding: Coding, count: int) -> bool:
    """Whether there is a scan for each component, or one by line for all."""
    return coding.interleave in ((1, 0), (count, BY_LINE)) and count > 0


@dataclass
class Coded:
    """A frame as it was coded: its bytes, and where the data of each scan begins, with what it was coded from."""

    stream: bytes
    scans: list[tuple[int, bytes, Picture]]
    params: Params

    def has_other(self, held: Sequence[bool]) -> bool:
        """Whether other samples fit the bytes that are held."""
        parts = ((picture, data, held[begin : begin + len(data)]) for begin, data, picture in self.scans)
        return any(Trials(self.params, picture, data, part).has_other() for picture, data, part in parts if not all(part))


def coded_as(model: Model, planes: Sequence[Lines]) -> Optional[Coded]:
    """Samples, by component and row, as a codestream with these headers; nothing if they aren't of such a frame."""
    is_same = len(planes) == len(model.names) and all(len(plane) == model.rows for plane in planes)
    if not is_same or not model.rows * model.columns or len(planes) * model.rows * model.columns > MOST_SAMPLES:
        return None
    if any(len(line) != model.columns or max(line) > model.coding.presets[0] for plane in planes for line in plane):
        return None
    params, stream, scans = Params(model.coding.presets), model.head, []
    for components in model.scans:
        picture = Picture([planes[at] for at in components], model.coding.rows)
        stream, data = stream + model.scan_header(components), coded(params, picture)
        scans.append((len(stream), data, picture))
        stream += data
    return Coded(stream + model.end, scans, params)


def held_by(whole: bytes, streams: Sequence[bytes]) -> list[bool]:
    """Of each byte of a codestream, whether one of these has it, beside others that it has."""
    held = [False] * len(whole)
    for stream in map(unpadded, streams):
        for begin, end in held_ranges(whole, stream):
            held[begin:end] = [True] * (end - begin)
    return held


def held_ranges(whole: bytes, stream: bytes) -> Iterator[tuple[int, int]]:
    """What a damaged stream has of a whole one: ranges of equal bytes, or of one with another length its equal beginning and end."""
    apart = [at for at, (one, other) in enumerate(zip(whole, stream)) if one != other]
    if len(whole) == len(stream):
        borders = [-1, *apart, len(whole)]
    else:
        first = apart[0] if apart else min(len(whole), len(stream))
        behind = zip(reversed(whole), reversed(stream))
        last = next((at for at, (one, other) in enumerate(behind) if one != other), min(len(whole), len(stream)) - first)
        borders = [-1, first, len(whole) - min(last, len(stream) - first) - 1, len(whole)]
    for before, behind_it in zip(borders, borders[1:]):
        if behind_it - before > LEAST_HELD:
            yield before + 1, behind_it


class WitnessMender:
    """Mends frames by uncompressed samples, in the folder of a FrameMender."""

    def __init__(self, mender: FrameMender) -> None:
        self.mender = mender

    def mend(self, mended: Mended, streams: Sequence[bytes], samples: Samples) -> Mended:
        """What a frame came to, of these streams, with the samples that another copy has of it."""
        own = [stream for stream in dict.fromkeys(streams) if stream.strip(b"\0")]
        found = next((each for each in (coded_by(stream, samples) for stream in own) if each is not None), None)
        if mended.is_whole or found is None:
            return mended
        whole = self.promised(mended.result.number, own, found.stream)
        if whole is not None and not found.has_other(held_by(found.stream, own)):
            whole.result.note = CONFIRMED
            return whole
        if self.mender.wants_all:
            mended.others = [*mended.others, found.stream]
        before, mended.result.note = mended.result.note, UNCONFIRMED
        if before:
            mended.result.note = "; ".join((before, UNCONFIRMED))
        return mended

    def promised(self, number: int, own: Sequence[bytes], stream: bytes) -> Optional[Mended]:
        """This stream as a Mended, if jls-splice promises its picture where it has zeros at one place."""
        for part in MARRED:
            at = int(len(stream) * part)
            streams = [*own, stream[:at] + bytes(MARK) + stream[at + MARK :]]
            names = [self.mender.put(self.mender.name(number, f"-{each}.witness"), data) for each, data in enumerate(streams)]
            try:
                found = self.mender.of_several(number, streams, names, ".witnessed")
            finally:
                self.mender.drop(names)
            if found.is_whole and found.stream == stream and found.result.promise.startswith("picture"):
                return found
        return None


def coded_by(stream: bytes, samples: Samples) -> Optional[Coded]:
    """Samples as they are in a codestream with the headers of this one."""
    model = model_of(stream)
    planes = samples(model.coding.precision) if model is not None else None
    return coded_as(model, planes) if model is not None and planes is not None else None
