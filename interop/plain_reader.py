"""A plain reader of one JPEG-LS file that may be damaged, to compare with. It looks at the whole file at once. It is written from the
marker syntax of ITU-T T.81, annex B, and T.87, annex C, with these rules of this project for damage:

- Segments are read until EOI or the first fault. A file may end where a marker may begin, or in scan data. What was read before counts.
- An interval has Ri rows of the picture, the last one the rest; with Ri 0 there is one for all rows.
- Scan data ends at the first EOI, SOS, LSE, DRI, COM or APPn, and RSTm divides it into pieces. FF bytes before these markers are fill, and
  those at the end of the file are dropped. Every other marker belongs to its piece.
- The first piece is interval 0. The one after RSTm is the next interval that RSTm can precede. If the scan has no such interval, the
  piece is beyond, and counts for nothing.
- A last piece that the end of the file cuts gives its head: the first complete lines. That is so if what is there of the piece can be a
  prefix of some lines' code.

`tell` gives all that a reader finds in a file, as lines of text.
"""
from __future__ import annotations

import re
from typing import NamedTuple

import plain_coder

SOI, EOI, SOS, DRI, COM, SOF55, LSE = 0xD8, 0xD9, 0xDA, 0xDD, 0xFE, 0xF7, 0xF8
MARKER = re.compile(rb"\xff+([^\xff])", re.DOTALL)
SCAN_END = re.compile(rb"\xff+[\xd9\xda\xf8\xdd\xfe\xe0-\xef]")
RESTART = re.compile(rb"\xff+([\xd0-\xd7])")

LENGTH, BAD_SHAPE, SAMPLING, NO_FRAME, SECOND_FRAME, LOSSY, INTERLEAVE, MAPPING_TABLE, POINT_TRANSFORM, UNKNOWN_COMPONENT = range(1, 11)
REPEATED_COMPONENT, BAD_PARAMS, LSE_ID, UNKNOWN_MARKER, INTERVAL_TOO_LARGE, TOO_MANY_SCANS, NO_MARKER, NO_SOI, ENDED = range(11, 20)

MOST_SAMPLES, MOST_SCANS, MOST_RECORDS = 2**28, 16, 4096


class Fault(Exception):
    """The number of a fault of the headers."""


class Frame(NamedTuple):
    precision: int
    width: int
    height: int
    ids: list


class Scan(NamedTuple):
    """`components` are indices in the frame; `start` is the offset of the scan data."""

    components: list
    params: plain_coder.Params
    rows: int  # of an interval, the last one aside
    start: int


class Course(NamedTuple):
    """`end` is the words eoi, input or fault, its offset, and the fault's number."""

    frame: Frame | None
    scans: list
    end: tuple

    def is_final(self):
        """Whether no byte behind the file can change this."""
        return self.end[0] != "input" and self.end[2] != ENDED


# Segments --------------------------------------------------------------------------------------------


def course(file):
    """The segments of a file, up to its end."""
    headers, at = Headers(), 0
    while True:
        found, offset = MARKER.match(file, at), at
        try:
            if file[at:] == b"" and at > 0:
                return Course(headers.frame, headers.scans, ("input", at, 0))
            if not found:
                offset = len(file) if file[at:].strip(b"\xff") == b"" else at
                raise Fault(ENDED if offset == len(file) else NO_MARKER if at > 0 else NO_SOI)
            offset, code = found.end() - 2, found[1][0]
            if (code == SOI) != (at == 0):
                raise Fault(NO_SOI if at == 0 else UNKNOWN_MARKER)
            at = found.end()
            if code == EOI and headers.frame is None:
                raise Fault(NO_FRAME)
            if code == EOI:
                return Course(headers.frame, headers.scans, ("eoi", offset, 0))
            if code != SOI:
                at = headers.take(code, file, at)
        except Fault as fault:
            number = fault.args[0]
            return Course(headers.frame, headers.scans, ("fault", len(file) if number == ENDED else offset, number))


class Headers:
    """What the segments so far say."""

    def __init__(self):
        self.frame, self.scans, self.preset, self.interval = None, [], (0, 0, 0, 0, 0), 0

    def take(self, code, file, at):
        """Takes the segment whose length stands there, and gives the offset behind it, or behind the scan data that belong to it."""
        if code not in (SOS, DRI, COM, SOF55, LSE) and not 0xE0 <= code <= 0xEF:
            raise Fault(UNKNOWN_MARKER)
        if len(file) < at + 2:
            raise Fault(ENDED)
        stop = at + int.from_bytes(file[at : at + 2], "big")
        if stop < at + 2:
            raise Fault(LENGTH)
        if len(file) < stop:
            raise Fault(ENDED)
        payload = file[at + 2 : stop]
        if code == SOF55:
            self.take_frame(payload)
        elif code == LSE:
            self.take_preset(payload)
        elif code == DRI:
            check(len(payload) in (2, 3, 4), LENGTH)
            self.interval = int.from_bytes(payload, "big")
        elif code == SOS:
            self.take_scan(payload, stop)
            found = SCAN_END.search(file, stop)
            return found.start() if found else len(file)
        return stop

    def take_frame(self, payload):
        check(len(payload) >= 6 and len(payload) == 6 + 3 * payload[5], LENGTH)
        height, width = int.from_bytes(payload[1:3], "big"), int.from_bytes(payload[3:5], "big")
        frame = Frame(payload[0], width, height, list(payload[6::3]))
        check(2 <= frame.precision <= 16 and height > 0 and width > 0, BAD_SHAPE)
        check(1 <= len(frame.ids) <= 4 and len(set(frame.ids)) == len(frame.ids), BAD_SHAPE)
        check(all(factors == 0x11 for factors in payload[7::3]), SAMPLING)
        check(self.frame is None, SECOND_FRAME)
        self.frame = frame

    def take_preset(self, payload):
        check(payload != b"", LENGTH)
        check(payload[0] in (1, 2, 3), LSE_ID)
        if payload[0] == 1:
            check(len(payload) == 11, LENGTH)
            self.preset = tuple(int.from_bytes(payload[at : at + 2], "big") for at in range(1, 11, 2))

    def take_scan(self, payload, start):
        check(payload != b"" and 1 <= payload[0] <= 4 and len(payload) == 4 + 2 * payload[0], LENGTH)
        named, tables, (near, interleave, transforms) = payload[1:-3:2], payload[2:-3:2], payload[-3:]
        check(len(set(named)) == len(named), REPEATED_COMPONENT)
        check(not any(tables), MAPPING_TABLE)
        check(near == 0, LOSSY)
        check(interleave == 1 or interleave == 0 and len(named) == 1, INTERLEAVE)
        check(transforms & 15 == 0, POINT_TRANSFORM)
        check(self.frame is not None, NO_FRAME)
        check(all(name in self.frame.ids for name in named), UNKNOWN_COMPONENT)
        params = plain_coder.Params(self.frame.precision, *self.preset)
        check(1 <= params.maxval < 2**self.frame.precision, BAD_PARAMS)
        check(1 <= params.t1 <= params.t2 <= params.t3 <= params.maxval, BAD_PARAMS)
        check(3 <= params.reset <= max(255, params.maxval), BAD_PARAMS)
        rows = min(self.interval or self.frame.height, self.frame.height)
        check(rows * self.frame.width * len(named) <= MOST_SAMPLES, INTERVAL_TOO_LARGE)
        check(len(self.scans) < MOST_SCANS, TOO_MANY_SCANS)
        self.scans.append(Scan([self.frame.ids.index(name) for name in named], params, rows, start))


def check(holds, number):
    if not holds:
        raise Fault(number)


# Scan data -------------------------------------------------------------------------------------------


def pieces(file, start):
    """The pieces of the scan data that begin there: m of the RSTm before it (None for the first), offset, bytes."""
    end = SCAN_END.search(file, start)
    data = file[start : end.start()] if end else file[start:].rstrip(b"\xff")
    marks = list(RESTART.finditer(data))
    offsets = [0] + [mark.end() for mark in marks]
    stops = [mark.start() for mark in marks] + [len(data)]
    behind = [None] + [mark[1][0] - 0xD0 for mark in marks]
    return [(m, start + offset, data[offset:stop]) for m, offset, stop in zip(behind, offsets, stops)]


def intervals(file, scan, height):
    """The same pieces with the numbers of their intervals: number, whether there is such an interval, offset, bytes."""
    count, last, numbered = -(-height // scan.rows), 0, []
    for m, offset, piece in pieces(file, scan.start):
        number = 0 if m is None else next(number for number in range(last + 1, last + 9) if (number - 1) % 8 == m)
        numbered.append((number, number < count, offset, piece))
        last = number if number < count else last
    return numbered


def readings_and_records(file, found):
    """All (component, line, samples) that the pieces give, and (scan, interval, offset, kind) of those that give none."""
    readings, records = set(), []
    for at, scan in enumerate(found.scans):
        width, height, components = found.frame.width, found.frame.height, len(scan.components)
        numbered = intervals(file, scan, height)
        for number, is_there, offset, piece in numbered:
            rows = min(scan.rows, height - number * scan.rows)
            lines = plain_coder.read(scan.params, width, components, rows, piece) if is_there else "beyond"
            if isinstance(lines, str):
                records.append((at, number, offset, lines))
                is_cut = is_there and offset == numbered[-1][2] and not SCAN_END.search(file, scan.start)
                lines = plain_coder.head(scan.params, width, components, rows, piece) if is_cut else []
            for i, line in enumerate(lines):
                readings.add((scan.components[i % components], number * scan.rows + i // components, tuple(line)))
    return readings, records


# Words -----------------------------------------------------------------------------------------------


def words(*facts):
    return " ".join(str(fact) for fact in facts)


def first_final(file: bytes) -> int:
    """The number of its first bytes that settle its end."""
    low, high = 0, len(file)
    while low < high:
        middle = (low + high) // 2
        low, high = (low, middle) if course(file[:middle]).is_final() else (middle + 1, high)
    return low


def tell(file):
    """What the file gives, and the number of its first bytes that settle its end (None where more bytes can change it)."""
    found = course(file)
    done = first_final(file) if found.is_final() else None
    kind, offset, number = found.end
    if found.frame is None:
        return [words("no picture", number if kind == "fault" else ENDED, offset)], done
    readings, records = readings_and_records(file, found)
    told = [words("end", kind, *[number] * (kind == "fault"), offset)]
    told.append(words("shape", found.frame.precision, found.frame.width, found.frame.height, *found.frame.ids))
    told.append(words("faulty", len(records)))
    told += [words("piece", *record) for record in records[:MOST_RECORDS]]
    told += [words("reading", component, line, *samples) for component, line, samples in sorted(readings)]
    return told, done
