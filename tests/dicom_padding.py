"""Checks of frames that are cut off at an odd length: the byte 00 that makes their item even is no code of theirs."""
from __future__ import annotations

import os
import random
from collections.abc import Iterator, Sequence

import coded_pictures
from coded_pictures import Coding, coded
from dicom_by_sample import HEIGHT, WIDTH, bench_file, begin_of, partial_of
from dicom_files import Bench, File, called, changed, get
from jls_tools.frames.codestream import without_padding
from jls_tools.programs import Programs

plain = coded_pictures.coder
Check = tuple[str, bool]
Lines = dict[tuple[int, int], list[int]]
COMPONENTS, SECTOR = 3, 512
PIXELS = Coding(are_pixels=True)
EOI = b"\xff\xd9"


def noise(rng: random.Random, height: int = HEIGHT) -> list[list[int]]:
    return [[rng.randrange(256) for _ in range(WIDTH)] for _ in range(height * COMPONENTS)]


def file_of(stream: bytes, height: int = HEIGHT, components: int = COMPONENTS) -> File:
    return File([stream], 8, WIDTH, height, samples=components)


def rows_of(lines: Sequence[Sequence[int]], first: int, last: int) -> Lines:
    """The lines of these rows by component and row."""
    return {(at % COMPONENTS, at // COMPONENTS): list(line) for at, line in enumerate(lines) if first <= at // COMPONENTS < last}


class Rows:
    """How many rows of a scan by sample have their whole code in its first bytes, by the plain coder."""

    def __init__(self, lines: Sequence[Sequence[int]]) -> None:
        params, code = plain.Params(8), coded_pictures.pixels.code
        self.data = plain.pack(code(params, WIDTH, COMPONENTS, lines))
        rows = range(COMPONENTS, len(lines) + 1, COMPONENTS)
        self.sizes = [len(code(params, WIDTH, COMPONENTS, lines[:row])) for row in rows]

    def within(self, size: int) -> int:
        bits = len(plain.data_bits(self.data[:size]))
        return sum(each <= bits for each in self.sizes)


def odd_cuts(stream: bytes, rng: random.Random, count: int) -> list[int]:
    """Odd lengths in the second half of a codestream, before its EOI."""
    return [rng.randrange(len(stream) // 2, len(stream) - 4) | 1 for _ in range(count)]


def kept_of(bench: Bench, copies: Sequence[bytes]) -> tuple[Lines, str]:
    """(the lines that `mend` keeps of the frame of these copies, what it printed)."""
    words = ["--header", "COPY0"] if len(copies) == 1 else []
    _, _, printed, _, name = bench.mend(list(copies), *words)
    return partial_of(f"{name}.frames/frame-0000.jlsp"), printed


def checks_of_padding(bench: Bench, rng: random.Random, work: str) -> Iterator[Check]:
    """The rows before the cut come back: of one copy, of several, and as `info` and `frames` say."""
    for _ in range(2):
        lines = noise(rng)
        stream, all_rows = coded(PIXELS, 8, COMPONENTS, lines), Rows(lines)
        for cut in odd_cuts(stream, rng, 3):
            made, rows = file_of(stream[:cut]), all_rows.within(cut - begin_of(stream))
            wanted = rows_of(lines, 0, rows)
            other = changed(made.bytes, (made.name_at, b"E"))
            for name, copies in (("one", [made.bytes]), ("two equal", [made.bytes] * 2), ("two", [made.bytes, other])):
                found, printed = kept_of(bench, copies)
                yield f"cut at {cut}, {name}: {rows} rows ({printed})", found == wanted
            status, printed, _ = called("info", bench_file(work, made.bytes))
            yield f"cut at {cut}, info: {rows} rows ({printed})", status == 1 and f" settled {COMPONENTS * rows}, " in printed
            called("frames", bench_file(work, made.bytes), f"{work}/taken-{bench.count}")
            status, printed, _ = called("info", f"{work}/taken-{bench.count}/frame-0000.jls")
            yield f"cut at {cut}, frames: {rows} rows ({printed})", status == 1 and f" settled {COMPONENTS * rows}, " in printed


def checks_of_padded_intervals(bench: Bench, rng: random.Random) -> Iterator[Check]:
    """With restart markers only the last interval is cut off; beside a bad sector too."""
    height, step = 48, 12
    for _ in range(2):
        lines = noise(rng, height)
        stream = coded(Coding(rows=step, are_pixels=True), 8, COMPONENTS, lines)
        last = stream.rindex(b"\xff\xd2") + 2
        cut = (last + (len(stream) - last) * 2 // 3) | 1
        made, rows = file_of(stream[:cut], height), Rows(lines[COMPONENTS * (height - step) :]).within(cut - last)
        wanted = rows_of(lines, 0, height - step + rows)
        found, printed = kept_of(bench, [made.bytes])
        yield f"four intervals: {rows} rows of the last ({printed})", found == wanted
        at = -(-(made.items[0] + 8 + begin_of(stream)) // SECTOR) * SECTOR
        found, printed = kept_of(bench, [changed(made.bytes, (at, bytes(SECTOR)))])
        first = Rows(lines[: COMPONENTS * step]).within(at - made.items[0] - 8 - begin_of(stream))
        wanted = rows_of(lines, 0, first) | rows_of(lines, step, height - step + rows)
        yield f"and a bad sector: {rows} rows of the last, {first} of the first ({printed})", found == wanted


def checks_of_what_is_no_padding(bench: Bench, rng: random.Random, work: str) -> Iterator[Check]:
    """A row that the byte 00 would end is none; a last byte 00 of the code is no padding where all lines come with it."""
    for name, coding in (("by sample", PIXELS), ("by line", Coding())):
        stream = ending_in_zeros(coding, rng)
        made = file_of(stream[:-2], 2)
        _, printed, _ = called("info", bench_file(work, made.bytes))
        yield f"{name}, without EOI, code that ends in 00: all lines ({printed})", f"settled {COMPONENTS * 2}, missing 0" in printed
        called("frames", bench_file(work, made.bytes), f"{work}/{name}")
        yield f"{name}: the frame has its last byte", get(f"{work}/{name}/frame-0000.jls") == stream[:-2]
        _, _, printed, _, _ = bench.mend([made.bytes], "--header", "COPY0")
        yield f"{name}, mend: all lines ({printed})", f"settled {COMPONENTS * 2}, missing 0" in printed
    yield from checks_of_rows_by_padding(bench, rng, work)
    whole, padded = b"\xff\xd8\xff\xf7\0\2" + EOI, b"\xff\xd8\xff\xf7\0\2\0\0"
    yield "another copy has the EOI", without_padding([whole, padded]) == [whole, padded]
    yield "a shorter copy has none", without_padding([whole, padded[:-1]]) == [whole, padded[:-2]]
    yield "one byte alone", without_padding([padded]) == [padded[:-1]]


def ending_in_zeros(coding: Coding, rng: random.Random) -> bytes:
    """A codestream of even length whose code ends in a byte 00."""
    lines = noise(rng, 2)
    while True:
        lines[-1][-2:] = [rng.randrange(256), rng.randrange(256)]
        stream = coded(coding, 8, COMPONENTS, lines)
        if stream[-3] == 0 and len(stream) % 2 == 0:
            return stream


def smooth(rng: random.Random) -> list[list[int]]:
    return [[40 + rng.randrange(3) for _ in range(WIDTH)] for _ in range(HEIGHT * COMPONENTS)]


def settled_of(stream: bytes, work: str) -> int:
    """How many lines jls-splice settles of a codestream."""
    with open(f"{work}/alone.jls", "wb") as file:
        file.write(stream)
    return int(Programs().alone(os.devnull, "alone.jls", work).report.settled)


def checks_of_cut_files(bench: Bench, rng: random.Random, work: str) -> Iterator[Check]:
    """A file that ends in a frame has no padding there: a row that ends with a byte 00 counts."""
    found: list[bytes] = []
    while len(found) < 2:
        stream = coded(PIXELS, 8, COMPONENTS, smooth(rng))
        heads = (stream[:cut] for cut in range(begin_of(stream) + 60, begin_of(stream) + 120))
        found += [head for head in heads if settled_of(head, work) < settled_of(head + b"\0", work)][:1]
    for head in found:
        made = file_of(head + bytes(40))
        kept, printed = kept_of(bench, [made.bytes[: made.items[0] + 8 + len(head) + 1]])
        yield f"a file that ends in its frame: the last row too ({printed})", len(kept) == settled_of(head + b"\0", work)


def checks_of_rows_by_padding(bench: Bench, rng: random.Random, work: str) -> Iterator[Check]:
    """Of all odd lengths of a frame none gives a line that its own bytes don't, nor does one that a byte 00 gives a line more."""
    lines = smooth(rng)
    stream, all_rows = coded(PIXELS, 8, COMPONENTS, lines), Rows(lines)
    begin = begin_of(stream)
    for cut in range((begin + 60) | 1, begin + 160, 2):
        found, printed = kept_of(bench, [file_of(stream[:cut]).bytes])
        yield f"cut at {cut}: its rows ({printed})", found == rows_of(lines, 0, all_rows.within(cut - begin))
    head, wanted = ended_by_padding(rng, work)
    found, printed = kept_of(bench, [file_of(head).bytes])
    yield f"cut at {len(head)}, where a byte 00 ends a row: no such row ({printed})", found == wanted


def ended_by_padding(rng: random.Random, work: str) -> tuple[bytes, Lines]:
    """The beginning of a codestream, of odd length, of which a byte 00 gives jls-splice a row more; and the lines of its own rows."""
    while True:
        lines = smooth(rng)
        stream, all_rows = coded(PIXELS, 8, COMPONENTS, lines), Rows(lines)
        begin = begin_of(stream)
        for cut in range((begin + 60) | 1, begin + 200, 2):
            rows = all_rows.within(cut - begin)
            if settled_of(stream[:cut] + b"\0", work) > COMPONENTS * rows:
                return stream[:cut], rows_of(lines, 0, rows)


PADDING = [checks_of_padding, checks_of_padded_intervals, checks_of_what_is_no_padding, checks_of_cut_files]
