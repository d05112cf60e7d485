"""Checks of frames that are interleaved by sample, as GDCM writes colour: jls-splice reads them for jls-dicom, and jls-salvage doesn't."""
from __future__ import annotations

import random
from collections.abc import Iterator, Sequence

import coded_pictures
from coded_pictures import OTHER, Coding, coded, some_lines
from dicom_files import Bench, File, called, changed, get
from jls_tools import partial_picture
from jls_tools.frames.by_sample import is_by_sample, scan_of

plain = coded_pictures.coder
Check = tuple[str, bool]
WIDTH, HEIGHT, COMPONENTS = 32, 24, 3
PIXELS = Coding(are_pixels=True)
DAMAGED = "\ndamaged: no line decodes; jls-splice needs a second copy\n"


def file_of(lines: Sequence[Sequence[Sequence[int]]], coding: Coding = PIXELS, bits: int = 8, components: int = COMPONENTS) -> File:
    """A DICOM file of frames with these lines."""
    return File([coded(coding, bits, components, each) for each in lines], bits, WIDTH, HEIGHT, samples=components)


def lines_of(rng: random.Random, bits: int = 8, components: int = COMPONENTS) -> list[list[int]]:
    """Noise on a slope below rows of one colour, so that there are runs."""
    even = [[40 + component] * WIDTH for component in range(components)]
    return even * 3 + some_lines(rng, bits, WIDTH, HEIGHT - 3, components)


def zeroed(made: File, part: float, frame: int = 0, size: int = 8) -> bytes:
    """A copy with zeros at this part of a frame."""
    begin = made.items[frame] + 8 + int(len(made.frames[frame]) * part)
    return bytes(changed(made.bytes, (begin, bytes(size))))


def rows_in(lines: Sequence[Sequence[int]], bits: int, size: int) -> int:
    """How many rows have their whole code in so many bytes of scan data, by the plain coder."""
    params, code = plain.Params(bits), coded_pictures.pixels.code
    data = plain.data_bits(plain.pack(code(params, WIDTH, COMPONENTS, lines))[:size])
    sizes = (len(code(params, WIDTH, COMPONENTS, lines[: COMPONENTS * row])) for row in range(1, HEIGHT + 1))
    return sum(each <= len(data) for each in sizes)


def checks_of_pixels(bench: Bench, rng: random.Random, work: str) -> Iterator[Check]:
    """A frame by sample reads and is mended as any, to the byte."""
    for bits, components in ((8, 3), (12, 3), (16, 3), (8, 4), (8, 2)):
        made, name = file_of([lines_of(rng, bits, components)], PIXELS, bits, components), f"{bits} bits, {components} components"
        first, second = zeroed(made, 0.3), zeroed(made, 0.7)
        for kind, copies in (("one damaged", [made.bytes, first]), ("both", [first, second]), ("three", [second, first, first])):
            status, out, printed, faults, _ = bench.mend(copies)
            is_told = f"frame 0 whole, settled {HEIGHT * components}, " in printed
            yield f"{name}, {kind}: the same file ({status}, {printed}, {faults})", (status, out == made.bytes, is_told) == (0, True, True)
        status, printed, faults = called("info", bench_file(work, made.bytes))
        is_told = "JPEG-LS lossless, interleaved by sample\n" in printed and f"whole, settled {HEIGHT * components}, " in printed
        yield f"{name}, info: whole ({status}, {printed}, {faults})", (status, is_told) == (0, True)
        status, printed, faults = called("info", bench_file(work, first))
        is_told = f"\nframe 0 missing, settled 0, missing {HEIGHT * components}, " in printed and printed.endswith(DAMAGED)
        yield f"{name}, info: damaged ({status}, {printed}, {faults})", (status, is_told, "not supported" in printed) == (1, True, False)


def bench_file(work: str, data: bytes) -> str:
    with open(f"{work}/by-sample.dcm", "wb") as file:
        file.write(data)
    return f"{work}/by-sample.dcm"


def checks_of_parts_of_pixels(bench: Bench, rng: random.Random, work: str) -> Iterator[Check]:
    """What one copy gives: whole rows where it is cut off, and all other restart intervals; and what is filled."""
    for bits in (8, 16):
        lines = lines_of(rng, bits)
        stream = coded(PIXELS, bits, COMPONENTS, lines)
        begin = begin_of(stream)
        for part in (0.2, 0.55, 0.9):
            end = begin + int((len(stream) - begin) * part)
            settled = COMPONENTS * rows_in(lines, bits, end - begin)
            status, printed, faults = called("info", bench_file(work, stream[:end]))
            told = f"settled {settled}, missing {COMPONENTS * HEIGHT - settled}, disputed 0" in printed
            yield f"{bits} bits, cut at {part}: {settled} lines ({status}, {printed}, {faults})", (status, told) == (1, True)
    lines = lines_of(rng)
    made = file_of([lines], Coding(rows=6, are_pixels=True))
    first = zeroed(made, 0.4)
    status, printed, faults = called("info", bench_file(work, first))
    told = "settled 54, missing 18, disputed 0" in printed
    yield f"one restart interval of four damaged ({status}, {printed}, {faults})", (status, told) == (1, True)
    status, out, printed, _, _ = bench.mend([first, zeroed(made, 0.9)])
    yield f"two of them, one in each copy: the same file ({status}, {printed})", (status, out == made.bytes) == (0, True)
    status, _, printed, _, name = bench.mend([first], "--header", "COPY0")
    kept = partial_of(f"{name}.frames/frame-0000.jlsp")
    lost = {(component, row) for component in range(COMPONENTS) for row in range(6, 12)}
    whole = {(at % COMPONENTS, at // COMPONENTS): line for at, line in enumerate(lines)}
    yield f"the lines beside it are true ({status}, {printed})", kept == {at: line for at, line in whole.items() if at not in lost}
    status, out, printed, _, _ = bench.mend([first], "--header", "COPY0", "--with-gaps", "7")
    is_by_line = out is not None and not is_by_sample(out[out.rindex(b"\xff\xd8\xff") :])
    yield f"OUT has a value for the others, coded by line ({status}, {printed})", (status, is_by_line) == (1, True)


def begin_of(stream: bytes) -> int:
    """Where the data of the scan by sample begin."""
    scan = scan_of(stream)
    return scan.end() if scan else 0


def partial_of(path: str) -> dict[tuple[int, int], list[int]]:
    """The settled lines of a partial picture: the samples of each by component and row."""
    text = get(path)
    readings = partial_picture.PartialPicture(text).readings if text else {}
    samples = {at: found[0].samples for at, found in readings.items() if len(found) == 1}
    return {at: [*memoryview(each[1::2])] for at, each in samples.items() if not any(each[::2])}


def checks_of_frames_of_pixels(bench: Bench, rng: random.Random) -> Iterator[Check]:
    """Several frames, and frames beside near-lossless ones."""
    made = file_of([lines_of(rng), lines_of(rng), lines_of(rng)])
    copies = [changed(zeroed(made, 0.3), (made.items[2] + 200, bytes(8))), zeroed(made, 0.7, 1)]
    status, out, printed, _, _ = bench.mend(copies)
    yield f"three frames, each in one copy: the same file ({status}, {printed})", (status, out == made.bytes) == (0, True)
    near = bytearray(made.frames[0])
    near[begin_of(near) - 3] = 3
    lossy = File([bytes(near)] * 2, 8, WIDTH, HEIGHT, samples=COMPONENTS)
    status, out, _, faults, _ = bench.mend([lossy.bytes, zeroed(lossy, 0.5)])
    named = "not supported: near-lossless coding" in faults
    yield f"near-lossless: refused by its name ({status}, {faults})", (status, out, named) == (3, None, True)


def checks_of_pixels_beside(bench: Bench, rng: random.Random) -> Iterator[Check]:
    """Copies by sample beside such by line, in planes, or with other thresholds. They give each other lines: the whole one stands."""
    lines = lines_of(rng)
    codings = (PIXELS, Coding(), Coding(are_planes=True), Coding(OTHER.thresholds, OTHER.reset, are_pixels=True))
    made = [file_of([lines], coding) for coding in codings]
    for at, other in enumerate(made[1:], 1):
        status, out, printed, _, _ = bench.mend([made[0].bytes, other.bytes])
        yield f"beside coding {at}, both whole: the first stands ({status}, {printed})", (status, out == made[0].bytes) == (0, True)
        for name, whole, copies in (
            ("first", made[0].bytes, [made[0].bytes, zeroed(other, 0.7)]),
            ("second", other.bytes, [zeroed(made[0], 0.3), other.bytes]),
        ):
            status, out, printed, _, _ = bench.mend(copies)
            yield f"beside coding {at}, the {name} is whole: it stands ({status}, {printed})", (status, out == whole) == (0, True)
        status, out, printed, _, _ = bench.mend([zeroed(made[0], 0.3), zeroed(other, 0.7)])
        yield f"beside coding {at}, both damaged: nothing false ({status}, {printed})", out in (None, made[0].bytes, other.bytes)
    damaged = bytearray(made[1].frames[0])
    damaged[damaged.index(b"\xff\xda") + 12] = 2
    lying = changed(made[1].bytes, (made[1].items[0] + 8, bytes(damaged)))
    for copies in ([lying, made[1].bytes], [made[1].bytes, lying], [lying, zeroed(made[1], 0.5)]):
        status, out, printed, _, _ = bench.mend(copies)
        yield f"a header that says by sample of lines ({status}, {printed})", (status, out == made[1].bytes) == (0, True)


BY_SAMPLE = [checks_of_pixels, checks_of_parts_of_pixels, checks_of_frames_of_pixels, checks_of_pixels_beside]
