"""Checks of copies that are not compressed: they give what was lost where bytes of the JPEG-LS copies confirm it, and nothing else."""
from __future__ import annotations

import hashlib
import random
import struct
import zlib
from collections.abc import Iterator, Sequence
from dataclasses import dataclass, replace
from typing import Any, Optional, Union

from coded_pictures import OTHER, USUAL, Coding, coded, some_lines
from dicom_files import CLASS, UID, Bench, changed, element, item
from jls_tools.frames import codings, coder

Check = tuple[str, bool]
WIDTH, HEIGHT = 32, 24
BEGIN = 25  # bytes before the data of the first scan of a frame of one component
JPEG_LS = "1.2.840.10008.1.2.4.80"
IMPLICIT, EXPLICIT, DEFLATED, BIG = "1.2.840.10008.1.2", "1.2.840.10008.1.2.1", "1.2.840.10008.1.2.1.99", "1.2.840.10008.1.2.2"
NAMES = {IMPLICIT: "Implicit VR Little", EXPLICIT: "Explicit VR Little", DEFLATED: "Deflated Explicit", BIG: "Explicit VR Big"}
LONG = ("OB", "OW", "SQ", "UN")
Value = Union[bytes, list["Element"]]
Element = tuple[int, str, Any]  # a tag, a VR, and bytes, numbers of US, or the elements of the one item of a sequence


@dataclass
class Case:
    """An instance: its pictures as JPEG-LS, and what they are of. Each picture has its lines row by row, and in a row by component."""

    pictures: list[list[list[int]]]
    bits: int
    samples: int = 1
    coding: Coding = USUAL
    is_signed: bool = False
    allocated: int = 0
    planes: int = 0
    photometric: str = ""
    has_fill: bool = False  # whether a byte FF stands before EOI, where that makes the length even
    uid: str = UID
    width: int = WIDTH
    height: int = HEIGHT

    def elements(self) -> list[Element]:
        """The data set without Pixel Data."""
        text = [(0x80008, "CS", b"ORIGINAL\\PRIMARY"), (0x80016, "UI", CLASS.encode() + b"\0"), (0x80018, "UI", self.uid.encode() + b"\0")]
        text = [(tag, vr, value[: len(value) // 2 * 2]) for tag, vr, value in text]
        private = [(0x90010, "LO", b"PRIVATE "), (0x91001, "OB", bytes(range(64))), (0x100010, "PN", b"Doe^Jane")]
        picture = [(0x280002, "US", [self.samples]), (0x280004, "CS", self.color())]
        picture += [(0x280006, "US", [self.planes])] if self.samples > 1 else []
        count = str(len(self.pictures)).encode()
        picture += [(0x280008, "IS", count + b" " * (len(count) % 2)), (0x280010, "US", [self.height]), (0x280011, "US", [self.width])]
        picture += [(0x280100, "US", [self.in_bits()]), (0x280101, "US", [self.bits]), (0x280102, "US", [self.bits - 1])]
        picture += [(0x280103, "US", [int(self.is_signed)]), (0x281050, "DS", b"40\\7")]
        return [*text, *private, *picture, (0x880200, "SQ", [(0x280010, "US", [8]), (0x280011, "US", [9])])]

    def color(self) -> bytes:
        color = (self.photometric or ("RGB" if self.samples > 1 else "MONOCHROME2")).encode()
        return color + b" " * (len(color) % 2)

    def in_bits(self) -> int:
        return self.allocated or (8 if self.bits <= 8 else 16)

    def frames(self) -> list[bytes]:
        frames = [coded(self.coding, self.bits, self.samples, lines) for lines in self.pictures]
        return [stream[:-2] + b"\xff" * (self.has_fill and len(stream) % 2) + stream[-2:] for stream in frames]

    def jpeg_ls(self) -> bytes:
        frames = [stream + b"\0" * (len(stream) % 2) for stream in self.frames()]
        starts = [sum(8 + len(stream) for stream in frames[:at]) for at in range(len(frames))]
        items = b"".join(map(item, [struct.pack(f"<{len(starts)}I", *starts), *frames]))
        pixels = b"\xe0\x7f\x10\0OB\0\0\xff\xff\xff\xff" + items + b"\xfe\xff\xdd\xe0\0\0\0\0"
        return with_meta(self.uid, JPEG_LS, written(self.elements(), EXPLICIT) + pixels)

    def words(self) -> list[int]:
        """All samples as they stand in Pixel Data."""
        found: list[int] = []
        for lines in self.pictures:
            if self.planes:
                found += [sample for at in range(self.samples) for line in lines[at :: self.samples] for sample in line]
            else:
                rows = zip(*(lines[at :: self.samples] for at in range(self.samples)))
                found += [sample for row in rows for pixel in zip(*row) for sample in pixel]
        top, high = 1 << self.bits, (1 << self.in_bits()) - (1 << self.bits)
        return [word | high if self.is_signed and word & top >> 1 else word for word in found]

    def plain(self, syntax: str, words: Optional[Sequence[int]] = None) -> bytes:
        """The file in a syntax that is not compressed."""
        words = self.words() if words is None else words
        order = ">" if syntax == BIG else "<"
        if self.in_bits() == 16:
            pixels = struct.pack(f"{order}{len(words)}H", *words)
        else:
            pixels = bytes(words) + b"\0" * (len(words) % 2)
            if syntax == BIG:  # as words of two bytes
                pixels = b"".join(pixels[at : at + 2][::-1] for at in range(0, len(pixels), 2))
        data = written([*self.elements(), (0x7FE00010, "OW", pixels)], syntax)
        return with_meta(self.uid, syntax, deflated(data) if syntax == DEFLATED else data)


def deflated(data: bytes) -> bytes:
    packer = zlib.compressobj(wbits=-15)
    return packer.compress(data) + packer.flush()


def with_meta(uid: str, syntax: str, data: bytes) -> bytes:
    names = [(0x20002, CLASS), (0x20003, uid), (0x20010, syntax)]
    meta = b"".join([element(0x20001, "OB", b"\0\1"), *(element(tag, "UI", name) for tag, name in names)])
    return bytes(128) + b"DICM" + element(0x20000, "UL", struct.pack("<I", len(meta))) + meta + data


def written(elements: Sequence[Element], syntax: str) -> bytes:
    order, parts = (">" if syntax == BIG else "<"), []
    for tag, vr, value in elements:
        if vr == "SQ":
            inner = written(value, syntax)
            value = struct.pack(f"{order}HHI", 0xFFFE, 0xE000, len(inner)) + inner
        value = value if isinstance(value, bytes) else struct.pack(f"{order}{len(value)}H", *value)
        head = struct.pack(f"{order}HH", tag >> 16, tag & 0xFFFF)
        if syntax == IMPLICIT:
            head += struct.pack("<I", len(value))
        elif vr in LONG:
            head += vr.encode() + b"\0\0" + struct.pack(f"{order}I", len(value))
        else:
            head += vr.encode() + struct.pack(f"{order}H", len(value))
        parts.append(head + value)
    return b"".join(parts)


def case_of(rng: random.Random, bits: int, samples: int = 1, frames: int = 1, **more: Any) -> Case:
    width, height = more.get("width", WIDTH), more.get("height", HEIGHT)
    return Case([some_lines(rng, bits, width, height, samples) for _ in range(frames)], bits, samples, **more)


def begin_of(made: bytes, stream: bytes, part: float) -> int:
    return made.index(stream) + 40 + int((len(stream) - 60) * part)


def spoiled(case: Case, part: float = 0.5, frame: int = 0) -> bytes:
    """The JPEG-LS copy with another byte at this part of a frame; of 16 bits with two, as another one seldom ends the frame."""
    made = case.jpeg_ls()
    at = begin_of(made, case.frames()[frame], part)
    return bytes(changed(made, (at, b"\xff\xff" if case.bits == 16 else bytes([made[at] ^ 0x5A]))))


def lost(case: Case, frame: int = 0) -> bytes:
    """The JPEG-LS copy with so many zeros that other samples fit too."""
    made = case.jpeg_ls()
    return bytes(changed(made, (begin_of(made, case.frames()[frame], 0.3), bytes(100))))


CASES: dict[str, dict[str, Any]] = {
    "8 bits": {"bits": 8},
    "8 of 16 bits": {"bits": 8, "allocated": 16},
    "12 of 16 bits": {"bits": 12},
    "16 bits": {"bits": 16},
    "signed": {"bits": 12, "is_signed": True},
    "signed, 8 bits": {"bits": 8, "is_signed": True},
    "color by line": {"bits": 8, "samples": 3},
    "color in planes": {"bits": 8, "samples": 3, "planes": 1, "coding": Coding(are_planes=True)},
    "other parameters": {"bits": 8, "coding": OTHER},
    "restart intervals": {"bits": 8, "coding": Coding(rows=7)},
    "three frames": {"bits": 8, "frames": 3},
    "an odd length": {"bits": 8, "width": 31, "height": 23},
    "a fill byte": {"bits": 8, "width": 31, "height": 22, "has_fill": True},
}


def checks_of_witnesses(bench: Bench) -> Iterator[Check]:
    """One damaged copy and an undamaged witness, in each syntax: the same file."""
    rows = [(name, words, EXPLICIT) for name, words in CASES.items()]
    rows += [(name, CASES[name], syntax) for name in ("8 bits", "signed") for syntax in (IMPLICIT, DEFLATED, BIG)]
    for name, words, syntax in rows:
        made = case_of(random.Random(6), **words)
        status, out, printed, faults, _ = bench.mend([spoiled(made), made.plain(syntax)])
        is_told = f"is a witness, {NAMES[syntax]}" in printed and "an uncompressed copy has what was lost" in printed
        is_well = (status, out == made.jpeg_ls(), is_told) == (0, True, True)
        yield f"{name}, {NAMES[syntax]}: the same file ({status}, {printed}, {faults})", is_well
    made = case_of(random.Random(4), 8)
    status, out, printed, _, _ = bench.mend([made.plain(EXPLICIT), made.jpeg_ls()])
    yield f"both are undamaged ({status}, {printed})", (status, out == made.jpeg_ls(), "an element rests" in printed) == (0, True, False)
    copies = [spoiled(made), spoiled(made), made.plain(EXPLICIT)]
    status, out, printed, _, _ = bench.mend(copies)
    yield f"two equal copies and a witness ({status}, {printed})", (status, out == made.jpeg_ls()) == (0, True)


def checks_of_witnesses_unconfirmed(bench: Bench) -> Iterator[Check]:
    """Where other samples fit the bytes of the JPEG-LS copy, all is as without the witness, unless a checksum is given."""
    made = case_of(random.Random(4), 8)
    status, out, printed, _, _ = bench.mend([lost(made), made.plain(EXPLICIT)])
    yield f"many bytes lost ({status}, {printed})", (status, out, "and nothing confirms them" in printed) == (1, None, True)
    wanted = hashlib.sha256(made.jpeg_ls()).hexdigest()
    status, out, printed, _, _ = bench.mend([lost(made), made.plain(EXPLICIT)], "--sha256", wanted)
    yield f"many bytes lost, and a checksum ({status}, {printed})", (status, out == made.jpeg_ls()) == (0, True)
    for seed in (20, 23, 26):
        small = case_of(random.Random(seed), 8, width=16, height=12)
        words = fits_otherwise(small)
        yield f"there are samples that fit too, {seed}", words is not None
        status, out, printed, _, _ = bench.mend([spoiled(small, 0.4), small.plain(EXPLICIT, words)])
        yield f"a witness with a sample that fits too, {seed} ({status}, {printed})", (status, out) == (1, None)


def fits_otherwise(case: Case) -> Optional[list[int]]:
    """Samples with one changed byte that fit what is left of the frame, if there are any."""
    stream, damaged = case.frames()[0], spoiled(case, 0.4)
    begin = case.jpeg_ls().index(stream)
    left = damaged[begin : begin + len(stream)]
    at = next(at for at, (one, other) in enumerate(zip(left, stream)) if one != other)
    params = coder.Params((255, 3, 7, 21, 64))
    for sample in range(case.width * case.height // 5, case.width * case.height // 2):
        for change in (1, 2, 3):
            words = case.words()
            words[sample] ^= change
            lines = [words[row : row + case.width] for row in range(0, len(words), case.width)]
            other = stream[:BEGIN] + coder.coded(params, coder.Picture([lines], 0)) + stream[-2:]
            if len(other) == len(stream) and other[:at] + other[at + 1 :] == stream[:at] + stream[at + 1 :]:
                return words
    return None


def checks_of_witnesses_damaged(bench: Bench) -> Iterator[Check]:
    """A damaged witness makes no false file, and says so where it can be none."""
    made = case_of(random.Random(4), 8)
    true, words = made.jpeg_ls(), made.words()
    for at in [*range(5, len(words), len(words) // 6), *range(len(words) // 2, len(words) // 2 + 80, 20)]:
        flipped = [word ^ (1 << at % 5 if number == at else 0) for number, word in enumerate(words)]
        status, out, printed, _, _ = bench.mend([spoiled(made), made.plain(EXPLICIT, flipped)])
        yield f"sample {at} flipped ({status}, {printed})", (status, out) == (1, None)
        status, out, _, _, _ = bench.mend([true, made.plain(EXPLICIT, flipped)])
        yield f"sample {at} flipped, and a whole copy ({status})", (status, out) == (1, None)


def checks_of_witnesses_left_out(bench: Bench) -> Iterator[Check]:
    """Copies that are not compressed and can be no witnesses are left out, and the line says why."""
    made = case_of(random.Random(4), 8)
    plain, words = made.plain(EXPLICIT), made.words()
    for name, data, why in (
        ("cut", plain[:-7], "is cut"),
        ("deflated and cut", made.plain(DEFLATED)[:-40], "can't be inflated"),
        ("more samples than Rows say", replace(made, height=HEIGHT - 1).plain(EXPLICIT, words), "the length of its Pixel Data"),
        ("fewer samples than Rows say", made.plain(EXPLICIT, words[:-2]), "the length of its Pixel Data"),
        ("another instance", replace(made, uid=UID + ".5").plain(EXPLICIT), "it is of instance"),
        ("other colors", replace(made, photometric="MONOCHROME1").plain(EXPLICIT), "its Photometric Interpretation is another one"),
        ("more after its end", plain + b"\0\1\2\3\4\5\6\7", "is no witness"),
        ("an odd length", changed(plain, (plain.index(b"Doe^Jane") - 2, b"\7")), "has an odd length"),
        ("High Bit", changed(plain, (plain.index(b"\x28\0\2\1US\2\0") + 8, b"\6")), "its bits a sample"),
        ("no frames", changed(plain, (plain.index(b"\x28\0\x08\0IS") + 8, b"0")), "its Number of Frames"),
    ):
        status, out, printed, faults, _ = bench.mend([spoiled(made), data])
        is_told = why in printed and "left out" in printed and "Traceback" not in faults
        yield f"{name}: left out ({status}, {printed}, {faults})", (status, out, is_told) == (1, None, True)
    deep = case_of(random.Random(4), 12)
    high = [word | 0x8000 if number == 9 else word for number, word in enumerate(deep.words())]
    status, out, printed, _, _ = bench.mend([spoiled(deep), deep.plain(EXPLICIT, high)])
    is_told = "bits above those of its samples are set" in printed
    yield f"a bit above the stored ones ({status}, {printed})", (status, out, is_told) == (1, None, True)
    status, out, printed, _, _ = bench.mend([deep.jpeg_ls(), deep.plain(EXPLICIT, high)])
    yield f"the same, and a whole copy ({status}, {printed})", (status, out) == (1, None)


def checks_of_witnesses_of_headers(bench: Bench) -> Iterator[Check]:
    """A witness decides between copies where it has what one of them has, and confirms the header of one copy where it has all of it."""
    made = case_of(random.Random(4), 8)
    true, plain = made.jpeg_ls(), made.plain(EXPLICIT)
    name = true.index(b"Doe^Jane")
    flipped = changed(true, (name, b"E"))
    for syntax in NAMES:
        status, out, printed, _, _ = bench.mend([flipped, spoiled(made), made.plain(syntax)])
        yield f"two names, {NAMES[syntax]} ({status}, {printed})", (status, out == true, "a witness has it" in printed) == (0, True, True)
    third = changed(plain, (plain.index(b"Doe^Jane"), b"F"))
    status, out, printed, _, _ = bench.mend([flipped, true, third])
    yield f"three names ({status}, {printed})", (status, out, "(0010,0010), undecided" in printed) == (1, None, True)
    again = changed(plain, (plain.index(b"Doe^Jane"), b"E"))
    status, out, printed, _, _ = bench.mend([flipped, true, plain, again])
    yield f"two witnesses of two names ({status}, {printed})", (status, out) == (1, None)
    planes = case_of(random.Random(4), 8, samples=3)
    colors = planes.jpeg_ls()
    other = changed(colors, (colors.index(b"\x28\0\6\0US\2\0") + 8, b"\1"))
    status, out, printed, _, _ = bench.mend([other, colors, planes.plain(EXPLICIT)])
    yield f"two orders of planes ({status}, {printed})", (status, out) == (1, None)


def checks_of_witnesses_of_one_copy(bench: Bench) -> Iterator[Check]:
    """What a witness doesn't confirm of one copy is not taken."""
    made = case_of(random.Random(4), 8)
    true, plain, frame = made.jpeg_ls(), made.plain(EXPLICIT), made.frames()[0]
    name, at = true.index(b"Doe^Jane"), true.index(bytes(range(64)))
    spots = {
        "a name": (name, b"E"),
        "a VR": (name - 4, b"LO"),
        "a tag": (name - 6, b"\x11"),
        "a private value": (at + 9, b"\0"),
        "the version": (true.index(b"OB\0\0\2\0\0\0\0\1") + 8, b"\4"),
        "the preamble": (70, b"\1"),
        "a component": (true.index(frame) + 10, b"\7"),
        "an offset": (true.index(frame) - 12, b"\4"),
        "a Pixel Data of floats": (true.index(b"\xe0\x7f\x10\0OB") + 5, b"F"),
        "a nested number": (true.index(b"\x28\0\x11\0US\2\0\x09") + 8, b"\x08"),
    }
    for what, spot in spots.items():
        status, out, printed, faults, _ = bench.mend([changed(true, spot), plain])
        is_told = "does not confirm" in printed or "OUT is not written" in printed or faults != ""
        yield f"{what} of one copy: not confirmed ({status}, {printed}, {faults})", (status in (1, 3), out, is_told) == (True, None, True)
    padded = case_of(random.Random(5), 8, width=31, height=23)
    data, stream = padded.jpeg_ls(), padded.frames()[0]
    assert len(stream) % 2
    status, out, printed, _, _ = bench.mend([changed(data, (data.index(stream) + len(stream), b"\1")), padded.plain(EXPLICIT)])
    yield f"a byte behind the frame of one copy ({status}, {printed})", (status, out) == (1, None)


def checks_of_events(rng: random.Random) -> Iterator[Check]:
    """The coder of events codes as the plain one."""
    for bits, components, how in ((2, 1, USUAL), (8, 1, OTHER), (8, 3, USUAL), (12, 1, Coding(rows=5)), (16, 1, Coding(reset=3))):
        for kind in ("slope", "steps", "peaks", "even"):
            lines = some_lines(rng, bits, 37, 23, components)
            lines = {
                "slope": lines,
                "steps": [[sample >> bits // 2 for sample in line] for line in lines],
                "peaks": [[sample % 7 // 6 * ((1 << bits) - 1) for sample in line] for line in lines],
                "even": [[0] * 37] * len(lines),
            }[kind]
            stream = coded(how, bits, components, lines)
            coding = codings.coding_of(stream)
            assert coding is not None
            picture = coder.Picture([[list(line) for line in lines[at::components]] for at in range(components)], coding.rows)
            found = coder.coded(coder.Params(coding.presets), picture)
            yield f"{bits} bits, {components} components, {how}, {kind}", stream.endswith(found + b"\xff\xd9")
    lines = some_lines(rng, 8, 9, 8, 1)
    picture = coder.Picture([[list(line) for line in lines]], 3)
    is_same = True
    for row, column in [(row, column) for row in range(8) for column in (0, 4, 8)]:
        lines[row][column] ^= 1
        picture.set(row, column, lines[row][column])
        is_same = is_same and picture.lines == coder.Picture([lines], 3).lines
    yield "a sample that gets another value", is_same


WITNESSES = [
    checks_of_witnesses,
    checks_of_witnesses_unconfirmed,
    checks_of_witnesses_damaged,
    checks_of_witnesses_left_out,
    checks_of_witnesses_of_headers,
    checks_of_witnesses_of_one_copy,
    checks_of_events,
]
