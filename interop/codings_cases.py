"""Pictures in different codings, and damage of a copy at one place, for interop/codings and interop/dicom_codings."""
from __future__ import annotations

import array
import math
import random
import struct
from collections.abc import Sequence
from typing import Optional

from charls_coder import Charls, Picture, scan_bytes, segment

SECTOR = 512
INTERVALS = ((0, 8), (0, 16), (0, 32), (8, 16), (5, 32), (16, 30))
KINDS = ("thresholds", "RESET", "interleave", "precision", "three copies")
OTHER_LAYOUTS = ("by line", "a scan for each")
HEADERS = ("a later scan header", "the first headers")
SCAN_HEADER = b"\xff\xda\x00\x08"
DAMAGES = ("zeros", "lost", "inserted", "noise", "flip", "cut")
SHORT_DAMAGES = ("zeros", "lost", "inserted", "noise")
LONGEST = {"zeros": 64, "lost": 40, "inserted": 40, "noise": 64, "flip": 1}  # bytes of a place within a row


def some_samples(
    chance: random.Random, bits: int, components: int, size: Optional[tuple[int, int]] = None
) -> tuple[int, int, array.array[int]]:
    """The width, the rows, and samples row by row and in a row by component."""
    width, rows = size or (chance.randint(100, 240), chance.randint(100, 240))
    most = 2**bits - 1
    across, down, phase = chance.uniform(5, 40), chance.uniform(5, 40), chance.uniform(0, 6)
    noise = most * chance.choice([0.002, 0.004, 0.01])
    samples = array.array("H")
    for y in range(rows):
        for component in range(components):
            for x in range(width):
                level = 0.5 + 0.22 * math.sin(x / across + phase + component) + 0.22 * math.cos(y / down)
                samples.append(min(most, max(0, int(most * level + chance.gauss(0, noise)))))
    return width, rows, samples


def presets(bits: int) -> tuple[tuple[int, ...], tuple[int, ...]]:
    """Parameters with other thresholds, and with another RESET: MAXVAL, T1, T2, T3, RESET."""
    most = 2**bits - 1
    scale = max(1, (min(most, 4095) + 128) // 256)
    return (most, 2 * scale + 3, 5 * scale + 9, 13 * scale + 30, 64), (most, scale + 2, 4 * scale + 3, 17 * scale + 4, 31)


def recoded(chance: random.Random, kind: str) -> list[Picture]:
    """A picture of one component in the plain coding, and then in one or two others."""
    bits = 12 if kind == "precision" else chance.choice([8, 8, 12, 16])
    width, rows, samples = some_samples(chance, bits, 1)
    plain = Picture((bits, 0, 0, 0, 0, 0), width, rows, 1, samples)
    if kind == "precision":
        return [plain, plain._replace(params=(16, 0, 0, 0, 0, 0))]
    thresholds, reset = (plain._replace(params=(bits, *preset)) for preset in presets(bits))
    return [plain, *{"thresholds": [thresholds], "RESET": [reset], "three copies": [thresholds, reset]}[kind]]


def three_components(chance: random.Random) -> Picture:
    """A picture of three components in the plain coding."""
    bits = chance.choice([8, 8, 12, 16])
    width, rows, samples = some_samples(chance, bits, 3)
    return Picture((bits, 0, 0, 0, 0, 0), width, rows, 3, samples)


def beside_pixels(chance: random.Random, charls: Charls, kind: str) -> tuple[Picture, list[bytes]]:
    """A picture of three components, its file by sample, and one of another layout. The order of the two is free."""
    picture = three_components(chance)
    other = charls.write(picture) if kind == "by line" else charls.write_planes(picture)
    files = [charls.write_pixels(picture), other]
    chance.shuffle(files)
    return picture, files


def over_headers(chance: random.Random, charls: Charls, kind: str) -> tuple[Picture, list[bytes], list[bytes]]:
    """A picture of three components, its file in two layouts, and a damaged copy of each. One of them lost headers and bytes beside them,
    the other a place in its second half. The order of the two is free."""
    picture = three_components(chance)
    layouts = [charls.write_planes(picture), charls.write(picture), charls.write_pixels(picture)]
    if kind == HEADERS[0]:
        file, other = layouts[0], chance.choice(layouts[1:])
        at = file.index(SCAN_HEADER, chance.choice([100, len(file) // 2]))
        length = chance.choice([16, 64, SECTOR])
        begin = at - chance.randint(0, length - 12)
    else:
        file, other = chance.sample(layouts, 2)
        begin, length = 0, chance.choice([64, SECTOR])
    copy = damaged_at(chance, file, begin, chance.choice(["zeros", "noise"]), length)
    pairs = [(file, copy), (other, damaged(chance, other, 0.5, 0.95, SHORT_DAMAGES))]
    chance.shuffle(pairs)
    return picture, [file for file, _ in pairs], [copy for _, copy in pairs]


def codings(chance: random.Random, charls: Charls, kind: str) -> tuple[Picture, list[bytes]]:
    """A picture, and its file in two or three codings. The order of the codings is free."""
    if kind == "interleave":
        plain = three_components(chance)
        files = [charls.write(plain), charls.write_planes(plain)]
    else:
        pictures = recoded(chance, kind)
        plain, files = pictures[0], [charls.write(picture) for picture in pictures]
    chance.shuffle(files)
    return plain, files


def with_intervals(charls: Charls, picture: Picture, rows: int) -> bytes:
    """The file of a picture of one component with restart intervals of so many rows, or none. CharLS writes each as a picture."""
    whole = charls.write(picture)
    if rows == 0:
        return whole
    header = whole[: -2 - len(scan_bytes(whole))]
    scan_header = header.index(b"\xff\xda\x00\x08")
    data = bytearray()
    for number, row in enumerate(range(0, picture.rows, rows)):
        count = min(rows, picture.rows - row)
        samples = picture.samples[row * picture.width : (row + count) * picture.width]
        if number:
            data += bytes([0xFF, 0xD0 + (number - 1) % 8])
        data += scan_bytes(charls.write(picture._replace(rows=count, samples=samples)))
    return header[:scan_header] + segment(0xDD, struct.pack(">H", rows)) + header[scan_header:] + bytes(data) + b"\xff\xd9"


def in_intervals(chance: random.Random, charls: Charls) -> tuple[Picture, list[bytes]]:
    """A picture, and its file with two restart intervals, or with one and none. Their order is free."""
    bits = chance.choice([8, 8, 12, 16])
    width, rows, samples = some_samples(chance, bits, 1)
    picture = Picture((bits, 0, 0, 0, 0, 0), width, rows, 1, samples)
    files = [with_intervals(charls, picture, count) for count in chance.choice(INTERVALS)]
    chance.shuffle(files)
    return picture, files


def damaged_at(chance: random.Random, file: bytes, begin: int, damage: str, length: int) -> bytes:
    """A copy of a file in which so many bytes from a place on are zeros, noise, lost or inserted, or a bit of the first is flipped."""
    if damage == "flip":
        return file[:begin] + bytes([file[begin] ^ 1 << chance.randrange(8)]) + file[begin + 1 :]
    if damage == "inserted":
        return file[:begin] + chance.randbytes(length) + file[begin:]
    if damage == "lost":
        return file[:begin] + file[begin + length :]
    return file[:begin] + (bytes(length) if damage == "zeros" else chance.randbytes(length)) + file[begin + length :]


def damaged(
    chance: random.Random, file: bytes, first: float, last: float, damages: Sequence[str] = DAMAGES, sector: int = SECTOR
) -> bytes:
    """A copy of a file with one damaged place between these parts of it."""
    begin = chance.randint(int(len(file) * first), max(int(len(file) * first), int(len(file) * last) - sector))
    begin = max(60, min(begin, len(file) - 20))
    damage = chance.choice(damages)
    if damage == "cut":
        return file[: max(begin, 2 * len(file) // 3)]
    if damage == "zeros":
        begin = max(begin - begin % sector, 60)
        return damaged_at(chance, file, begin, damage, min(len(file), begin - begin % sector + sector) - begin)
    return damaged_at(chance, file, begin, damage, 1 if damage == "flip" else chance.randint(1, LONGEST[damage]))


def end_of_rows(charls: Charls, picture: Picture, rows: int) -> int:
    """How many bytes of the file of a picture of one component stand before the end of so many rows."""
    whole = charls.write(picture)
    head = charls.write(picture._replace(rows=rows, samples=picture.samples[: rows * picture.width]))
    return len(whole) - 2 - len(scan_bytes(whole)) + len(scan_bytes(head))


def on_rows_that_touch(chance: random.Random, charls: Charls, kind: str) -> tuple[Picture, list[bytes], list[bytes]]:
    """A picture, its file in each of two codings, and a damaged copy of each. It has one place of up to 64 bytes, in rows side by side."""
    pictures = recoded(chance, kind)
    plain, row = pictures[0], chance.randint(pictures[0].rows // 6, 5 * pictures[0].rows // 6)
    files: list[bytes] = []
    copies: list[bytes] = []
    chance.shuffle(pictures)
    for place, picture in enumerate(pictures):
        file = charls.write(picture)
        begin, end = (end_of_rows(charls, picture, row + place + behind) for behind in (0, 1))
        length = chance.randint(1, max(1, min(64, end - begin - 4)))
        at = chance.randint(begin, max(begin, end - 2 - length))
        damage = chance.choice(DAMAGES[:-1])
        files.append(file)
        copies.append(damaged_at(chance, file, at, damage, min(length, LONGEST[damage])))
    return plain, files, copies
