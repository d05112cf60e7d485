"""Pictures as several writers code them: codestreams by the plain coders of interop, with these parameters, restarts and scans."""
from __future__ import annotations

import os
import random
import struct
import sys
from collections.abc import Sequence
from dataclasses import dataclass
from typing import Any

sys.path.append(os.path.join(os.path.dirname(os.path.dirname(os.path.abspath(__file__))), "interop"))
import plain_coder  # noqa: E402
import plain_pixels  # noqa: E402

coder: Any = plain_coder  # modules without types
pixels: Any = plain_pixels
Lines = Sequence[Sequence[int]]


@dataclass(frozen=True)
class Coding:
    """How a writer codes: its thresholds and RESET, each 0 for the usual one; rows between restart markers; planes, pixels, else lines; and
    P. Several components are interleaved by sample where they are coded as pixels."""

    thresholds: tuple[int, int, int] = (0, 0, 0)
    reset: int = 0
    rows: int = 0
    are_planes: bool = False
    precision: int = 0
    are_pixels: bool = False


def segment(code: int, payload: bytes) -> bytes:
    return bytes([0xFF, code]) + struct.pack(">H", 2 + len(payload)) + payload


def scan(params: Any, width: int, names: Sequence[int], lines: Lines, rows: int, are_pixels: bool = False) -> bytes:
    """A scan of these components; its lines stand row by row."""
    interleave = 0 if len(names) == 1 else 2 if are_pixels else 1
    header = bytes([len(names), *(byte for name in names for byte in (name, 0)), 0, interleave, 0])
    step, write = (rows or len(lines)) * len(names), pixels.write if interleave == 2 else coder.write
    pieces = [write(params, width, len(names), lines[at : at + step]) for at in range(0, len(lines), step)]
    marks = [bytes([0xFF, 0xD0 + at % 8]) for at in range(len(pieces) - 1)]
    return segment(0xDA, header) + b"".join(piece + mark for piece, mark in zip(pieces, [*marks, b""]))


def coded(coding: Coding, bits: int, components: int, lines: Lines) -> bytes:
    """A codestream of lines that stand row by row, and in a row by component."""
    precision, width, height = coding.precision or bits, len(lines[0]), len(lines) // components
    names = range(1, components + 1)
    params = coder.Params(precision, 0, *coding.thresholds, coding.reset)
    frame = struct.pack(">BHHB", precision, height, width, components) + b"".join(bytes([name, 0x11, 0]) for name in names)
    said = (params.maxval, params.t1, params.t2, params.t3, params.reset)
    preset = segment(0xF8, struct.pack(">B5H", 1, *said)) if any(coding.thresholds) or coding.reset else b""
    restarts = segment(0xDD, struct.pack(">H", coding.rows)) if coding.rows else b""
    of_scans = [([name], lines[name - 1 :: components]) for name in names] if coding.are_planes else [(list(names), lines)]
    scans = b"".join(scan(params, width, named, own, coding.rows, coding.are_pixels) for named, own in of_scans)
    return b"\xff\xd8" + segment(0xF7, frame) + preset + restarts + scans + b"\xff\xd9"


def some_lines(rng: random.Random, bits: int, width: int, height: int, components: int) -> list[list[int]]:
    """Noise on a slope."""
    top = (1 << bits) - 1
    rows = ((y, shift) for y in range(height) for shift in range(components))
    return [[min(top, (x * 3 + y * 5 + 40 * shift) * top // 600 + rng.randrange(top // 16 + 2)) for x in range(width)] for y, shift in rows]


USUAL, OTHER = Coding(), Coding((5, 12, 40), 32)
