"""A thumbnail of a partial picture: small, and with its losses."""
from __future__ import annotations

import base64
from typing import Optional

from jls_tools.partial_picture import PartialPicture
from jls_tools.view import canvas, png

SIDE, BAR = 64, 5  # columns and rows at most; columns of the bar on the right
GRAYS = 14
PALETTE = [(value * 255 // (GRAYS - 1),) * 3 for value in range(GRAYS)]
PALETTE += [canvas.COLOURS[canvas.DISPUTED], canvas.COLOURS[canvas.MISSING]]
INDEX = {canvas.DISPUTED: GRAYS, canvas.MISSING: GRAYS + 1}
SETTLED_BAR = 5  # a gray


def stretches(length: int, count: int) -> list[tuple[int, int]]:
    """So many equal ranges of 0 to length."""
    return [(at * length // count, (at + 1) * length // count) for at in range(count)]


def line_of(picture: PartialPicture, first: int, end: int) -> tuple[int, Optional[tuple[bytes, int]]]:
    """The worst state of these lines in any component, and a reading of the first component, of a settled line if there is one."""
    worst = canvas.SETTLED
    shown: Optional[tuple[bytes, int]] = None
    for line in range(first, end):
        for component in range(len(picture.ids)):
            readings = picture.of_line(component, line)
            worst = max(worst, canvas.state_of(readings))
            if component == 0 and readings and (shown is None or len(readings) == 1 < shown[1]):
                shown = readings[0].samples, len(readings)
    return worst, shown


def pixels(values: list[int], lowest: int, highest: int) -> list[int]:
    span = max(highest - lowest, 1)
    return [(value - lowest) * (GRAYS - 1) // span for value in values]


def packed(indexes: list[int]) -> bytes:
    """Two pixels a byte."""
    indexes = indexes + [0] * (len(indexes) % 2)
    return bytes(high << 4 | low for high, low in zip(indexes[::2], indexes[1::2]))


def of(picture: PartialPicture) -> str:
    """The PNG in base 64. A line of it stands for several: it is orange if none of these has a reading, and the bar has the worst."""
    width, height = min(SIDE, picture.width), min(SIDE, picture.height)
    columns = [2 * first for first, _ in stretches(picture.width, width)]
    lines = [line_of(picture, first, end) for first, end in stretches(picture.height, height)]
    values = [[shown[0][at] << 8 | shown[0][at + 1] for at in columns] if shown else None for _, shown in lines]
    seen = [value for row in values if row for value in row] or [0]
    lowest, highest = min(seen), max(seen)
    rows = []
    for (worst, shown), row in zip(lines, values):
        gray = pixels(row, lowest, highest) if row else [INDEX[canvas.MISSING]] * width
        if shown and shown[1] > 1:
            gray = [INDEX[canvas.DISPUTED] if at % 4 < 2 else value for at, value in enumerate(gray)]
        rows.append(packed(gray + [INDEX.get(worst, SETTLED_BAR)] * BAR))
    return base64.b64encode(png.encoded(png.Form(width + BAR, height, 4, png.INDEXED), rows, PALETTE)).decode("ascii")
