"""Draws a partial picture: its lines, with marks where they are missing or disputed."""
from __future__ import annotations

import array
import sys
from typing import Iterable, Iterator, Sequence

from jls_tools.partial_picture import PartialPicture, Reading

SETTLED, DISPUTED, MISSING = range(3)
# orange and sky blue of the palette by Okabe and Ito
COLOURS = {SETTLED: (96, 96, 96), DISPUTED: (0x56, 0xB4, 0xE9), MISSING: (0xE6, 0x9F, 0x00)}
MARKS = {SETTLED: ".", DISPUTED: "?", MISSING: "#"}
GRAYS = {SETTLED: 0, DISPUTED: 128, MISSING: 255}
STRIPE = 8  # columns
MAP_COLUMNS = 64


def state_of(readings: list[Reading]) -> int:
    return MISSING if not readings else SETTLED if len(readings) == 1 else DISPUTED


def values_of(samples: bytes) -> array.array[int]:
    """The samples of a reading as numbers."""
    values = array.array("H", samples)
    if sys.byteorder == "little":
        values.byteswap()
    return values


def range_of(picture: PartialPicture, signed: bool = False) -> tuple[int, int] | None:
    """The least and the greatest sample of all settled lines, of all readings if no line is settled; nothing if there are none."""
    settled = [readings[:1] for readings in picture.readings.values() if len(readings) == 1]
    turned = sign_of(picture.precision) if signed else 0
    least, greatest = 1 << 16, -1
    for readings in settled or picture.readings.values():
        for reading in readings:
            values: Sequence[int] = values_of(reading.samples)
            if turned:
                values = [value ^ turned for value in values]
            least, greatest = min(least, min(values)), max(greatest, max(values))
    return None if greatest < 0 else (least - turned, greatest - turned)


def sign_of(precision: int) -> int:
    """The bit of the sign."""
    return 1 << precision - 1


class Window:
    """Which gray each sample has: a table of 2^16 bytes."""

    def __init__(self, grays: Iterable[int]) -> None:
        self.table = bytes(grays)

    def channel(self, samples: bytes) -> bytes:
        """The grays of a line."""
        return bytes(map(self.table.__getitem__, values_of(samples)))


def numbers(precision: int, signed: bool) -> Iterator[int]:
    """What each of 2^16 samples stands for."""
    sign = sign_of(precision)
    mask = 2 * sign - 1
    return (((value & mask) ^ sign) - sign if signed else value for value in range(1 << 16))


def between(picture: PartialPicture, lowest: int, highest: int, signed: bool = False) -> Window:
    """The window that shows these two numbers as black and white, and those between in equal steps."""
    span = max(highest - lowest, 1)
    steps = (2 * 255 * (value - lowest) + span for value in numbers(picture.precision, signed))
    return Window(min(max(step // (2 * span), 0), 255) for step in steps)


def centred(picture: PartialPicture, centre: float, width: float, signed: bool = False) -> Window:
    """The window of a centre and a width, as DICOM defines it (PS3.3, C.11.2.1.2)."""
    span = width - 1

    def gray(value: int) -> int:
        if value <= centre - 0.5 - span / 2:
            return 0
        if value > centre - 0.5 + span / 2:
            return 255
        return int(((value - (centre - 0.5)) / span + 0.5) * 255 + 0.5)

    return Window(map(gray, numbers(picture.precision, signed)))


def default(picture: PartialPicture, signed: bool = False) -> Window:
    """Up to 8 bits: all that the precision allows. Above: the range of the settled lines."""
    if picture.precision <= 8 and not signed:
        return between(picture, 0, (1 << picture.precision) - 1)
    return between(picture, *(range_of(picture, signed) or (0, 1)), signed)


class Canvas:
    """Rows of red, green and blue, a byte each.

    Three components are shown as red, green and blue; a line of the picture is missing there if it is missing in any of them. Other
    components stand below one another, in the order of the frame.
    """

    def __init__(self, picture: PartialPicture, window: Window | None = None, scale: int = 1) -> None:
        self.picture = picture
        self.window = window or default(picture)
        self.bar, self.between = max(-(-8 // scale), picture.width // 64), -(-2 // scale)

    def row(self, channels: list[bytes] | None, state: int) -> bytes:
        """A line as pixels: three channels, or none where it is missing; and the bar."""
        width = self.picture.width
        if channels is None:
            pixels = bytearray(bytes(COLOURS[MISSING]) * width)
        else:
            pixels = bytearray(3 * width)
            for index, channel in enumerate(channels):
                pixels[index::3] = channel
            if state == DISPUTED:
                self.stripe(pixels)
        return bytes(pixels) + bytes(3 * self.between) + bytes(COLOURS[state]) * self.bar

    def stripe(self, pixels: bytearray) -> None:
        for begin in range(0, self.picture.width, 2 * STRIPE):
            end = min(begin + STRIPE, self.picture.width)
            pixels[3 * begin : 3 * end] = bytes(COLOURS[DISPUTED]) * (end - begin)

    def rows(self) -> Iterator[bytes]:
        picture = self.picture
        if len(picture.ids) == 3:
            for line in range(picture.height):
                readings = [picture.of_line(component, line) for component in range(3)]
                state = max(map(state_of, readings))
                channels = None if state == MISSING else [self.window.channel(of[0].samples) for of in readings]
                yield self.row(channels, state)
            return
        for component in range(len(picture.ids)):
            for line in range(picture.height):
                found = picture.of_line(component, line)
                yield self.row([self.window.channel(found[0].samples)] * 3 if found else None, state_of(found))

    def width(self) -> int:
        return self.picture.width + self.between + self.bar

    def height(self) -> int:
        return self.picture.height * (1 if len(self.picture.ids) == 3 else len(self.picture.ids))


def enlarged(rows: Iterable[bytes], scale: int) -> Iterator[bytes]:
    """Each pixel of red, green and blue as so many in both directions."""
    for row in rows:
        wide = row if scale == 1 else b"".join(row[at : at + 3] * scale for at in range(0, len(row), 3))
        for _ in range(scale):
            yield wide


def mask_rows(picture: PartialPicture) -> Iterator[bytes]:
    """Of each line a gray."""
    for component in range(len(picture.ids)):
        for line in range(picture.height):
            yield bytes([GRAYS[state_of(picture.of_line(component, line))]]) * picture.width


def map_line(picture: PartialPicture, component: int) -> str:
    """One line of text: the worst of each of up to 64 equal stretches of lines."""
    states = [state_of(picture.of_line(component, line)) for line in range(picture.height)]
    columns = min(MAP_COLUMNS, picture.height)
    marks = "".join(
        MARKS[max(states[column * picture.height // columns : (column + 1) * picture.height // columns])] for column in range(columns)
    )
    counts = [states.count(state) for state in (SETTLED, MISSING, DISPUTED)]
    return f"component {picture.ids[component]} |{marks}| settled {counts[0]}, missing {counts[1]}, disputed {counts[2]}"
