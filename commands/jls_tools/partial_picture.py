"""Reads the text of a partial picture, as docs/FORMAT.md has it, for the scripts beside this file.

What these scripts show is not proved. They refuse a text that does not end with its last entry. They do not judge the order of its lines
or the range of its samples. The program does: `jls-salvage show` says what a text holds.
"""
from __future__ import annotations

import struct
from typing import Any, Iterable


class NotAPartialPicture(Exception):
    """The bytes are no text of version 1 or 2, or they are cut."""


class Reading:
    """What some copy says of a line: two bytes for each sample, the high one first; and the numbers under which it was taken."""

    __slots__ = ("samples", "sources")

    def __init__(self, samples: bytes, sources: tuple[int, ...]) -> None:
        self.samples = samples
        self.sources = sources


class PartialPicture:
    """A shape, and for each (index of a component, line) that has one the list of its readings."""

    readings: dict[tuple[int, int], list[Reading]]
    precision: int
    width: int
    height: int
    ids: list[int]

    def __init__(self, text: bytes) -> None:
        self.text = text
        self.at = 0
        magic, version = self.take(">4sB")
        if magic != b"JLSP" or version not in (1, 2):
            raise NotAPartialPicture("no text of a partial picture")
        self.version = version
        self.precision, self.width, self.height, count = self.take(">BHHB")
        self.ids = list(self.take(f">{count}B"))
        (entries,) = self.take(">I")
        self.readings = {}
        for _ in range(entries):
            component, line, count = self.take(">BHQ")
            self.readings[component, line] = [self.take_reading() for _ in range(count)]
        if self.at != len(text):
            raise NotAPartialPicture(f"bytes after the last entry, from {self.at} on")
        del self.text

    def take(self, form: str) -> tuple[Any, ...]:
        end = self.at + struct.calcsize(form)
        if end > len(self.text):
            raise NotAPartialPicture(f"cut at {len(self.text)}")
        values = struct.unpack_from(form, self.text, self.at)
        self.at = end
        return values

    def take_reading(self) -> Reading:
        end = self.at + 2 * self.width
        if end > len(self.text):
            raise NotAPartialPicture(f"cut at {len(self.text)}")
        samples = self.text[self.at : end]
        self.at = end
        if self.version == 1:
            return Reading(samples, ())
        (count,) = self.take(">Q")
        if count > (len(self.text) - self.at) // 4:
            raise NotAPartialPicture(f"cut at {len(self.text)}")
        return Reading(samples, self.take(f">{count}I"))

    def of_line(self, component: int, line: int) -> list[Reading]:
        return self.readings.get((component, line), [])


def read(path: str) -> PartialPicture:
    """The partial picture in this file. An OSError or NotAPartialPicture says why there is none."""
    with open(path, "rb") as file:
        return PartialPicture(file.read())


def ranges(numbers: Iterable[int]) -> list[tuple[int, int]]:
    """Ascending numbers as ranges: 1, 2, 3, 7 are (1, 3), (7, 7)."""
    found: list[list[int]] = []
    for number in numbers:
        if found and found[-1][1] + 1 == number:
            found[-1][1] = number
        else:
            found.append([number, number])
    return [(first, last) for first, last in found]
