"""Reads a data set in any uncompressed transfer syntax (PS3.5, 7 and annex A). It forgives nothing, so as to take no damage for a value.

Numbers come out little endian, and sequences as tuples of items. So data sets in several syntaxes can be compared.
"""
from __future__ import annotations

import struct
import zlib
from collections.abc import Sequence
from typing import NamedTuple, Union

from jls_tools.dicom.read.elements import BIG_ENDIAN, DEFLATED, EXPLICIT, IMPLICIT, LONG_VRS, SHORT_VRS, UNDEFINED, has_prefix
from jls_tools.dicom.read.tags import FIRST, ITEM, ITEM_END, META, PIXEL_DATA, SEQUENCE_END, SYNTAX
from jls_tools.dicom.read.values import KNOWN_VRS, SIZES, is_uid

DEEPEST = 32  # sequences in each other
LARGEST = 1 << 30  # bytes that a deflated data set may come to
UNCOMPRESSED = (IMPLICIT, EXPLICIT, DEFLATED, BIG_ENDIAN)


class Unread(Exception):
    """Why a file does not read."""


class Plain(NamedTuple):
    """An element. The VR is empty where neither the file nor PS3.6 says it; the value is that of a leaf, or items of elements."""

    tag: int
    vr: bytes
    value: Value


Value = Union[bytes, tuple[tuple[Plain, ...], ...]]
Head = tuple[int, bytes, int, int]  # tag, VR, where the value begins, and its length


class Parser:
    """Bytes in one syntax."""

    def __init__(self, data: bytes, is_explicit: bool = True, is_little: bool = True) -> None:
        self.data, self.is_explicit, self.order = data, is_explicit, "<" if is_little else ">"

    def numbers(self, form: str, at: int) -> tuple[int, ...]:
        if at + struct.calcsize(self.order + form) > len(self.data):
            raise Unread("it is cut")
        return struct.unpack_from(self.order + form, self.data, at)

    def head(self, at: int) -> Head:
        """The header of an element, item or delimiter."""
        group, number = self.numbers("HH", at)
        tag = group << 16 | number
        if group == 0xFFFE or not self.is_explicit:
            return tag, b"" if group == 0xFFFE else KNOWN_VRS.get(tag, b""), at + 8, self.numbers("I", at + 4)[0]
        vr = self.data[at + 4 : at + 6]
        if vr in SHORT_VRS:
            return tag, vr, at + 8, self.numbers("H", at + 6)[0]
        if vr not in LONG_VRS or self.data[at + 6 : at + 8] != b"\0\0":
            raise Unread(f"no element begins at {at}")
        return tag, vr, at + 12, self.numbers("I", at + 8)[0]

    def elements(self, at: int, until: int, depth: int = 0) -> tuple[list[Plain], int]:
        """The elements up to this end, or to the delimiter of an item, and where they end."""
        found: list[Plain] = []
        while at < until:
            tag, vr, begin, length = self.head(at)
            if tag == ITEM_END and depth and length == 0:
                return found, begin
            if tag >> 16 == 0xFFFE or found and tag <= found[-1].tag:
                raise Unread(f"an element at {at} can't stand there")
            value, at = self.value(tag, vr, begin, length, until, depth)
            found.append(Plain(tag, b"SQ" if isinstance(value, tuple) else vr, value))
        return found, at

    def value(self, tag: int, vr: bytes, begin: int, length: int, until: int, depth: int) -> tuple[Value, int]:
        """The value of an element, and where it ends."""
        is_open = length == UNDEFINED
        end = until if is_open else begin + length
        if end > until or depth > DEEPEST or length % 2 and not is_open:
            raise Unread(f"the element at {begin} is cut, or has an odd length")
        if is_open and tag == PIXEL_DATA and depth == 0:
            return b"", self.items(begin, end, is_open, depth, True)[1]
        if is_open or vr == b"SQ":
            if vr not in (b"SQ", b""):
                raise Unread(f"the element at {begin} has no length")
            return self.items(begin, end, is_open, depth)
        return self.in_order(vr, self.data[begin:end]), end

    def items(self, at: int, until: int, is_open: bool, depth: int, is_pixels: bool = False) -> tuple[tuple[tuple[Plain, ...], ...], int]:
        """The items of a sequence, or of Pixel Data, whose bytes aren't looked at."""
        found: list[tuple[Plain, ...]] = []
        while at < until or is_open:
            tag, _, begin, length = self.head(at)
            if tag == SEQUENCE_END and is_open and length == 0:
                return tuple(found), begin
            end = until if length == UNDEFINED else begin + length
            if tag != ITEM or end > until or is_pixels and length == UNDEFINED:
                raise Unread(f"no item begins at {at}")
            elements, at = ([], end) if is_pixels else self.elements(begin, end, depth + 1)
            found.append(tuple(elements))
        return tuple(found), at

    def in_order(self, vr: bytes, value: bytes) -> bytes:
        """A value with its numbers little endian."""
        size = 2 if vr == b"AT" else SIZES.get(vr, 1)
        if self.order == "<" or size == 1:
            return value
        if len(value) % size:
            raise Unread("a value is no whole number of numbers")
        return b"".join(value[at : at + size][::-1] for at in range(0, len(value), size))


def read(text: bytes) -> tuple[str, list[Plain]]:
    """The transfer syntax of a DICOM file, and its elements: those of the meta information first. JPEG-LS has those of Explicit VR."""
    if not has_prefix(text):
        raise Unread("DICM does not stand at 128")
    until = end_of_meta(text)
    meta, _ = Parser(text).elements(FIRST, until)
    syntax = text_of_uid(meta)
    data, at = (inflated(text[until:]), 0) if syntax == DEFLATED else (text, until)
    elements, _ = Parser(data, syntax != IMPLICIT, syntax != BIG_ENDIAN).elements(at, len(data))
    return syntax, [*meta, *elements]


def end_of_meta(text: bytes) -> int:
    parser, at = Parser(text), FIRST
    while at < len(text) and text[at : at + 2] == struct.pack("<H", META):
        _, _, begin, length = parser.head(at)
        at = begin + length
    return at


def text_of_uid(meta: Sequence[Plain]) -> str:
    value = next((each.value for each in meta if each.tag == SYNTAX), b"")
    if not isinstance(value, bytes) or not is_uid(value):
        raise Unread("its transfer syntax does not read")
    return value.rstrip(b"\0").decode("ascii")


def inflated(data: bytes) -> bytes:
    """A deflated data set (PS3.5, A.5): one byte 0 may stand after it."""
    inflater = zlib.decompressobj(-zlib.MAX_WBITS)
    try:
        found = inflater.decompress(data, LARGEST)
    except zlib.error as fault:
        raise Unread("it can't be inflated") from fault
    if not inflater.eof or inflater.unused_data not in (b"", b"\0"):
        raise Unread("it can't be inflated to its end")
    return found
