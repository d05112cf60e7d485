"""Copies that a transfer took for text: it put a carriage return before each line feed. As each has got one, that can be undone.

It is undone in a copy that reads to its end then, and did not before, and in one that has then the length of another one. By chance few
line feeds of codestreams have a carriage return before them. Where nearly all have one it is undone too, whatever the copy lost or got.
So it is in one of which far more stands where another copy has it then, as in one that was filled with zeros from some place on.
Other transfers take the carriage returns away that stand before line feeds.
"""
from __future__ import annotations

import re
from collections.abc import Sequence

from jls_tools.dicom.axis.align import Copy
from jls_tools.dicom.axis.tails import end_of
from jls_tools.dicom.read.elements import PIXELS_BEGIN

SHARE = 0.9  # of the line feeds such a share has a carriage return before it; damage can make others
LEAST = 8  # so many line feeds, at least, have one where nothing but the length, or codestreams alone, show a transfer
BESIDE = 4  # so many bytes before and behind a line feed are not all of a text where it is of a codestream
LINE_END, NO_TEXT = re.compile(rb"\r?\n"), re.compile(rb"[^\t\n\r\x20-\x7e]")
BLOCK, MORE = 64, 16  # bytes of a part of a copy, and so many more of these parts stand where another copy has them


def as_text(text: bytes) -> bool:
    """Whether nearly all line feeds of a copy have a carriage return before them."""
    both = text.count(b"\r\n")
    return 0 < both >= SHARE * text.count(b"\n")


def is_coded_as_text(text: bytes) -> bool:
    """Whether nearly all line feeds of its codestreams, of which there are many, have a carriage return before them."""
    begin = max((found.end() for found in PIXELS_BEGIN.finditer(text)), default=len(text))
    ends = [found for found in LINE_END.finditer(text, begin) if is_in_code(text, found.start(), found.end())]
    both = sum(len(found.group()) > 1 for found in ends)
    return LEAST <= both >= SHARE * len(ends)


def is_in_code(text: bytes, begin: int, end: int) -> bool:
    """Whether the bytes beside a line feed are not all of a text: then no sector of a text stands there."""
    return bool(NO_TEXT.search(text[max(0, begin - BESIDE) : begin] + text[end : end + BESIDE]))


def undone(texts: Sequence[bytes]) -> dict[int, bytes]:
    """{a copy that was transferred as text: what it was before}."""
    binaries = {at: text.replace(b"\r\n", b"\n") for at, text in enumerate(texts) if as_text(text)}
    reading = {at: binary for at, binary in binaries.items() if end_of(texts[at]) is None and end_of(binary) is not None}
    sizes = [len(reading.get(at, text)) for at, text in enumerate(texts)]
    many = {at for at in binaries if texts[at].count(b"\r\n") >= LEAST}
    sure = {*reading, *(at for at in many if len(binaries[at]) in sizes[:at] + sizes[at + 1 :])}
    sure |= {at for at in many - sure if is_more_alike(texts, at, binaries[at], [binaries[other] for other in sure])}
    return {at: binary for at, binary in binaries.items() if at in sure or is_coded_as_text(texts[at])}


def is_more_alike(texts: Sequence[bytes], at: int, binary: bytes, known: Sequence[bytes]) -> bool:
    """Whether far more of a copy stands where another one has it without its carriage returns. `known` are copies without theirs."""
    others = [*(text for number, text in enumerate(texts) if number != at), *known]
    return any(parts_alike(binary, other) >= 2 * parts_alike(texts[at], other) + MORE for other in others)


def parts_alike(one: bytes, other: bytes) -> int:
    """How many parts of two copies are equal at their places, and not of one value."""
    parts = ((one[at : at + BLOCK], other[at : at + BLOCK]) for at in range(0, min(len(one), len(other)) - BLOCK + 1, BLOCK))
    return sum(own == beside and own != own[:1] * BLOCK for own, beside in parts)


def lost_returns(copy: Copy, copies: Sequence[Copy]) -> bool:
    """Whether all that a copy lost is each carriage return before a line feed, and no copy has one before nearly all of them."""
    places = [copy.data[begin : end + 1] for begin, end in copy.lost]
    own = copy.has_only(0, len(copy.data))
    return set(places) == {b"\r\n"} and b"\r\n" not in own and not any(as_text(each.has_only(0, len(each.data))) for each in copies)


def moved(ranges: Sequence[tuple[int, int]], text: bytes) -> list[tuple[int, int]]:
    """Where ranges of a copy as it was transferred stand in what it was before."""
    return [(begin - text.count(b"\r\n", 0, begin + 1), end - text.count(b"\r\n", 0, end)) for begin, end in ranges]
