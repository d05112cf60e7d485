"""Bytes after the last element of a copy: the rest of a sector, of a block of a tape, or of an older file.

A tail is cut where a copy that reads whole lacks it, where most copies lack it, or where another copy ends just where the elements do. One
of both can have lost bytes ahead of its end, or have too many. If all copies read to one place, and go on to the end of a sector or of
another file, two of them at least with bytes of their own that are no padding, these are cut from all. So are tails of one value that are
not the same in all copies that have some: a file ends with its last element (PS3.10, 7), and none is so. A tail that all copies have stays.
Another one is undecided: then a SHA-256 alone can say which file is true.
"""
from __future__ import annotations

from collections import Counter
from dataclasses import dataclass, field
from typing import Optional

from jls_tools.dicom.axis.media import SECTOR
from jls_tools.dicom.read.elements import DELIMITER, PIXELS_BEGIN, UNDEFINED, has_prefix, walk
from jls_tools.dicom.read.reading import Reading
from jls_tools.dicom.read.tags import PIXEL_DATA

BEGIN = 8  # so many bytes of a tail, or fewer, differ from those of others that have nothing to do with it
BESIDE = 64  # so many bytes before the end of a whole copy are equal in one that goes on behind it


@dataclass
class Tails:
    """The copies without what stands after their last elements. `ways` are the tails that the file can have, the one taken first."""

    texts: list[bytes]
    cut: list[int] = field(default_factory=list)  # the copies of which a tail was cut
    ways: list[bytes] = field(default_factory=lambda: [b""])
    is_decided: bool = True


def end_of(text: bytes) -> Optional[int]:
    """Where the last element of a file ends, if it reads so far."""
    reading = Reading(text)
    return reading.end if reading.is_whole and has_prefix(text) else None


def ends_of(texts: list[bytes]) -> list[Optional[int]]:
    """Where the last element of each file ends. What begins there in another file is none where tags don't ascend any more."""
    ends = [end_of(text) for text in texts]
    begins = [descends_at(text) for text in texts]
    return [begin if begin is not None and begin in ends else end for end, begin in zip(ends, begins)]


def descends_at(text: bytes) -> Optional[int]:
    """Where an element of the top level begins after Pixel Data whose tag is lower: the rest of another file can begin so."""
    tops = Reading(text).top if has_prefix(text) else []
    pixels = next((at for at, element in enumerate(tops) if element.tag == PIXEL_DATA), len(tops))
    return next((element.start for element in tops[pixels:] if element.tag < PIXEL_DATA), None)


def without_tails(texts: list[bytes]) -> Tails:
    """Cuts the tails that can be told."""
    ends = ends_of(texts)
    likely = [end if end is not None else end_behind(text) for text, end in zip(texts, ends)]
    borders = [end_in_both(texts, at, ends[at], likely[at]) or border_of(texts, ends, at, likely[at]) for at in range(len(texts))]
    found = Tails([text if border is None else text[:border] for text, border in zip(texts, borders)])
    found.cut = [at for at, border in enumerate(borders) if border is not None]
    if found.cut:
        found.ways += dict.fromkeys(texts[at][border:] for at, border in enumerate(borders) if border is not None)
        return found
    owns = [own if own is not None else may_be for own, may_be in zip(ends, likely)]
    end = next((end for text, end in zip(texts, ends) if end is not None and end < len(text)), None)
    if end is None and not any(ends) and all(map(PIXELS_BEGIN.search, texts)) and are_padded(texts, owns, 0):
        return without_these(texts, owns)
    if end is None or any(other not in (None, end) for other in ends):
        return found
    if are_strange(texts, owns, end) or are_padded(texts, owns, end):
        return without_these(texts, owns)
    # One that does not read whole can be longer and end as a file does: bytes were put into it, and it has no tail
    longer = [at for at, text in enumerate(texts) if len(text) > end]
    with_tails = [at for at in longer if ends[at] is not None or likely[at] != len(texts[at])]
    borders = [end if own is None else own for own in owns]
    tails = list(dict.fromkeys(texts[at][borders[at] :] for at in longer))
    if len(tails) == 1:
        shorter = [at for at, text in enumerate(texts) if at not in longer and has_tail(text, owns[at], texts[longer[0]][:end], tails[0])]
        found.is_decided = len(texts) == 1 or len(longer) + len(shorter) > 1
        with_tails += shorter if found.is_decided else []
    elif any(own is None and len(text) > end for own, text in zip(ends, texts)) or are_of_one_element(tails):
        return found
    else:
        found.is_decided = False
    found.texts = [text[: borders[at]] if at in with_tails else text for at, text in enumerate(texts)]
    found.ways = [*tails, b""] if found.is_decided else [b"", *tails]
    return found


def without_these(texts: list[bytes], owns: list[Optional[int]]) -> Tails:
    """The copies, each cut where its elements end, as far as that is known."""
    tails = [text[own:] if own is not None else b"" for text, own in zip(texts, owns)]
    found = Tails([text[:own] for text, own in zip(texts, owns)], [at for at, tail in enumerate(tails) if tail])
    found.ways += dict.fromkeys(filter(None, tails))
    return found


def are_padded(texts: list[bytes], owns: list[Optional[int]], end: int) -> bool:
    """Whether bytes of one value stand after the elements, and not the same in all copies that have some: no element is so.

    `owns` are where the elements of each may end. One that is longer, and in which this is not known, can have anything after them.
    """
    if any(own is None and len(text) > end for text, own in zip(texts, owns)):
        return False
    tails = [text[own:] for text, own in zip(texts, owns) if own is not None and own < len(text)]
    is_one = len(tails) > 1 and len(set(tails)) == 1
    return not is_one and len(texts) > 1 and all(not tail.strip(tail[:1]) for tail in tails)


def are_strange(texts: list[bytes], owns: list[Optional[int]], end: int) -> bool:
    """Whether copies go on to the end of a sector, or end as another file does, and two at least have bytes of their own, no padding.

    Others can have bytes of one value.

    Else it can be an element whose header is damaged in each copy. `owns` are where the elements of each may end: a sector of one that
    lost bytes before, or has too many, ends so much earlier or later.
    """
    tails = [text[own:] for text, own in zip(texts, owns) if own is not None and text[own:].strip(text[own : own + 1])]
    begins = {tail[:BEGIN] for tail in tails}
    are_own = None not in owns and len(tails) == len(begins) > 1 and not are_of_one_element(tails)
    sizes = [len(text) - (own or 0) + end for text, own in zip(texts, owns)]
    is_padding = [own is not None and not text[own:].strip(text[own : own + 1]) for text, own in zip(texts, owns)]
    are_ends = (size % SECTOR == 0 or end_behind(text) == len(text) for size, text in zip(sizes, texts))
    return are_own and all(one or other for one, other in zip(is_padding, are_ends))


def are_of_one_element(tails: list[bytes]) -> bool:
    """Whether tails have most bytes in common: they can be an element whose header was damaged in each copy."""
    sizes = set(map(len, tails))
    apart = sum(len(set(values)) > 1 for values in zip(*tails))
    return len(sizes) == 1 and apart * 2 < max(sizes)


def end_behind(text: bytes) -> Optional[int]:
    """Where the elements end that follow the last delimiter of a sequence, as those after Pixel Data do."""
    at = text.rfind(DELIMITER)
    elements = list(walk(text, at + len(DELIMITER))) if at >= 0 else []
    if elements and elements[-1].length != UNDEFINED:
        return elements[-1].end
    return at + len(DELIMITER) if at >= 0 and not elements else None


def border_of(texts: list[bytes], ends: list[Optional[int]], at: int, own: Optional[int]) -> Optional[int]:
    """Where the tail of a copy begins that others say is none of the file; nothing if they don't. `own` is where its elements may end."""
    text = texts[at]
    sizes = Counter(len(other) for number, other in enumerate(texts) if number != at)
    for number, (other, end) in enumerate(zip(texts, ends)):
        size = len(other)
        if number == at or size >= len(text) or own == len(text):
            continue
        is_end = own == size or ends[at] is None and ends_alike(text, other) or text[:size] == other
        if is_end and (end == size or own == size or sizes[size] * 2 > len(texts)):
            return size
    return None


def end_in_both(texts: list[bytes], at: int, end: Optional[int], likely: Optional[int]) -> Optional[int]:
    """Where a copy goes on after its last element, if another one, which can have lost bytes or have more, ends just there.

    One that does not read whole ends after its last delimiter, unless the other copy has what follows there.
    """
    text, border = texts[at], likely if end is None else end
    if border is None or border == len(text):
        return None
    others = [other for number, other in enumerate(texts) if number != at and is_one_end(text[:border], other)]
    if end is None and any(stands_in(text[border:], other) for other in others):
        return None
    return border if others else None


def has_tail(text: bytes, own: Optional[int], other: bytes, tail: bytes) -> bool:
    """Whether a copy that lost bytes has a tail too, just behind what another one ends with. `own` is where its elements may end."""
    return own is not None and text[own:] == tail and is_one_end(text[:own], other)


def stands_in(tail: bytes, other: bytes) -> bool:
    """Whether another copy has the beginning of a tail, beside what is of one value in it."""
    begin = tail.lstrip(tail[:1])[:BESIDE]
    return begin != b"" and begin in other


def is_one_end(text: bytes, other: bytes) -> bool:
    """Whether a copy that lost bytes ends with those of another one, the last of Pixel Data among them: other files end alike after it.

    It can't be told where a sector ends in one of both: there a disk can have cut it.
    """
    begin = text.rfind(DELIMITER) - BESIDE
    is_alike = begin >= 0 and other.endswith(text[begin:])
    return is_alike and len(text) % SECTOR > 0 and len(other) % SECTOR > 0


def ends_alike(text: bytes, other: bytes) -> bool:
    """Whether a copy goes on after the end of another one, which ends with the same bytes or where zeros begin."""
    size = len(other)
    return text[max(0, size - BESIDE) : size] == other[-BESIDE:] or not text[size:].strip(b"\0")
