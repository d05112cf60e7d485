"""Which of two UIDs that should be equal a file has: what denies one that two elements of a copy agree on."""
from __future__ import annotations

import os
from collections.abc import Callable, Iterator, Sequence

from jls_tools.dicom.axis.align import Copy
from jls_tools.dicom.axis.bad_places import Range
from jls_tools.dicom.axis.media import SECTOR
from jls_tools.dicom.axis.runs import cut_at_sectors
from jls_tools.dicom.read.elements import Element, text_of
from jls_tools.dicom.read.values import is_uid

MOST_OF_ONE = 3  # so many copies are not of one damaged file
DIGITS = frozenset(b"0123456789")
IsLost = Callable[[int, int, int], bool]
COUNTED = 3  # last digits in which the UIDs of the files of one series differ


def said_of(copy: Copy, element: Element, data: bytes) -> Iterator[tuple[str, Range]]:
    """What a copy says that a UID is, and the range of it that is the copy's own: all of it, or what stands in one sector alone.

    `data` is the file with what was taken: a copy that lost the sector before can have the true end of a UID.
    """
    for first, last in {(element.start, element.end), *cut_at_sectors(element.start, element.end)}:
        begin, end = max(first, element.value), max(last, element.value)
        if not copy.lacks(begin, end):
            yield text_of(data[element.value : begin] + copy.data[begin:end] + data[end : element.end]), (first, last)


def are_denied(copies: Sequence[Copy], uids: set[str], elements: Sequence[Element], data: bytes, is_lost: IsLost) -> bool:
    """Whether each can be the file's: of three elements of copies that read, one or more have another UID, and by no flipped bit.

    `is_lost` says of a copy and a range that a part of it there was decided against this copy.
    """
    agreeing = denying = 0
    for number, copy in enumerate(copies):
        own = [each for each in elements if not copy.lacks(each.value, each.end)]
        agreeing += sum(text_of(each.bytes_of(copy.data)) in uids for each in own)
        for each in elements:
            texts = (text for text, part in said_of(copy, each, data) if not is_lost(number, *part))
            others = (text for text in texts if is_uid(text.encode("latin-1")) and text not in uids)
            denying += any(not any(is_flip(other, uid) for uid in uids) for other in others)
    return denying * 2 >= agreeing


def may_be_of_series(copies: Sequence[Copy], uids: set[str], elements: Sequence[Element], data: bytes, is_lost: IsLost) -> bool:
    """Whether an element of a copy has another instance's UID of this series, and fewer than two copies have one of these in each place.

    A flip makes one of the other, and so does a sector of another file in each copy.
    """
    agreeing = sum(all(any(has_uid(copy, each, uid) for uid in uids) for each in elements) for copy in copies)
    texts = (
        text
        for number, copy in enumerate(copies)
        for each in elements
        for text, part in said_of(copy, each, data)
        if text not in uids and not is_lost(number, *part)
    )
    return agreeing < 2 and any(is_of_series(text, uid) for text in texts for uid in uids)


def are_of_series(one: str, other: str) -> bool:
    """Whether two UIDs differ in their last digits alone, as those of the files of a series do."""
    return one != other and max(len(one), len(other)) - len(os.path.commonprefix([one, other])) <= COUNTED


def is_of_series(text: str, uid: str) -> bool:
    """Whether a text is the UID of another file of the series."""
    return is_uid(text.encode("latin-1")) and are_of_series(text, uid)


def of_series(copies: Sequence[Copy], uid: str, elements: Sequence[Element], data: bytes) -> dict[int, list[tuple[str, Range]]]:
    """{a copy that says another instance's UID of this series in one of these elements: what it says}. So it can have more of that file."""
    found: dict[int, list[tuple[str, Range]]] = {}
    for number, copy in enumerate(copies):
        said = [each for element in elements for each in said_of(copy, element, data) if is_of_series(each[0], uid)]
        if said:
            found[number] = said
    return found


def stands_against(copies: Sequence[Copy], uid: str, elements: Sequence[Element], data: bytes) -> bool:
    """Whether a copy has another instance's UID of this series, and not by a flipped bit that stands alone.

    Then two other copies can be of that one, as where one damaged copy was copied. Three that have the UID in each place are not.
    """
    holders = [copy for copy in copies if all(has_uid(copy, each, uid) for each in elements)]
    if len(holders) >= MOST_OF_ONE:
        return False
    return any(
        not (is_flip(text, uid) and any(has_same_numbers(copies[number], holder, element) for holder in holders))
        for number, said in of_series(copies, uid, elements, data).items()
        for text, part in said
        for element in elements
        if element.start <= part[0] < element.end
    )


def has_uid(copy: Copy, element: Element, uid: str) -> bool:
    return text_of(element.bytes_of(copy.data)) == uid and not copy.lacks(element.value, element.end)


def has_same_numbers(copy: Copy, other: Copy, element: Element) -> bool:
    """Whether two copies have the same digits before and after a value, in its sectors: another file has others there."""
    first, last = element.start // SECTOR * SECTOR, -(-element.end // SECTOR) * SECTOR
    parts = (first, element.value), (element.end, last)
    pairs = (pair for begin, end in parts for pair in zip(copy.data[begin:end], other.data[begin:end]))
    return all(one == two or not {one, two} <= DIGITS for one, two in pairs)


def is_flip(one: str, other: str) -> bool:
    """Whether one bit alone makes a text of another one."""
    apart = [ord(left) ^ ord(right) for left, right in zip(one, other) if left != right]
    return len(one) == len(other) and len(apart) == 1 and apart[0] & apart[0] - 1 == 0
