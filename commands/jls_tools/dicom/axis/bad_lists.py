"""Lists of bad places, as `jls-dicom mend --bad` takes them: a mapfile of GNU ddrescue, or lines with an offset and a length."""
from __future__ import annotations

import re
from collections.abc import Iterator
from typing import Optional

from jls_tools.dicom.axis.align import merged
from jls_tools.dicom.axis.bad_places import Range
from jls_tools.file_names import printable

LARGEST = 1 << 25  # bytes: a longer file is no list
NUMBER = re.compile(r"0[xX][0-9a-fA-F]{1,16}|[0-9]{1,19}")
STATUSES, RESCUED = "?*/-+", "+"
CURRENT = STATUSES + "FGS"  # what the first line of a mapfile has behind its offset


class BadList(Exception):
    """Why a list isn't taken."""


def number(word: str) -> Optional[int]:
    if not NUMBER.fullmatch(word):
        return None
    return int(word, 16) if word[:2] in ("0x", "0X") else int(word)


def lines_of(path: str) -> Iterator[tuple[int, list[str]]]:
    """(its number, its words) of each line that has words; what follows # has none."""
    with open(path, "rb") as file:
        text = file.read(LARGEST + 1)
    if len(text) > LARGEST:
        raise BadList(f"{path}: it has more than {LARGEST >> 20} MB, and is no list of bad places")
    for at, line in enumerate(text.split(b"\n"), 1):
        words = line.partition(b"#")[0].decode("ascii", "replace").split()
        if words:
            yield at, words


def is_current(words: list[str]) -> bool:
    """Whether a line says, as the first one of a mapfile, where ddrescue was: an offset, a status, and perhaps a pass."""
    return len(words) in (2, 3) and number(words[0]) is not None and len(words[1]) == 1 and words[1] in CURRENT and not words[1].isdigit()


def read(path: str) -> list[Range]:
    """The bad places that a list names, in order. Of a mapfile these are all that were not rescued."""
    found, is_map, is_first = [], False, True
    for at, words in lines_of(path):
        if is_first and is_current(words):
            is_map, is_first = True, False
            continue
        is_first = False
        numbers = [number(word) for word in words[:2]]
        begin, length = numbers if len(numbers) == 2 else (None, None)
        is_well = len(words) == 3 and words[2] in STATUSES and len(words[2]) == 1 if is_map else len(words) == 2
        if begin is None or length is None or not is_well:
            wanted = "an offset, a length and a status of ddrescue" if is_map else "an offset and a length"
            raise BadList(f"{path}: line {at} has not {wanted}: {printable(' '.join(words)[:60])}")
        if not is_map or words[2] != RESCUED:
            found.append((begin, begin + length))
    return merged((begin, end) for begin, end in found if begin < end)


def of_copy(path: str, size: int) -> tuple[list[Range], int]:
    """(the places of a list in a file of so many bytes, how many of it begin after its end)."""
    found = read(path)
    return [(begin, min(end, size)) for begin, end in found if begin < size], sum(begin >= size for begin, _ in found)
