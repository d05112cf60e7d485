"""Values of elements that differ, as lines show them: texts as texts, others in hex, and long ones cut so that their difference is seen."""
from __future__ import annotations

import codecs
from collections import Counter
from collections.abc import Sequence
from dataclasses import dataclass
from typing import Optional

from jls_tools.dicom.axis.pieces import equal_length
from jls_tools.dicom.evidence.terms import is_known
from jls_tools.dicom.read.patient_names import can_have_name, has_letters, number_of
from jls_tools.dicom.read.values import FREE_TEXTS, KNOWN_VRS
from jls_tools.file_names import printable

LONGEST_UID = 64
LATER_BYTES = bytes(range(0x80, 0xC0))  # of a letter in UTF-8
BEFORE = 8  # of a long value, how much is shown before its difference
# What Python calls the character sets of one byte a letter, and UTF-8 (PS3.3, C.12.1.1.2)
PARTS = {100: 1, 101: 2, 109: 3, 110: 4, 144: 5, 127: 6, 126: 7, 138: 8, 148: 9, 203: 15}
ENCODINGS = {"ISO_IR 192": "utf-8", **{f"ISO_IR {number}": f"iso8859-{part}" for number, part in PARTS.items()}}


@dataclass
class ToldValues:
    """How values are shown. `letters` and `numbers` are how many of a text, and of bytes in hex, are shown at most."""

    has_names: bool = True
    characters: str = ""  # the Specific Character Set of the file
    letters: int = 24
    numbers: int = 16

    def told(self, tag: str, values: Sequence[Optional[bytes]]) -> list[str]:
        """What is shown of values of one element; None is no element. Without names only their count, if they can have one."""
        there = list(dict.fromkeys(value for value in values if value is not None))
        texts = {value: self.shown(tag, value, first_apart(value, there)) for value in there}
        twice = {text for text, count in Counter(texts.values()).items() if count > 1}  # of values that differ in their length alone
        texts = {value: f"{text} ({len(value)} bytes)" if text in twice else text for value, text in texts.items()}
        return ["no element" if value is None else texts[value] if self.is_shown(tag, value) else f"{len(value)} bytes" for value in values]

    def is_shown(self, tag: str, value: bytes) -> bool:
        is_nameless = not can_have_name(tag) and (not has_letters(value) or is_known(number_of(tag), value))
        return self.has_names or is_nameless

    def shown(self, tag: str, value: bytes, apart: int) -> str:
        """A value that is like another one up to a place."""
        if not value:
            return "nothing"
        number = number_of(tag)
        vr = KNOWN_VRS.get(number) if number is not None else None
        is_padded = vr == b"UI" and len(value) > 1 and value.endswith(b"\0")
        text, most = value[:-1] if is_padded else value, max(self.letters, LONGEST_UID) if vr == b"UI" else self.letters
        encoding = ENCODINGS.get(self.characters, "ascii") if vr in FREE_TEXTS else "ascii"
        begin, end = part_of(len(text), apart, most)
        found = decoded(text[begin:end], encoding, begin > 0, end < len(text))
        if found is not None:
            return f"'{'..' if begin else ''}{found}{'..' if end < len(text) else ''}'"
        begin, end = part_of(len(value), apart, self.numbers)
        return f"{'.. ' if begin else ''}{value[begin:end].hex(' ')}{' ..' if end < len(value) else ''}"


def first_apart(value: bytes, others: Sequence[bytes]) -> int:
    """How much of a value is as in the one of the others that it is most like."""
    return max((equal_length(value, other, 0, 0) for other in others if other != value), default=0)


def part_of(size: int, apart: int, most: int) -> tuple[int, int]:
    """(begin, end) of what is shown of so many bytes: the first ones, unless they differ from another value later."""
    begin = 0 if size <= most or apart + BEFORE <= most else min(apart - BEFORE, size - most)
    return begin, min(size, begin + most)


def decoded(part: bytes, encoding: str, is_cut_before: bool, is_cut_behind: bool) -> Optional[str]:
    """A part of a text, if it is one and can be printed. A letter that it cuts is left out."""
    if is_cut_before and encoding == "utf-8":
        part = part.lstrip(LATER_BYTES)
    try:
        text = codecs.getincrementaldecoder(encoding)().decode(part, not is_cut_behind)
    except UnicodeDecodeError:
        return None
    return printable(text) if text and text.isprintable() else None
