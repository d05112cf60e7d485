"""What of a header can have the name of a patient, so that --no-names leaves it out: elements, and letters where none belong."""
from __future__ import annotations

import re

from jls_tools.dicom.read.tags import GROUP_LENGTH
from jls_tools.dicom.read.values import KNOWN_VRS

TAG = re.compile(r"\(([0-9a-f]{4}),([0-9a-f]{4})\)\Z")
PATIENT = frozenset((0x0010, 0x0012))  # groups: patients, and what they are called in trials
# VRs of values that are numbers, dates, UIDs and codes; all others can be texts
NAMELESS = frozenset(b"AS AT CS DA DS DT FD FL IS OV OW SL SS SV TM UI UL US UV".split())
# Two letters side by side in any character set (PS3.3, C.12.1.1.2), or the escape before those of ISO 2022
LETTERS = re.compile(rb"[A-Za-z\x80-\xff]{2}|\x1b")
NO_ELEMENT = ("preamble", "DICM", "(fffe,e000)", "(fffe,e00d)", "(fffe,e0dd)")


def can_have_name(tag: str) -> bool:
    """Whether an element, as reports name it, can have a name. One that isn't known can."""
    if tag in NO_ELEMENT:
        return False
    number = number_of(tag)
    if number is None:
        return True
    vr = b"UL" if number == GROUP_LENGTH else KNOWN_VRS.get(number)
    return number >> 16 in PATIENT or vr not in NAMELESS


def number_of(tag: str) -> int | None:
    """A tag as a number, if reports name an element so."""
    found = TAG.match(tag)
    return int(found.group(1) + found.group(2), 16) if found else None


def has_letters(value: bytes) -> bool:
    """Whether bytes can be of a name, as where a foreign file stands over an element, or one place goes on over several elements."""
    return LETTERS.search(value) is not None
