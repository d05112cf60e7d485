"""What a VR allows a value to be (PS3.5, 6.2), and the VRs of well-known elements (PS3.6)."""
from __future__ import annotations

import calendar
import itertools
import re
from collections.abc import Iterator

from jls_tools.dicom.read.vrs import ELEMENTS

DIGITS_AND_DOTS = re.compile(rb"[0-9.]+\0?\Z")
UID_PARTS = re.compile(r"(?:0|[1-9]\d*)(?:\.(?:0|[1-9]\d*))+\Z")
DATE = re.compile(rb"(?:\d{4}(?:0[1-9]|1[0-2])(?:0[1-9]|[12]\d|3[01])|\d{4}\.\d\d\.\d\d)\Z")
DATES = re.compile(rb"[0-9-]+\Z")
TIME = re.compile(rb"(?:[01]\d|2[0-3])(?:[0-5]\d(?:(?:[0-5]\d|60)(?:\.\d{1,6})?)?)?\Z|\d\d:\d\d(?::\d\d(?:\.\d+)?)?\Z")
TIMES = re.compile(rb"[0-9.-]+\Z")
DATE_TIME = re.compile(rb"\d{4}(?:[0-9]{2}){0,5}(?:\.\d{1,6})?(?:[+-]\d{4})?(?:-\d[0-9.+-]*)?\Z")
AGE = re.compile(rb"\d{3}[DWMY]\Z")
CODE = re.compile(rb"[A-Z0-9 _]{0,16}\Z")
WHOLE = re.compile(rb" *[+-]?\d{1,12} *\Z")
DECIMAL = re.compile(rb" *[+-]?(?:\d+\.?\d*|\.\d+)(?:[eE][+-]?\d+)? *\Z")
# control characters other than ESC (and TAB, LF, FF, CR in texts), and twice the byte that is a letter of few languages
NOT_IN_TEXT = re.compile(rb"[\x00-\x08\x0b\x0e-\x1a\x1c-\x1f\x7f]|\xff\xff")
NOT_IN_STRING = re.compile(rb"[\x00-\x1a\x1c-\x1f\x7f]|\xff\xff")
# Some writers put several of these into free texts. A flip makes one, and noise has bytes beyond ASCII beside them
WRITTEN = re.compile(rb"[\x01-\x08\x0b\x0e-\x1a\x1c-\x1f\x7f]")
FREE_TEXTS = frozenset(b"LO LT PN SH ST UC UT".split())
NUMBERS = frozenset(b"UI DA TM DT DS IS".split())
SHORT_PAD = 4
PRINTABLE = re.compile(rb"[\x20-\x7e]{2,64}\Z")
SIZES = {b"AT": 4, b"FD": 8, b"FL": 4, b"OD": 8, b"OF": 4, b"OL": 4, b"OV": 8, b"OW": 2, b"SL": 4, b"SS": 2, b"SV": 8, b"UL": 4, b"US": 2}
SIZES[b"UV"] = 8
TEXTS = frozenset(b"AE AS CS DA DS DT IS LO LT PN SH ST TM UC UI UR UT".split())
# Longest values of one element of a kind (PS3.5, Table 6.2-1); PN has three groups
LONGEST = {b"AE": 16, b"LO": 64, b"SH": 16, b"PN": 324}


def is_uid(value: bytes) -> bool:
    """Whether bytes are a UID: numbers and dots, 64 at most, one byte 0 to make its length even."""
    if not DIGITS_AND_DOTS.match(value) or len(value) > 65:
        return False
    return bool(UID_PARTS.match(value.rstrip(b"\0").decode("ascii")))


def each_matches(form: re.Pattern[bytes], value: bytes) -> bool:
    """Whether each value of a text has a form. One byte 0 at the end is taken for padding; more are not (PS3.5, 6.2)."""
    value = value[:-1] if value.endswith(b"\0") else value
    return all(not part.strip(b" ") or form.match(part.strip(b" ")) for part in value.split(b"\\"))


def is_dates(value: bytes) -> bool:
    """Whether a value is dates that the calendar has, or ranges of them."""
    if b"-" in value:
        return each_matches(DATES, value)
    parts = [part for part in value.rstrip(b"\0").split(b"\\") if len(part.strip(b" ")) == 8]
    return each_matches(DATE, value) and all(is_in_calendar(part.strip(b" ")) for part in parts)


def is_in_calendar(text: bytes) -> bool:
    year, month, day = int(text[:4]), int(text[4:6]), int(text[6:])
    return year == 0 or day <= calendar.monthrange(year, month)[1]


def is_string(vr: bytes, value: bytes) -> bool:
    """One or several short strings. A byte 0 at the end is no value of these VRs, but some writers pad with it."""
    value = value[:-1] if value.endswith(b"\0") else value
    if NOT_IN_STRING.search(value):
        return False
    return all(len(part.rstrip(b" ")) <= LONGEST[vr] for part in value.split(b"\\"))


def allows(vr: bytes, value: bytes) -> bool:
    """Whether a VR allows a value. Of binary VRs only the length is looked at."""
    if vr in SIZES:
        return len(value) % SIZES[vr] == 0
    if len(value) == 0:
        return True
    if vr == b"UI":
        return all(is_uid(part) for part in value.split(b"\\"))
    if vr in LONGEST:
        return is_string(vr, value)
    if vr in FORMS:
        return each_matches(FORMS[vr], value)
    if vr == b"DA":
        return is_dates(value)
    if vr == b"TM":
        return each_matches(TIME, value) or (b"-" in value and each_matches(TIMES, value))
    if vr in (b"LT", b"ST", b"UT", b"UC", b"UR"):
        return not NOT_IN_TEXT.search(value.rstrip(b"\0"))
    return True


def is_written(vr: bytes, value: bytes) -> bool:
    """Whether control characters of a text can be those of its writer."""
    return vr in FREE_TEXTS and value.isascii() and len(WRITTEN.findall(value)) > 1


def is_doubtful(vr: bytes, value: bytes) -> bool:
    """Whether a value is one that its VR forbids, and that damage can have made.

    Some writers put other texts there, such as Anon. No flip of one bit makes them allowed, and noise is no text. Others fill an empty
    text with zeros: damage that zeroes so few bytes and none beside them is none that is known.
    """
    if allows(vr, value) or len(value) <= SHORT_PAD and not value.strip(b"\0"):
        return False
    text = bytearray(value.rstrip(b"\0"))
    if vr not in TEXTS or not PRINTABLE.match(text) or vr in NUMBERS and is_half_of_numbers(text):
        return True
    for at, bit in itertools.product(range(len(text)), range(8)):
        text[at] ^= 1 << bit
        if allows(vr, bytes(text)) or allows(vr, bytes(text) + b"\0"):
            return True
        text[at] ^= 1 << bit
    return False


def is_half_of_numbers(text: bytes) -> bool:
    """Whether half of a text and more are digits and dots: who writes another text than a number has few of them."""
    return sum(byte in b"0123456789." for byte in text) * 2 >= len(text)


FORMS = {b"AS": AGE, b"CS": CODE, b"DS": DECIMAL, b"DT": DATE_TIME, b"IS": WHOLE}

# Elements of later editions of PS3.6 than that of vrs.py, and retired ones that it has not
MORE_ELEMENTS = """
0008 0017UI 0019UI 1088LO
0028 0410US 0411US 0802US
"""


def of_elements(text: str) -> Iterator[tuple[int, tuple[bytes, ...]]]:
    """The tag of each element of such a table, with the VRs that it can have."""
    for line in text.split("\n"):
        group, *words = line.split() or [""]
        yield from ((int(group + word[:4], 16), tuple(vr.encode() for vr in word[4:].split("/"))) for word in words)


VRS_OF: dict[int, tuple[bytes, ...]] = {**dict(of_elements(ELEMENTS)), **dict(of_elements(MORE_ELEMENTS))}
VRS_OF.update({0x00281201 + at: (b"OW", b"US") for at in range(3)})  # writers have both
REPEATING, REPEATING_GROUPS = (0x50, 0x60, 0x7F), (0x1000, 0x1010)
REPEATING_ELEMENTS = (0x002031, 0x002804, 0x002808)
KNOWN_VRS = {tag: vrs[0] for tag, vrs in VRS_OF.items() if len(vrs) == 1}


def is_of_standard(tag: int) -> bool:
    """Whether PS3.6 has a tag, as far as that is known here: private and repeating groups can have any."""
    group = tag >> 16
    is_repeated = group >> 8 in REPEATING or group in REPEATING_GROUPS or tag >> 8 in REPEATING_ELEMENTS
    return tag in VRS_OF or group % 2 == 1 or tag & 0xFFFF == 0 or is_repeated


def strangeness(tag: int, vr: bytes) -> int:
    """0 for an element with the VR that it has in PS3.6, 1 for one that isn't known here, 4 for one with another VR."""
    group, number = tag >> 16, tag & 0xFFFF
    if vr == b"UN":
        return 2
    if tag in VRS_OF:
        return 0 if vr in VRS_OF[tag] else 4
    if number == 0:
        return 0 if vr == b"UL" else 4
    if group % 2 and 0x10 <= number <= 0xFF:
        return 0 if vr == b"LO" else 4
    return 1
