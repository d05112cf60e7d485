"""What PS3.10 says of a file's beginning, its preamble, DICM and meta information, where copies differ in it."""
from __future__ import annotations

import re
import struct
from functools import partial
from typing import TYPE_CHECKING

from jls_tools.dicom.evidence.alone import ONLY_VERSION
from jls_tools.dicom.evidence.uids import are_denied, may_be_of_series
from jls_tools.dicom.read.elements import JPEG_LS, tag_name, text_of
from jls_tools.dicom.read.tags import GROUP_LENGTH, INSTANCE, META, PREAMBLE, PREFIX, SYNTAX, TWINS, VERSION, VERSION_NAME, WRITER
from jls_tools.dicom.read.values import allows

if TYPE_CHECKING:
    from jls_tools.dicom.evidence.header import Header

IS_PREFIX = "each DICOM file has it there"
NO_MEANING = "the preamble has no meaning"
DCMTK, OF_DCMTK = re.compile(r"OFFIS_DCMTK_(\d)(\d)(\d)\Z"), "1.2.276.0.7230010.3.0."


def by_prefix(header: Header) -> None:
    """Leaves DICM after the preamble, where any copy has it (PS3.10, 7.1)."""
    for number in header.open_runs(PREAMBLE, PREAMBLE + len(PREFIX)):
        run = header.runs.runs[number]
        wanted = PREFIX[max(0, run.begin - PREAMBLE) : run.end - PREAMBLE]
        ways = {way for way in header.left[number] if run.part(way, PREAMBLE, PREAMBLE + len(PREFIX)) == wanted}
        header.keep(number, ways, IS_PREFIX)


def by_meta(header: Header) -> None:
    """Leaves what each file of JPEG-LS frames has in its meta information, and UIDs that are equal in both places."""
    meta = [element for element in header.structure.elements if element.tag >> 16 == META]
    if meta and GROUP_LENGTH in header.elements:
        size = struct.pack("<I", meta[-1].end - header.elements[GROUP_LENGTH].end)
        header.keep_values(GROUP_LENGTH, lambda value: value == size, "so long is the meta information")
    header.keep_values(VERSION, lambda value: value == ONLY_VERSION, "no other version is there")
    header.keep_values(SYNTAX, lambda value: text_of(value) == JPEG_LS, "the frames are JPEG-LS")
    for first, second in TWINS:
        by_twins(header, first, second)


def by_version_name(header: Header) -> None:
    """Leaves the Implementation Class UID that the version name of DCMTK goes with: it ends with the same version."""
    name = DCMTK.match(header.text(VERSION_NAME) or "")
    if name is not None:
        uid = OF_DCMTK + ".".join(name.groups())
        header.keep_values(WRITER, lambda value: text_of(value) == uid, "the version name says so")


def by_twins(header: Header, first: int, second: int) -> None:
    """Leaves the readings of two elements that are equal, as the standard has them."""
    one, two = header.elements.get(first), header.elements.get(second)
    if one is None or two is None:
        return
    ones = [reading for reading in header.readings(one.value, one.end) if allows(b"UI", reading[0])]
    twos = [reading for reading in header.readings(two.value, two.end) if allows(b"UI", reading[0])]
    both = {text_of(value) for value, _ in ones} & {text_of(value) for value, _ in twos}
    given = header.copies, both, (one, two), bytes(header.merged()), partial(is_against, header)
    if both and not are_denied(*given) and not (second == INSTANCE and may_be_of_series(*given)):
        why = f"{tag_name(first)} and {tag_name(second)} are equal so"
        header.keep_readings([reading for reading in ones if text_of(reading[0]) in both], why)
        header.keep_readings([reading for reading in twos if text_of(reading[0]) in both], why)


def is_against(header: Header, copy: int, begin: int, end: int) -> bool:
    """Whether a part of a range was decided against a copy."""
    numbers = header.runs.touching(begin, end)
    return any(len(header.left.get(number, ())) == 1 and copy not in header.holders(number) for number in numbers)


def by_preamble(header: Header) -> None:
    """Zeros in the preamble, or else what the first copy has. It has no meaning (PS3.10, 7.1)."""
    for number in header.open_runs(0, PREAMBLE):
        run = header.runs.runs[number]
        if run.end <= PREAMBLE:
            zeros = {way for way in header.left[number] if not run.ways[way].strip(b"\0")}
            header.keep(number, zeros or {header.left[number][0]}, NO_MEANING)
