"""What headers of DICOM files say, by a plain walk: whose picture a file is, and how many elements copies have in versions that read."""
from __future__ import annotations

from typing import Dict, Iterable, Sequence, Set, Tuple

from jls_tools.dicom.read.elements import UNDEFINED, text_of, walk
from jls_tools.dicom.read.tags import CHARACTER_SET
from jls_tools.dicom.read.values import TEXTS, allows

DATE, DESCRIPTION = 0x00080020, 0x00081030
NAME, NUMBER, STUDY = 0x00100010, 0x00100020, 0x0020000D
MOST = 200  # letters that are told


def values_of(data: bytes) -> Dict[int, Tuple[bytes, bytes]]:
    """{tag: (VR, value)} of the elements of the top level whose length is said, as far as the file can be walked."""
    return {each.tag: (each.vr, each.bytes_of(data)) for each in walk(data) if each.length != UNDEFINED and each.end <= len(data)}


def count(texts: Sequence[bytes]) -> int:
    """How many elements have two or more values in copies that each can be true: their VR allows them, and no text is zeros alone."""
    found: Dict[int, Set[bytes]] = {}
    for data in texts:
        for tag, (vr, value) in values_of(data).items():
            if allows(vr, value) and not (vr in TEXTS and value and not value.strip(b"\0")):
                found.setdefault(tag, set()).add(value)
    return sum(len(values) > 1 for values in found.values())


def read(value: bytes, characters: bytes) -> str:
    """A text on one line. Of character sets those count that most files have: others are shown byte for byte."""
    if characters.strip(b" \0") == b"ISO_IR 192":
        text = value.rstrip(b"\0 ").decode("utf-8", "replace")
    else:
        text = text_of(value)
    return " ".join(text.split())[:MOST]


def whose(texts: Iterable[bytes]) -> Tuple[str, str]:
    """(the patient, the study) of the first copy that says them."""
    patient, study = "", ""
    for data in texts:
        values = {tag: value for tag, (_, value) in values_of(data).items()}
        told = {tag: read(values.get(tag, b""), values.get(CHARACTER_SET, b"")) for tag in (NAME, NUMBER, DATE, DESCRIPTION, STUDY)}
        patient = patient or ", ".join(filter(None, (told[NAME], told[NUMBER])))
        study = study or " ".join(filter(None, (told[DATE], told[DESCRIPTION], told[STUDY])))
    return patient, study
