"""Texts that are known: values that PS3.3 enumerates or defines, names of private creators and of the programs that write DICOM files.

Where copies differ in such a text and one reading alone is known, it is true if another byte in a long word of it, or bytes that no text
has, make the other reading. Short words, numbers at the end and other words are made of each other by a flip or a foreign sector.
Retired terms are known too, and no element whose terms are free has any.
"""
from __future__ import annotations

import re
from collections.abc import Collection, Sequence
from typing import TYPE_CHECKING, Optional

from jls_tools.dicom.read.elements import text_of
from jls_tools.dicom.read.tags import PHOTOMETRIC, VERSION_NAME
from jls_tools.dicom.read.values import TEXTS

if TYPE_CHECKING:
    from jls_tools.dicom.evidence.header import Header

# Tag, and the terms that each of its values can be
TERMS = """
00080005 ISO_IR_6 ISO_IR_100 ISO_IR_101 ISO_IR_109 ISO_IR_110 ISO_IR_144 ISO_IR_127 ISO_IR_126 ISO_IR_138 ISO_IR_148 ISO_IR_13 ISO_IR_166
00080005 ISO_IR_192 GB18030 GBK ISO_2022_IR_6 ISO_2022_IR_100 ISO_2022_IR_101 ISO_2022_IR_13 ISO_2022_IR_87 ISO_2022_IR_149 ISO_2022_IR_58
00080008 ORIGINAL DERIVED PRIMARY SECONDARY AXIAL LOCALIZER
00080060 CR CT MR US OT BI DX ES XA RF RG MG PT NM PX IO GM SM XC SC SR PR KO SEG REG RTIMAGE RTDOSE RTSTRUCT RTPLAN OP OPT ECG TG DG LS HD
00080060 ANN AR ASMT AU BDUS BMD CFM CTPROTOCOL DMS DOC EPS FID HC IOL IVOCT IVUS KER LEN M3D OAM OCT OPM OPTBSV OPTENF OPV OSS PLAN POS
00080060 RESP RTINTENT RTRAD RTRECORD RTSEGANN RWV SMR STAIN TEXTUREMAP VA XAPROTOCOL AS CD CF CP CS DD DF DM DS EC FA FS LP MA MS ST VF
00080064 DV DI DF WSD SD SI DRW SYN
00080068 FOR_PRESENTATION FOR_PROCESSING
00100040 M F O
00180020 SE IR GR EP RM
00180021 SK MTC SS TRSS SP MP OSP NONE
00180023 2D 3D
00180025 Y N
00181312 ROW COL COLUMN OTHER
00185100 HFP HFS HFDR HFDL FFDR FFDL FFP FFS LFP LFS RFP RFS AFDR AFDL PFDR PFDL
00200060 L R
00280004 MONOCHROME1 MONOCHROME2 PALETTE_COLOR RGB YBR_FULL YBR_FULL_422 YBR_PARTIAL_420 YBR_PARTIAL_422 YBR_ICT YBR_RCT HSV ARGB CMYK XYB
00280301 YES NO
00281054 HU US OD MGML Z_EFF ED EDW HU_MOD PCT
00281056 LINEAR LINEAR_EXACT SIGMOID
00282110 00 01
00282114 ISO_10918_1 ISO_14495_1 ISO_15444_1 ISO_13818_2
20500020 IDENTITY INVERSE
"""
CREATORS = frozenset("""
SIEMENS MR HEADER|SIEMENS CSA HEADER|SIEMENS CSA NON-IMAGE|SIEMENS CSA REPORT|SIEMENS MEDCOM HEADER|SIEMENS MEDCOM HEADER2
SIEMENS MEDCOM OOG|SIEMENS CT VA0  COAD|SIEMENS CT VA0  GEN|SIEMENS CT VA0  IDE|SIEMENS CT VA0  ORI|SIEMENS CT VA0  RAW
SIEMENS MR SDI 02|SIEMENS MR SDS 01|SIEMENS MR VA0  COAD|SIEMENS MR VA0  GEN|SIEMENS RA GEN|SIEMENS SYNGO INDEX SERVICE
SIEMENS MR PS 04|SIEMENS MR MRS 05|SIEMENS MR IMA|GEMS_ACQU_01|GEMS_ACRQA_1.0 BLOCK1|GEMS_ACRQA_1.0 BLOCK2|GEMS_ACRQA_1.0 BLOCK3
GEMS_CT_CARDIAC_001|GEMS_CTHD_01|GEMS_DL_FRAME_01|GEMS_FALCON_03|GEMS_GDXE_FALCON_04|GEMS_GENIE_1|GEMS_GNHD_01|GEMS_HELIOS_01
GEMS_IDEN_01|GEMS_IDI_01|GEMS_IMAG_01|GEMS_IMPS_01|GEMS_PARM_01|GEMS_PATI_01|GEMS_PETD_01|GEMS_RELA_01|GEMS_SENO_02|GEMS_SERS_01
GEMS_STDY_01|GEMS_ULTRA_01|GEMS_XELPRV_01|GEMS_XR3DCAL_01|GEIIS|GEIIS PACS|GEIIS RA500|Philips Imaging DD 001
Philips Imaging DD 002|Philips MR Imaging DD 001|Philips MR Imaging DD 002|Philips MR Imaging DD 003|Philips MR Imaging DD 004
Philips MR Imaging DD 005|Philips PET Private Group|PHILIPS MR/PART|PHILIPS MR|PHILIPS MR SPECTRO;1|PHILIPS IMAGING DD 001
SPI-P Release 1|SPI-P Release 1;1|SPI RELEASE 1|SPI-P-Private_ICS Release 1|ELSCINT1|PICKER PRIVATE|ACUSON|ADAC_IMG|AGFA
AGFA_ADC_Compact|TOSHIBA_MEC_1.0|TOSHIBA_MEC_CT3|TOSHIBA_MEC_MR3|HITACHI|FDMS 1.0|KODAK|ISG shadow|MITRA MARKUP 1.0
MITRA OBJECT DOCUMENT 1.0|MERGE TECHNOLOGIES, INC.|HOLOGIC, INC.|LORAD Selenia|CARDIO-D.R. 1.0|DIDI TO PCR 1.1|QUASAR_INTERNAL_USE
PAPYRUS 3.0|CTP|BRIT Systems, Inc.|Mayo/IBM Archive Project
""".strip().replace("\n", "|").split("|"))
VERSION = re.compile(r"(?:OFFIS_DCMTK_\d{3}|GDCM \d\.\d\.\d+|PYDICOM \d\.\d\.\d+|DCM4CHE-\d\.\d+(?:\.\d+)?|dcm4che-\d\.\d+\.\d+)\Z")
KNOWN = "it is a known term, and others are none"
LEAST_WORD = 5
PRINTABLE = re.compile(rb"[\x20-\x7e]*\Z")


def terms() -> dict[int, set[str]]:
    found: dict[int, set[str]] = {}
    for line in TERMS.strip().split("\n"):
        tag, *words = line.split(" ")
        found.setdefault(int(tag, 16), set()).update(words)
    return found


OF_TAG = terms()


def has_terms(tag: int) -> bool:
    return tag in OF_TAG or tag == VERSION_NAME or is_creator(tag)


def is_creator(tag: int) -> bool:
    """Whether a tag is of a private creator (PS3.5, 7.8.1)."""
    return tag >> 16 & 1 == 1 and 0x10 <= tag & 0xFFFF <= 0xFF


def is_term(tag: int, value: bytes, places: Optional[Collection[int]] = None) -> bool:
    """Whether a value of this element is known: all values of it, or those at these places alone."""
    text = text_of(value)
    if tag == VERSION_NAME:
        return bool(VERSION.match(text))
    if is_creator(tag):
        return text in CREATORS
    parts = (part for at, part in enumerate(text.split("\\")) if places is None or at in places)
    return all(part.strip(" ").replace(" ", "_") in OF_TAG[tag] for part in parts)


def places_apart(readings: Sequence[bytes]) -> Optional[list[int]]:
    """At which places readings of an element have other values, if each has as many; else nothing. What they share need not be known."""
    values = [text_of(reading).split("\\") for reading in readings]
    if len({len(each) for each in values}) != 1:
        return None
    return [at for at, each in enumerate(zip(*values)) if len(set(each)) > 1]


def is_known(tag: int | None, value: bytes) -> bool:
    """Whether a value is a known term of this element, which can have none."""
    return tag is not None and has_terms(tag) and is_term(tag, value)


def is_made_of(tag: int, known: bytes, other: bytes) -> bool:
    """Whether damage makes the other value of a known one, and no writer: a byte in a long word, or bytes that are no text."""
    if not PRINTABLE.match(other.rstrip(b"\0")):
        return True
    for word, text in zip(known.split(b"\\"), other.split(b"\\")):
        apart = [two for one, two in zip(word, text) if one != two]
        is_number = any(0x30 <= byte <= 0x39 for byte in apart) and tag != PHOTOMETRIC  # its list is complete
        if apart and (len(apart) > 1 or is_number or len(word.strip(b" \0")) < LEAST_WORD):
            return False
    return known.count(b"\\") == other.count(b"\\")


def by_terms(header: Header) -> None:
    """Leaves the readings that are known terms, if there are any."""
    for element in header.leaves:
        if has_terms(element.tag) and element.vr in TEXTS and header.open_runs(element.value, element.end):
            readings = header.readings(element.value, element.end)
            places = places_apart([value for value, _ in readings])
            known = [reading for reading in readings if is_term(element.tag, reading[0], places)]
            others = [value for value, _ in readings if not is_term(element.tag, value, places)]
            if known and all(any(is_made_of(element.tag, value, other) for value, _ in known) for other in others):
                header.keep_readings(known, KNOWN)
