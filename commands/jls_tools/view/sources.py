"""What jls-view draws: the partial picture that a file is, that a copy gives, or that a frame of a DICOM file gives."""
from __future__ import annotations

import os
import re
from collections.abc import Sequence

from jls_tools import partial_picture
from jls_tools.dicom import info
from jls_tools.dicom.read.elements import begins_as_dicom
from jls_tools.dicom.read.tags import SIGN
from jls_tools.dicom.result import MendOptions
from jls_tools.file_names import printable
from jls_tools.frames.mending import FrameMender
from jls_tools.partial_picture import PartialPicture
from jls_tools.programs import Programs
from jls_tools.view.splice import Splice

PARTIAL = b"JLSP"  # a partial picture begins so


class NoPicture(Exception):
    """There is nothing to draw; the text is for the person, and `status` for the shell."""

    def __init__(self, text: str, status: int = 3) -> None:
        super().__init__(text)
        self.status = status


def is_dicom(path: str) -> bool:
    try:
        return begins_as_dicom(path)
    except OSError:
        return False


def given_by(name: str, folder: str, shown: str) -> PartialPicture:
    """The partial picture that a copy gives. The copy has this name in the folder."""
    joined = Programs().join("joined", [name], folder)
    if not os.path.exists(os.path.join(folder, "joined")):
        raise NoPicture(joined.faults.strip().replace(name, shown) or f"{shown}: it gives no picture", joined.status)
    return partial_picture.read(os.path.join(folder, "joined"))


def read(path: str, frame: int, folder: str) -> tuple[PartialPicture, bool]:
    """(the partial picture, whether its samples are signed). What isn't complete stands in the folder."""
    shown = printable(path)
    with open(path, "rb") as file:
        begin = file.read(4)
    if begin == PARTIAL:
        try:
            return partial_picture.read(path), False
        except partial_picture.NotAPartialPicture as fault:
            raise NoPicture(f"{shown}: {fault}") from fault
    is_signed, shown = put(path, frame, folder, "copy")
    return given_by("copy", folder, shown), is_signed


def put(path: str, frame: int, folder: str, name: str) -> tuple[bool, str]:
    """Puts a copy, or a frame of a DICOM file, into the folder. Answers whether the header of one says that samples are signed, and how the
    copy is named."""
    shown = printable(path)
    if not (is_dicom(path) or path.lower().endswith(".dcm")):
        os.symlink(os.path.abspath(path), os.path.join(folder, name))
        return False, shown
    file = info.OneFile(path)
    refusal = info.refusal_of(shown, file)
    if refusal:
        raise NoPicture(refusal)
    if frame >= len(file.frames):
        raise NoPicture(f"{shown}: it has {len(file.frames)} frames, and --frame counts from 0", 2)
    stream = file.stream(FrameMender(Programs(), folder, MendOptions()), frame)
    with open(os.path.join(folder, name), "wb") as out:
        out.write(stream)
    return file.number(SIGN) == 1, f"{shown}: frame {frame}"


def read_splice(paths: Sequence[str], frame: int, folder: str) -> tuple[list[PartialPicture], bool]:
    """(the pictures of several copies and of what came of them, whether samples are signed)."""
    for path in paths:
        with open(path, "rb") as file:
            if file.read(4) == PARTIAL:
                raise NoPicture(f"{printable(path)} is a partial picture, which is drawn alone: jls-salvage join joins several")
    names = [f"copy-{number}" for number in range(len(paths))]
    put_in = [put(path, frame, folder, name) for path, name in zip(paths, names)]
    splice = Splice(names, folder)
    pictures = list(splice.panels())
    if not pictures:
        faults = splice.faults or "jls-splice: it gives no picture"
        raise NoPicture(re.sub(r"copy-(\d+)", lambda found: put_in[int(found[1])][1], faults), splice.status)
    return pictures, any(is_signed for is_signed, _ in put_in)
