"""Mends copies of a DICOM file whose frames are JPEG-LS Lossless, by a call of the command jls-dicom.

    from jls_salvage import pydicom_mending
    mended = pydicom_mending.mend(["disk.dcm", "tape.dcm"])
    mended.is_whole                 # whether each frame came back and the header is decided
    mended.dataset()                # the data set, by pydicom
    mended.frames[0].picture        # where no file was written: what came back of a frame

jls-dicom is tested, not proved. Each frame is mended by jls-splice.
"""
from __future__ import annotations

import io
import operator
import os
import re
import tempfile
from dataclasses import dataclass, field
from typing import Any, Callable, List, NoReturn, Optional, Sequence, Tuple, Union

from ._program import Ended, called
from ._reading import lines, read
from ._types import Error, MissingProgram, NotMendable, Picture

PROGRAM = "jls-dicom"
OUT = "out.dcm"
FRAME = re.compile(r"^frame (\d+) ([a-z ]+?)(?:, settled (\d+), missing (\d+), disputed (\d+))?(?:[,:] (.*))?$", re.M)
NONE_TAKEN = re.compile(r"^(?:differ|versions?)\b.*\bundecided\b.*$", re.M)
Path = Union[str, "os.PathLike[str]"]


@dataclass(frozen=True)
class MendedFrame:
    """A frame, by its number from 0. `kind` is whole, lines, disputed, missing or not supported, and `words` has what else is told.

    Where no file was written, `picture` is what came back of the frame, if its shape is known.
    """

    number: int
    kind: str
    settled: int
    missing: int
    disputed: int
    words: str
    picture: Optional[Picture] = field(repr=False)


@dataclass(frozen=True)
class MendedFile:
    """What copies of a DICOM file give together. `file` has its bytes, or is None where a frame isn't whole or nothing decides the header.

    `undecided` has the lines of what nothing decides, and `printed` all lines. Both can have names of patients.
    """

    file: Optional[bytes] = field(repr=False)
    frames: Sequence[MendedFrame]
    undecided: Sequence[str]
    printed: str = field(repr=False)

    @property
    def is_whole(self) -> bool:
        """Whether the file was written."""
        return self.file is not None

    def dataset(self) -> Any:
        """The data set of the file, by pydicom. Raises `NotMendable` where there is no file."""
        if self.file is None:
            raise NotMendable("no file came of the copies: `frames` and `undecided` say why")
        import pydicom

        return pydicom.dcmread(io.BytesIO(self.file), force=True)


def _words(
    copies: Sequence[str], header: Optional[int], sha256: Optional[str], max_sample: Optional[int], tries: Optional[int]
) -> List[str]:
    """The options of the command."""
    if sha256 is not None and not re.fullmatch("[0-9a-fA-F]{64}", sha256):
        raise ValueError("a SHA-256 has 64 hex digits")
    if max_sample is not None and not 0 <= operator.index(max_sample) <= 65535:
        raise ValueError(f"max_sample is {max_sample}, and 0 to 65535 is wanted")
    if tries is not None and not 1 <= operator.index(tries) < 2**32:
        raise ValueError(f"tries is {tries}, and 1 to {2**32 - 1} is wanted")
    if header is not None and not 0 <= operator.index(header) < len(copies):
        raise ValueError(f"there is no copy {header}")
    told = {"--header": None if header is None else copies[header], "--sha256": sha256, "--max": max_sample, "--tries": tries}
    return [word for name, value in told.items() if value is not None for word in (name, str(value))]


def _refused(ended: Ended) -> NoReturn:
    """Raises what the status of the command says."""
    said = re.sub("^jls-dicom: ", "", ended.faults.strip())
    if ended.status == 3:
        raise NotMendable(said)
    if ended.status == 4:
        raise OSError(said)
    if ended.status == 5:
        raise MemoryError(said)
    if ended.status == 127:
        raise MissingProgram(said)
    raise Error(f"jls-dicom ended with status {ended.status}: {said}")


def _picture(folder: str, number: int) -> Optional[Picture]:
    """What came back of a frame, of the folder that has the frames."""
    readers: Sequence[Tuple[str, Callable[[bytes], Picture]]] = ((".jls", read), (".jlsp", lines))
    for ending, reader in readers:
        try:
            with open(os.path.join(folder, f"frame-{number:04}{ending}"), "rb") as file:
                return reader(file.read())
        except FileNotFoundError:
            continue
    return None


def _frames(printed: str, folder: str) -> Sequence[MendedFrame]:
    found = []
    for line in FRAME.finditer(printed):
        number, settled, missing, disputed = (int(line[at] or 0) for at in (1, 3, 4, 5))
        found.append(MendedFrame(number, line[2], settled, missing, disputed, line[6] or "", _picture(folder, number)))
    return found


def mend(
    copies: Sequence[Path],
    *,
    header: Optional[int] = None,
    same: bool = False,
    sha256: Optional[str] = None,
    max_sample: Optional[int] = None,
    tries: Optional[int] = None,
    timeout: Optional[float] = None,
) -> MendedFile:
    """Mends damaged copies of one DICOM file, given by their names.

    It calls the command jls-dicom, of which JLS_DICOM can name the path, in a folder of its own that goes again. It changes no copy.
    `header` is the number, from 0, of the copy whose values are taken where nothing decides. `same` says that the copies are of one
    instance, whatever their UIDs say. `sha256` is the checksum of the undamaged file. The others are those of `jls_salvage.mend`.

    Raises `NotMendable` where the copies aren't of one instance or of another coding, OSError, `MissingProgram`, TimeoutError and
    MemoryError.
    """
    if isinstance(copies, (str, bytes, os.PathLike)):
        raise TypeError("a list of names is wanted, and this is one")
    names = [os.path.abspath(os.fsdecode(copy)) for copy in copies]
    if not names:
        raise ValueError("a copy or more are wanted")
    words = ["mend", *_words(names, header, sha256, max_sample, tries), *(["--same"] if same else [])]
    with tempfile.TemporaryDirectory(prefix="jls_salvage-") as folder:
        out = os.path.join(folder, OUT)
        ended = called(PROGRAM, [*words, out, *names], folder, timeout)
        if ended.status not in (0, 1):
            _refused(ended)
        file = None
        if ended.status == 0:
            with open(out, "rb") as made:
                file = made.read()
        frames = _frames(ended.printed, f"{out}.frames")
    return MendedFile(file, frames, NONE_TAKEN.findall(ended.printed), ended.printed)
