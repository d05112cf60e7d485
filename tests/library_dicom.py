"""tests/library_dicom.py FOLDER: does `mend` of jls_salvage.pydicom_mending give the file of which copies were made? FOLDER has examples.

It is a file of three frames that pydicom writes here, and the example of docs/GUIDE.md with the sum that stands there. What jls-dicom
refuses raises what the function promises. Each call takes its files away, and changes no copy. JLS_DICOM, JLS_SALVAGE and JLS_SPLICE name
the programs. It prints each difference.
"""
from __future__ import annotations

import hashlib
import os
import sys
import tempfile
from pathlib import Path
from typing import Any, Callable, Optional

import numpy
import pydicom
from pydicom.encaps import encapsulate

import jls_salvage
from jls_salvage import pydicom_decoder, pydicom_handler, pydicom_mending

SUM = "4d4c93c70f26b06e41f8a046f5900162b8abfdd9954301437fb380038af4b9a0"
differing: list[str] = []


def differ(what: str, found: object, wanted: object) -> None:
    if found != wanted:
        differing.append(what)
        print(f"{what}: {found!r:.300}, and {wanted!r:.300} is wanted")


def raised(call: Callable[[], object]) -> Optional[type]:
    try:
        call()
    except Exception as why:  # any: its type is what is looked at
        return type(why)
    return None


class Files:
    """A file of three frames, and copies of it that are damaged."""

    def __init__(self, folder: str, example: str) -> None:
        self.folder = folder
        self.samples = numpy.random.default_rng(5).integers(0, 40, (3, 24, 30), dtype=numpy.uint16) + numpy.arange(30, dtype=numpy.uint16)
        self.frames = [jls_salvage.write(frame, 8) for frame in self.samples]
        dataset = pydicom.dcmread(example)
        dataset.Rows, dataset.Columns, dataset.NumberOfFrames, dataset.PatientName = 24, 30, 3, "TRUE^NAME"
        dataset.PixelData = encapsulate(self.frames)
        self.true = os.path.join(folder, "true.dcm")
        dataset.save_as(self.true)
        self.bytes = Path(self.true).read_bytes()

    def copy(self, name: str, *places: tuple[int, int]) -> str:
        """A copy with zeros at places, each by its frame and from where on."""
        data, path = bytearray(self.bytes), os.path.join(self.folder, name)
        for frame, offset in places:
            at = self.bytes.index(self.frames[frame]) + offset
            data[at : at + 9] = bytes(9)
        Path(path).write_bytes(data)
        return path


def whole(files: Files, examples: str) -> None:
    """Copies that are damaged at places of their own: the file comes back to the byte, and its samples are those that were written."""
    first, second = files.copy("first.dcm", (0, 100), (1, 300)), files.copy("second.dcm", (0, 240), (2, 150))
    before = Path(first).read_bytes()
    mended = pydicom_mending.mend([first, Path(second)], tries=4096, max_sample=255)
    differ("the true file", mended.file == files.bytes, True)
    told = [(it.number, it.kind, it.settled, it.missing, it.disputed) for it in mended.frames]
    differ("frames", told, [(at, "whole", 24, 0, 0) for at in range(3)])
    differ("samples above the most that is given", pydicom_mending.mend([first, second], max_sample=0).is_whole, False)
    differ("a promise", mended.frames[0].words.startswith("promise picture if the true file "), True)
    differ("what is undecided", (list(mended.undecided), mended.is_whole), ([], True))
    if pydicom.__version__.startswith("2."):
        pydicom.config.pixel_data_handlers = [pydicom_handler]
    else:
        pydicom_decoder.register()
    differ("samples", (mended.dataset().pixel_array == files.samples).all(), True)
    differ("a copy", Path(first).read_bytes() == before, True)
    by_sum = pydicom_mending.mend([first, second], sha256=hashlib.sha256(files.bytes).hexdigest().upper())
    differ("a checksum", (by_sum.file == files.bytes, "which matched" in by_sum.printed), (True, True))
    by_name = {name: os.environ[name] for name in ("JLS_DICOM", "JLS_SALVAGE", "JLS_SPLICE")}
    os.environ.update({name: os.path.relpath(path) for name, path in by_name.items()})
    differ("programs by relative names", pydicom_mending.mend([os.path.relpath(first), os.path.relpath(second)]).file == files.bytes, True)
    os.environ.update(by_name)
    example = pydicom_mending.mend([os.path.join(examples, name) for name in ("first.dcm", "second.dcm")])
    differ("the example", hashlib.sha256(example.file or b"").hexdigest(), SUM)


def partly(files: Files) -> None:
    """Copies that lost the same bytes of a frame: no file, and what came back of each frame."""
    lost = [files.copy(f"lost{at}.dcm", (1, 200), (at, 100 + 90 * at)) for at in (0, 2)]
    mended = pydicom_mending.mend(lost)
    differ("no file", (mended.file, mended.is_whole), (None, False))
    differ("no data set", raised(mended.dataset), jls_salvage.NotMendable)
    differ("kinds", [it.kind == "whole" for it in mended.frames], [True, False, True])
    for at in (0, 2):
        picture = mended.frames[at].picture
        differ(f"samples of frame {at}", picture is not None and (picture.array() == files.samples[at]).all(), True)
    damaged = mended.frames[1].picture
    differ("lines of the damaged one", damaged is not None and damaged.info.settled, mended.frames[1].settled)
    path = os.path.join(files.folder, "other.dcm")
    Path(path).write_bytes(files.bytes.replace(b"TRUE^NAME", b"TRUE^FAME"))
    undecided = pydicom_mending.mend([files.true, path])
    differ("what nothing decides", ["(0010,0010)" in line for line in undecided.undecided], [True])
    differ("no file where nothing decides", (undecided.file, [it.kind for it in undecided.frames]), (None, ["whole"] * 3))
    differ("a header that decides", pydicom_mending.mend([path, files.true], header=1).file == files.bytes, True)
    one = pydicom_mending.mend([files.true])
    differ("one copy", (one.file, one.frames[0].kind), (None, "whole"))
    differ("one copy whose header is taken", pydicom_mending.mend([files.true], header=0).file == files.bytes, True)


def refused(files: Files, examples: str) -> None:
    twice: Any = files.true
    number: Any = 0.5
    true = [files.true, files.true]
    dataset = pydicom.dcmread(files.true)
    dataset.SOPInstanceUID = dataset.file_meta.MediaStorageSOPInstanceUID = pydicom.uid.UID("2.25.77")
    another = os.path.join(files.folder, "another.dcm")
    dataset.save_as(another)
    calls: dict[str, tuple[Callable[[], object], type]] = {
        "two instances": (lambda: pydicom_mending.mend([files.true, another]), jls_salvage.NotMendable),
        "no DICOM file": (lambda: pydicom_mending.mend([os.path.join(examples, "first.jls")] * 2), jls_salvage.NotMendable),
        "a file that isn't there": (lambda: pydicom_mending.mend([files.true, "none"]), OSError),
        "a name": (lambda: pydicom_mending.mend(twice), TypeError),
        "no copy": (lambda: pydicom_mending.mend([]), ValueError),
        "a header of no copy": (lambda: pydicom_mending.mend(true, header=2), ValueError),
        "a short sum": (lambda: pydicom_mending.mend(true, sha256="77"), ValueError),
        "a large sample": (lambda: pydicom_mending.mend(true, max_sample=65536), ValueError),
        "no tries": (lambda: pydicom_mending.mend(true, tries=0), ValueError),
        "half a sample": (lambda: pydicom_mending.mend(true, max_sample=number), TypeError),
        "no time": (lambda: pydicom_mending.mend(true, timeout=0.001), TimeoutError),
    }
    for what, (call, wanted) in calls.items():
        differ(what, raised(call), wanted)
    same = pydicom_mending.mend([files.true, another], same=True, header=0)
    differ("two instances that are the same", same.file == files.bytes, True)
    own = os.environ["JLS_DICOM"]
    os.environ["JLS_DICOM"] = os.path.join(files.folder, "none")
    differ("no command", raised(lambda: pydicom_mending.mend(true)), jls_salvage.MissingProgram)
    os.environ["JLS_DICOM"] = stand_in = os.path.join(files.folder, "stand-in")
    ends = {3: jls_salvage.NotMendable, 4: OSError, 5: MemoryError, 77: jls_salvage.Error, 127: jls_salvage.MissingProgram}
    for status, wanted in ends.items():
        Path(stand_in).write_text(f"#!/bin/sh\necho jls-dicom: in $TMPDIR >&2; exit {status}\n")
        os.chmod(stand_in, 0o755)
        try:
            pydicom_mending.mend(true)
        except Exception as why:  # any: its type is what is looked at
            differ(f"status {status}", type(why), wanted)
            differ(f"status {status}: a folder of its own", f"in {tempfile.gettempdir()}{os.sep}" in str(why), True)
    os.environ["JLS_DICOM"] = own


def main() -> int:
    examples = os.path.abspath(sys.argv[1])
    with tempfile.TemporaryDirectory() as folder, tempfile.TemporaryDirectory() as place:
        files = Files(folder, os.path.join(examples, "first.dcm"))
        tempfile.tempdir = place
        whole(files, examples)
        partly(files)
        refused(files, examples)
        differ("files that are left behind", os.listdir(place), [])
        tempfile.tempdir = None
    return 1 if differing else 0


if __name__ == "__main__":
    sys.exit(main())
