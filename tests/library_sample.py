"""tests/library_sample.py FILE..: does the Python package read components that are interleaved by sample?

FILE are the files that tests/library_c/profiles.c writes, of samples that `sample` tells. They are read unless `strict` is asked for. Where
numpy, pydicom 2 and GDCM's gdcmconv are there, colour that GDCM codes is read too, as a frame of a data set, whole and damaged. It prints
each difference.
"""
from __future__ import annotations

import os
import shutil
import subprocess
import sys
import tempfile
from typing import Any, Callable, Optional

import jls_salvage
from jls_salvage import Coding, End, Fault, pydicom_decoder, pydicom_handler

differing: list[str] = []
STRICT: dict[str, Any] = {"strict": True}


def optional(name: str) -> Any:
    try:
        return __import__(name)
    except ImportError:
        return None


numpy, pydicom = optional("numpy"), optional("pydicom")


def differ(what: str, found: object, wanted: object) -> None:
    if found != wanted:
        differing.append(what)
        print(f"{what}: {found!r:.300}, and {wanted!r:.300} is wanted")


def raised(call: Callable[[], object]) -> Optional[Exception]:
    try:
        call()
    except Exception as why:  # any: its type is what is looked at
        return why
    return None


def sample(bits: int, component: int, y: int, x: int) -> int:
    """As profiles.c has it."""
    eight = (x * x * 29 + y * 47 + component * 13 + x * y * component) % 256
    return eight if bits == 8 else 16 * eight + (x + y + component) % 16


def is_refused(what: str, call: Callable[[], object], offset: int) -> None:
    """Whether a call raises `Unsupported`, as the scan at this offset is interleaved by sample."""
    why = raised(call)
    told = (why.coding, why.offset) if isinstance(why, jls_salvage.Unsupported) else why
    differ(what, told, (Coding.BY_SAMPLE, offset))


def whole(name: str) -> None:
    with open(name, "rb") as file:
        copy = file.read()
    said, picture = jls_salvage.header(copy), jls_salvage.read(copy)
    wanted = [sample(said.precision, k, y, x) for k in range(3) for y in range(said.height) for x in range(said.width)]
    scan = copy.index(b"\xff\xda")
    differ(f"{name}: what the header says", (said.coding, said.fault, said.end_offset), (Coding.BY_SAMPLE, Fault.INTERLEAVE, scan))
    differ(f"{name}: samples", list(picture.samples), wanted)
    differ(f"{name}: lines", (picture.unsettled(), set(picture.statuses)), ([], {jls_salvage.SETTLED}))
    info = jls_salvage.check(copy)
    differ(f"{name}: check", (info.settled, info.end, info.coding), (3 * said.height, End.EOI, Coding.SUPPORTED))
    differ(f"{name}: as a file", jls_salvage.read_file(name) == picture, True)
    lines = jls_salvage.lines(jls_salvage.partial(copy, 1))
    differ(f"{name}: a partial picture", list(lines.samples), wanted)
    strict = jls_salvage.check(copy, **STRICT)
    differ(f"{name}: a strict check", (strict.missing, strict.end, strict.coding), (3 * said.height, End.HEADER, Coding.BY_SAMPLE))
    is_refused(f"{name}: read strictly", lambda: jls_salvage.read(copy, **STRICT), scan)
    is_refused(f"{name}: as a file, strictly", lambda: jls_salvage.read_file(name, **STRICT), scan)
    is_refused(f"{name}: a strict partial picture", lambda: jls_salvage.partial(copy, 1, **STRICT), scan)
    differ(f"{name}: strict by position", type(raised(lambda: getattr(jls_salvage, "read")(copy, True))), TypeError)
    if numpy is not None:
        shape = (said.height, said.width, 3)
        pixels = numpy.moveaxis(numpy.array(wanted).reshape(3, said.height, said.width), 0, -1)
        differ(f"{name}: pixels", (picture.array().shape, (picture.array() == pixels).all()), (shape, True))
    rows = 0
    for size in range(scan + 14, len(copy)):
        cut = jls_salvage.read(copy[:size])
        settled = [y for y in range(said.height) if cut.statuses[y] == jls_salvage.SETTLED]
        together = all(list(cut.statuses[k * said.height : (k + 1) * said.height]) == list(cut.statuses[: said.height]) for k in (1, 2))
        at = [(k * said.height + y) * said.width + x for k in range(3) for y in settled for x in range(said.width)]
        right = together and all(cut.samples[number] == wanted[number] for number in at) and len(settled) >= rows
        differ(f"{name}, of which {size} bytes are left", right, True)
        rows = len(settled)


def one_component() -> None:
    """By sample a scan has two components or more."""
    grey = bytearray(jls_salvage.write([1, 2, 3, 4], 8, 2, 2))
    scan = grey.index(b"\xff\xda")
    grey[scan + 8] = 2
    is_refused("one component by sample", lambda: jls_salvage.read(grey), scan)


def data_set(path: str, pixels: Any) -> None:
    """A file of colour that isn't compressed."""
    from pydicom.dataset import Dataset, FileMetaDataset
    from pydicom.uid import UID, ExplicitVRLittleEndian

    found = Dataset()
    found.file_meta = FileMetaDataset()
    found.file_meta.TransferSyntaxUID = ExplicitVRLittleEndian
    found.file_meta.MediaStorageSOPClassUID = found.SOPClassUID = UID("1.2.840.10008.5.1.4.1.1.7")
    found.file_meta.MediaStorageSOPInstanceUID = found.SOPInstanceUID = UID("1.2.3.4")
    found.PatientName, found.PatientID, found.Modality = "A^B", "1", "OT"
    found.StudyInstanceUID, found.SeriesInstanceUID = "1.2.3", "1.2.3.1"
    found.Rows, found.Columns = pixels.shape[:2]
    found.SamplesPerPixel, found.PhotometricInterpretation, found.PlanarConfiguration = 3, "RGB", 0
    found.BitsAllocated, found.BitsStored, found.HighBit, found.PixelRepresentation = 8, 8, 7, 0
    found.PixelData = pixels.tobytes()
    found.is_little_endian, found.is_implicit_VR = True, False
    found.save_as(path, write_like_original=False)


class Runner:
    """What pydicom 3 gives a decoder of a frame."""

    def __init__(self, pixels: Any) -> None:
        self.rows, self.columns, self.samples_per_pixel = pixels.shape
        self.index = 0
        self.options: dict[str, int] = {}

    def set_option(self, name: str, value: int) -> None:
        self.options[name] = value


def of_gdcm(folder: str) -> None:
    """Colour that GDCM codes: pixel by pixel what pydicom wrote."""
    from pydicom.encaps import encapsulate, generate_pixel_data_frame

    chance = numpy.random.default_rng(3)
    smooth = numpy.add.outer(numpy.arange(24), numpy.arange(30))[:, :, None] + numpy.array([0, 7, 40])
    plain, coded = os.path.join(folder, "plain.dcm"), os.path.join(folder, "coded.dcm")
    pydicom.config.pixel_data_handlers = [pydicom_handler]
    pictures = {"noise": chance.integers(0, 256, (24, 30, 3)), "a slope": smooth}
    for name, values in pictures.items():
        pixels = values.astype("u1")
        data_set(plain, pixels)
        subprocess.run(["gdcmconv", "--jpegls", plain, coded], check=True, capture_output=True)
        found = pydicom.dcmread(coded)
        frame = next(generate_pixel_data_frame(found.PixelData, 1))
        differ(f"{name}: GDCM writes by sample", jls_salvage.header(frame).interleave, 2)
        differ(f"{name} as GDCM codes it", (found.pixel_array == pixels).all(), True)
        masked = pydicom_handler.masked_array(found)
        differ(f"{name}, masked", ((masked == pixels).all(), masked.mask.any()), (True, False))
        runner = Runner(pixels)
        differ(f"{name} by the decoder", pydicom_decoder._decode_frame(frame, runner), pixels.tobytes())
        differ(f"{name}: what it sets", runner.options, {"bits_allocated": 8, "planar_configuration": 0})
        # of an even length: a byte more, which fills the item, could be no code that goes on
        found.PixelData = encapsulate([frame[: len(frame) // 4 * 2]])
        why = raised(lambda: found.pixel_array)
        differ(f"half of {name}", type(why), pydicom_handler.DamagedFrame)
        half = pydicom_handler.masked_array(found)
        known = ~half.mask.any(axis=(1, 2))
        differ(f"half of {name}: its rows", 0 < known.sum() < len(pixels) and (half.data[known] == pixels[known]).all(), True)


def main() -> int:
    for name in sys.argv[1:]:
        whole(name)
    one_component()
    if numpy is not None and pydicom is not None and pydicom.__version__.startswith("2.") and shutil.which("gdcmconv"):
        with tempfile.TemporaryDirectory() as folder:
            of_gdcm(folder)
    return 1 if differing else 0


if __name__ == "__main__":
    sys.exit(main())
