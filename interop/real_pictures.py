"""The pictures of all DICOM files in Debian's packages of pydicom, nibabel and GDCM, for runs that otherwise make pictures up.

Those in the examples of Debian's libgdcm3.0 and in gzip are among them. `all_real` gives each at Bits Allocated and at Bits Stored, equal
ones once, and the JPEG-LS frames that stand in a file. CharLS codes the others, colour by line. A run that takes the word `real` asks
`words_and_real` for them. Where the packages are unpacked and not installed, DEBIAN_ROOT names the folder.

It needs Debian's libcharls2, libgdcm-tools, dcmtk, python3-pydicom, python3-nibabel and python3-numpy, but only where it is asked.
"""
from __future__ import annotations

import array
import gzip
import hashlib
import os
import random
import shutil
import subprocess
import sys
import tempfile
import warnings
from typing import NamedTuple

from charls_coder import Picture

try:
    import numpy
    import pydicom
    from pydicom.encaps import generate_pixel_data_frame
except ImportError:  # `all_real` says so
    pydicom = None

ROOT = os.environ.get("DEBIAN_ROOT", "")
PACKAGES = f"{ROOT}/usr/lib/python3/dist-packages"
FOLDERS = [f"{PACKAGES}/pydicom/data", f"{PACKAGES}/nibabel", f"{ROOT}/usr/share/doc/libgdcm3.0/examples"]
JPEG_LS = ("1.2.840.10008.1.2.4.80", "1.2.840.10008.1.2.4.81")


class Refused(Exception):
    """Why a reader gives no samples."""


# DICOM files -----------------------------------------------------------------------------------------


def run(*words: str) -> bool:
    return subprocess.run(words, capture_output=True).returncode == 0


def unpacked(path: str, folder: str) -> str:
    if not path.endswith(".gz"):
        return path
    name = os.path.join(folder, os.path.basename(path)[:-3])
    with gzip.open(path) as packed, open(name, "wb") as out:
        shutil.copyfileobj(packed, out)
    return name


def plain_of(path: str, name: str) -> bool:
    """Writes a file without compression."""
    return run("gdcmconv", "--raw", path, name) or run("dcmconv", "+te", path, name)


def all_files():
    """The files of the packages, those with equal bytes once."""
    found = {}
    for top in FOLDERS:
        for folder, _, names in sorted(os.walk(top)):
            for name in sorted(names):
                with open(os.path.join(folder, name), "rb") as file:
                    found.setdefault(hashlib.sha256(file.read()).hexdigest(), os.path.join(folder, name))
    return list(found.values())


def with_pixels(path, folder):
    """The DICOM file at a path, unpacked, or None if it is none with pixels."""
    try:
        source = unpacked(path, folder)
        data = pydicom.dcmread(source, force=True, specific_tags=["PixelData", "Rows", "BitsStored"])
        return source if "PixelData" in data and "Rows" in data else None
    except Exception:  # no DICOM file
        return None


def frames_in(path: str) -> list[bytes]:
    data = pydicom.dcmread(path, force=True)
    return list(generate_pixel_data_frame(data.PixelData, int(data.get("NumberOfFrames", 1) or 1)))


def pictures_of(path, plain):
    """The frames of a DICOM file, each once, by component, as numbers of their bits."""
    for name in (path, plain):
        try:
            data = pydicom.dcmread(name, force=True)
            shape = (-1, data.Rows, data.Columns, data.SamplesPerPixel)
            frames = numpy.moveaxis(data.pixel_array.reshape(shape), -1, 1).astype(numpy.int64)
        except Exception:  # pydicom raises whatever comes
            continue
        seen = {frame.tobytes(): frame for frame in frames}
        return list(seen.values())
    raise Refused("no program reads its samples")


def depths_of(path):
    """Bits Allocated and Bits Stored as CharLS takes them: 2 at least. What has samples of one bit, pydicom gives as bytes."""
    data = pydicom.dcmread(path, force=True, stop_before_pixels=True)
    allocated, stored = max(8, data.BitsAllocated), max(2, data.BitsStored)
    if allocated > 16:
        raise Refused(f"samples of {allocated} bits")
    return allocated, stored


def of_bits(picture, bits):
    return (picture & (2**bits - 1)).astype(numpy.uint16)


def jpeg_ls_in(path):
    """The JPEG-LS frames that stand in a file."""
    data = pydicom.dcmread(path, force=True, stop_before_pixels=True)
    return frames_in(path) if data.file_meta.get("TransferSyntaxUID") in JPEG_LS else []


# Pictures for the runs -------------------------------------------------------------------------------


class Real(NamedTuple):
    """`name` tells the DICOM file, the frame and the bits. `stored` are the bits that samples use. `there` is the frame of the file, if it
    is that one."""

    name: str
    stored: int
    picture: Picture
    there: bytes | None

    def file(self, charls):
        """The JPEG-LS file."""
        return self.there or charls.write(self.picture)

    def limit(self):
        """The greatest sample that the bits stored have, or None where the file has no more bits."""
        return 2**self.stored - 1 if self.stored < self.picture.params[0] else None


def coded(planes, bits):
    """A picture as the runs take it."""
    count, height, width = planes.shape
    samples = array.array("H", numpy.moveaxis(of_bits(planes, bits), 0, 1).tobytes())
    return Picture((bits, 0, 0, 0, 0, 0), width, height, count, samples)


def real_in(path):
    """The pictures of a file at its depths, and those that stand there as JPEG-LS; none of other files."""
    with tempfile.TemporaryDirectory() as folder:
        source, plain = with_pixels(path, folder), f"{folder}/plain"
        if source is None:
            return []
        try:
            allocated, stored = depths_of(source)
            plain_of(source, plain)
            pictures, there = pictures_of(source, plain), jpeg_ls_in(source)
        except Refused:
            return []
        found, name = [], os.path.basename(path)
        for number, picture in enumerate(pictures):
            where = f"{name}, frame {number}" if len(pictures) > 1 else name
            found += [Real(f"{where}, {bits} bits", stored, coded(picture, bits), None) for bits in sorted({allocated, stored})]
        paired = zip(pictures, there) if len(pictures) == len(there) else []
        return found + [Real(f"{name}, as it stands", stored, coded(picture, allocated), frame) for picture, frame in paired]


def all_real() -> list[Real]:
    """The pictures at both depths, equal ones once, and the frames that stand in a file."""
    if pydicom is None:
        sys.exit("the Debian packages python3-pydicom, python3-nibabel and python3-numpy are not there")
    warnings.simplefilter("ignore")
    found = {}
    for path in all_files():
        for real in real_in(path):
            found.setdefault((real.picture._replace(samples=real.picture.samples.tobytes()), real.there), real)
    return list(found.values())


def part_of(chance: random.Random, picture: Picture, width: int, rows: int) -> Picture:
    """A part of a picture, of at most so many columns and rows."""
    width, rows = min(width, picture.width), min(rows, picture.rows)
    x, y = chance.randint(0, picture.width - width), chance.randint(0, picture.rows - rows)
    samples = array.array("H")
    for line in range(y * picture.components, (y + rows) * picture.components):
        samples.extend(picture.samples[line * picture.width + x : line * picture.width + x + width])
    return picture._replace(width=width, rows=rows, samples=samples)


def words_and_real(words):
    """The words without `real`, and the pictures if it was among them, otherwise none."""
    return [word for word in words if word != "real"], all_real() if "real" in words else []
