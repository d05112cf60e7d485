"""DICOM files of JPEG-LS frames for interop/dicom, made of test data of Debian's packages: of pydicom, nibabel and GDCM.

What these packages have in another coding is coded by DCMTK (dcmcjpls) or GDCM (gdcmconv). Files of several frames are made of one
picture: its tiles are the frames, as in a mosaic. Those in colour are coded by sample, by line and in planes, if they alone are wanted.
DEBIAN_ROOT is as in interop/real_pictures.py.
"""
from __future__ import annotations

import glob
import itertools
import os
import shutil

import numpy
import pydicom
from pydicom.uid import ExplicitVRLittleEndian
from real_pictures import JPEG_LS, PACKAGES, ROOT, plain_of, run, unpacked

SINGLE = [
    f"{PACKAGES}/pydicom/data/test_files/{name}.dcm"
    for name in (
        "MR_small_jpeg_ls_lossless CT_small MR_small MR_small_padded MR_small_jp2klossless 693_J2KI JPEG2000 "
        "J2K_pixelrep_mismatch SC_rgb_rle SC_rgb_rle_16bit SC_rgb_rle_2frame SC_rgb_rle_16bit_2frame SC_rgb_small_odd SC_rgb_jpeg_gdcm "
        "SC_rgb_jpeg_dcmtk GDCMJ2K_TextGBR image_dfl MR_small_bigendian MR_small_implicit ExplVR_BigEnd"
    ).split()
]
SINGLE += [f"{PACKAGES}/nibabel/nicom/tests/data/{name}" for name in ("0.dcm", "1.dcm", "decimal_rescale.dcm")]
SINGLE += [f"{PACKAGES}/nibabel/nicom/tests/data/{name}.dcm.gz" for name in ("siemens_dwi_0", "siemens_dwi_1000", "philips_mprage")]
SINGLE += [f"{ROOT}/usr/share/doc/libgdcm3.0/examples/00191113.dcm"]
# (a file, columns and rows of a tile, frames)
TILED = [("CT_small", 32, 16), ("CT_small", 16, 60), ("MR_small", 16, 15), ("MR_small", 32, 4), ("SC_rgb_small_odd", 3, 1)]
TILED += [("siemens_dwi_0", 128, 12), ("siemens_dwi_1000", 64, 60), ("philips_mprage", 64, 20), ("J2K_pixelrep_mismatch", 64, 30)]
COLOUR = "SC_rgb_rle SC_rgb_rle_16bit SC_rgb_rle_2frame SC_rgb_rle_16bit_2frame SC_rgb_jpeg_dcmd GDCMJ2K_TextGBR ExplVR_BigEnd".split()
# Of colour files the components of a frame are three tiles
TILED_IN_COLOUR = [("CT_small", 32, 5), ("MR_small", 32, 1), ("J2K_pixelrep_mismatch", 64, 9), ("693_J2KI", 128, 3)]
INTERLEAVES = ("sample", "line", "none")
LARGEST = 1 << 20  # bytes of a file that is taken, so that the run stays short


def coded(plain: str, name: str) -> bool:
    """Codes a file as JPEG-LS lossless; answers whether a DICOM program could."""
    return coded_by("line", plain, name) or run("gdcmconv", "--jpegls", plain, name) and is_coded(name)


def coded_by(interleave: str, plain: str, name: str) -> bool:
    return run("dcmcjpls", f"--interleave-{interleave}", plain, name) and is_coded(name)


def is_coded(name: str) -> bool:
    return bool(pydicom.dcmread(name, stop_before_pixels=True).file_meta.TransferSyntaxUID == JPEG_LS[0])


def tiled(path: str, name: str, size: int, frames: int, components: int = 1) -> bool:
    """Writes a file whose frames are tiles of one picture, or have so many of them as components, not compressed."""
    data = pydicom.dcmread(path)
    samples = data.pixel_array
    if samples.ndim != 2:
        return False
    ups, lefts = (range(0, length - size + 1, size) for length in samples.shape)
    tiles = [samples[y : y + size, x : x + size] for y in ups for x in lefts]
    tiles = sorted(tiles, key=lambda tile: -int(tile.astype(numpy.int64).std()))[: frames * components]
    if components > 1:
        tiles = [numpy.stack(tiles[at : at + components], axis=-1) for at in range(0, len(tiles) - components + 1, components)]
        data.SamplesPerPixel, data.PhotometricInterpretation, data.PlanarConfiguration = components, "RGB", 0
    data.Rows = data.Columns = size
    data.NumberOfFrames = len(tiles)
    data.PixelData = numpy.stack(tiles).astype(samples.dtype).tobytes()
    data["PixelData"].VR = "OW"
    data.file_meta.TransferSyntaxUID = ExplicitVRLittleEndian
    data.is_little_endian, data.is_implicit_VR = True, False
    data.save_as(name)
    return True


def make_in_colour(folder: str) -> list[str]:
    """The paths of JPEG-LS files in colour, made in this folder: all by sample, then by line, then in planes."""
    plains = []
    for base in COLOUR:
        plains.append(f"{folder}/{base}.raw")
        plain_of(f"{PACKAGES}/pydicom/data/test_files/{base}.dcm", plains[-1])
    for base, size, frames in TILED_IN_COLOUR:
        plain = f"{folder}/{base}.raw"
        plain_of(f"{PACKAGES}/pydicom/data/test_files/{base}.dcm", plain)
        plains.append(f"{folder}/{base}-{size}.raw")
        tiled(plain, plains[-1], size, frames, 3)
    names: list[str] = []
    for interleave, plain in itertools.product(INTERLEAVES, filter(os.path.exists, plains)):
        name = f"{folder}/{len(names):02}-{os.path.basename(plain)[:-4]}-{interleave}.dcm"
        if coded_by(interleave, plain, name):
            names.append(name)
    for name in glob.glob(f"{folder}/*.raw*"):
        os.remove(name)
    return names


def make(folder: str) -> list[str]:
    """The paths of JPEG-LS files, made in this folder."""
    found: list[str] = []
    for path in SINGLE:
        if not os.path.exists(path):
            continue
        base = os.path.basename(path).split(".")[0]
        plain, name = f"{folder}/{base}.raw", f"{folder}/{len(found):02}-{base}.dcm"
        if base.endswith("jpeg_ls_lossless"):
            shutil.copyfile(path, name)
        elif not (plain_of(unpacked(path, folder), plain) and coded(plain, name)):
            continue
        if os.path.getsize(name) <= LARGEST:
            found.append(name)
    for base, size, frames in TILED:
        plain = f"{folder}/{base}.raw"
        name = f"{folder}/{len(found):02}-{base}-{size}.dcm"
        if os.path.exists(plain) and tiled(plain, f"{plain}.tiles", size, frames) and coded(f"{plain}.tiles", name):
            if os.path.getsize(name) <= LARGEST:
                found.append(name)
    for name in glob.glob(f"{folder}/*.raw*"):
        os.remove(name)
    return found
