"""Whether a file that came of damaged copies is the true one, for interop/dicom and interop/dicom_heavy."""
from __future__ import annotations

import os
import re
import subprocess

import pydicom

FRAME = re.compile(r"frame (\d+) (\w+), ", re.M)


def samples(path: str, folder: str) -> list[bytes]:
    """What DCMTK and GDCM decode of a file."""
    found = []
    for words in (["dcmdjpls", path, f"{folder}/raw"], ["gdcmconv", "--raw", path, f"{folder}/raw"]):
        if subprocess.run(words, capture_output=True).returncode == 0:
            found.append(pydicom.dcmread(f"{folder}/raw").PixelData)
            os.remove(f"{folder}/raw")
    return found


def is_true(out: str, source: str, folder: str) -> bool:
    """Whether a file has the samples and the elements of another."""
    left, right = pydicom.dcmread(out), pydicom.dcmread(source)
    for each in (left, right):
        del each.PixelData
    decoded = samples(out, folder)
    return bool(left == right and left.file_meta == right.file_meta and decoded and decoded == samples(source, folder))


def has_false_frame(source: str, out: str, printed: str) -> bool:
    """Whether a frame that is told as whole is not the one that it was."""
    if not os.path.isdir(f"{out}.frames"):
        return False
    with open(source, "rb") as file:
        true = file.read()
    whole = [int(number) for number, kind in FRAME.findall(printed) if kind == "whole"]
    for number in whole:
        with open(f"{out}.frames/frame-{number:04}.jls", "rb") as file:
            if file.read() not in true:
                return True
    return False


def verdict_of(status: int, printed: str, is_broken: bool, file: tuple[str, bytes], out: str, folder: str) -> str:
    """What a run of `mend` came to. `file` is the undamaged file: its path and its bytes."""
    source, true = file
    if is_broken or status not in (0, 1, 3):
        return "FALSE"
    if status == 0:
        with open(out, "rb") as made:
            if made.read() == true:
                return "same"
        return "true" if is_true(out, source, folder) else "FALSE"
    if os.path.exists(out) or has_false_frame(source, out, printed):
        return "FALSE"
    return "frames" if os.path.isdir(f"{out}.frames") else "refused"
