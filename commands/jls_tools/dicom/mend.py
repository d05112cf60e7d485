"""Mends a DICOM file of JPEG-LS frames from damaged copies of it: `mend` is what jls-dicom and jls-archive call."""
from __future__ import annotations

import os
import shutil
import tempfile
from collections.abc import Sequence
from dataclasses import replace
from typing import Optional

from jls_tools.dicom.copies.given import Given
from jls_tools.dicom.copies.instance import STRANGE
from jls_tools.dicom.mended_frames import MendedFrames
from jls_tools.dicom.result import FAILED, FrameResult, MendOptions, MendResult, Place, Refused, Unsupported
from jls_tools.dicom.write.outputs import why_kept
from jls_tools.dicom.write.writing import Writing
from jls_tools.frames.mending import FrameMender
from jls_tools.programs import Programs

__all__ = ["FrameResult", "MendOptions", "MendResult", "Place", "mend"]


def mend(paths: Sequence[str], out: str, options: Optional[MendOptions] = None, programs: Optional[Programs] = None) -> MendResult:
    """Writes the file `out` from the copies `paths`, and answers a MendResult. Programs that fail raise a ProgramFailed.

    `out` must not be there. A folder `OUT.frames` of an earlier run is made anew. Nothing is printed. The copies are only read.
    """
    options, programs = options or MendOptions(), programs or Programs()
    result = mended_once(paths, out, options, programs)
    if options.sha256 is None or result.matched or not result.other_codings:
        return result
    for group in result.other_codings:
        other = mended_once(paths, out, replace(options, stands=group[0]), programs)
        if other.matched:
            return other
    return mended_once(paths, out, options, programs)


def mended_once(paths: Sequence[str], out: str, options: MendOptions, programs: Programs) -> MendResult:
    result = MendResult()
    try:
        run(list(paths), out, options, programs, result)
    except Refused as refused:
        result.status, result.refusal, result.is_unsupported = refused.status, str(refused), isinstance(refused, Unsupported)
    except OSError as fault:
        result.status, result.refusal = FAILED, f"{fault.filename or out}: {fault.strerror}"
    return result


def run(paths: list[str], out: str, options: MendOptions, programs: Programs, result: MendResult) -> None:
    """One call of `mend`."""
    kept = why_kept(out)
    if kept is not None:
        raise Refused(kept, FAILED)
    if options.header is not None and options.header not in paths:
        raise Refused(f"--header names {options.header}, which is none of the copies", 2)
    given = Given(paths, options, programs, result)
    folder = made_beside(out)
    try:
        Writing(out, given, frames_of(given, FrameMender(programs, folder, options))).write()
    finally:
        shutil.rmtree(folder, ignore_errors=True)


def made_beside(out: str) -> str:
    """A new hidden folder beside OUT. A fault names the folder that OUT is to stand in."""
    beside = os.path.dirname(os.path.abspath(out))
    try:
        return tempfile.mkdtemp(prefix=".jls-dicom-", dir=beside)
    except OSError as fault:
        fault.filename = beside
        raise


def frames_of(given: Given, mender: FrameMender) -> MendedFrames:
    """The frames of all that may be copies; then again without those that turn out to be none."""
    instances = given.instances
    chosen, is_alone = sorted([*instances.certain, *instances.uncertain, *instances.rests]), len(given.paths) == 1
    while True:
        frames = MendedFrames(given, mender, chosen, is_alone)
        strangers = frames.strangers()
        if not strangers:
            return frames
        given.result.left_out += [(given.paths[at], STRANGE) for at in strangers]
        chosen = [at for at in chosen if at not in strangers]
        is_alone = len(chosen) == 1
