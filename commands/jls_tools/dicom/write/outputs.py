"""What stands beside OUT: the folder of frames that came back, and the log of what was decided. A second run makes its own anew.

A file in the folder lists what jls-dicom made, as sha256sum does, and the log begins with words of its own. What is not so, or has changed
since, is the user's, and is never replaced.
"""
from __future__ import annotations

import hashlib
import os
import re
from typing import Optional

FRAMES = ".frames"  # of the name of the folder, behind that of OUT
LIST = "made-by-jls-dicom.sha256"
LINE = re.compile(r"([0-9a-f]{64})  (frame-\d{4,}\.jlsp?)\n")
LOG_BEGINS = "jls-dicom mend: what was decided\n"


def why_kept(out: str) -> Optional[str]:
    """What stands in the way of a run that writes OUT; or nothing."""
    frames, log = f"{out}{FRAMES}", f"{out}.log"
    if os.path.lexists(out):
        return f"{out}: it is there already"
    if os.path.lexists(frames) and not is_own_folder(frames):
        return f"{frames}: it is there already, and is not as jls-dicom made it"
    if os.path.lexists(log) and not is_own_log(log):
        return f"{log}: it is there already, and jls-dicom did not make it"
    return None


def sum_of(path: str) -> str:
    with open(path, "rb") as file:
        return hashlib.sha256(file.read()).hexdigest()


def is_own_folder(folder: str) -> bool:
    """Whether each file of a folder is as jls-dicom made it."""
    name = os.path.join(folder, LIST)
    if os.path.islink(folder) or not os.path.isdir(folder) or not is_file(name):
        return False
    with open(name, encoding="ascii", errors="replace") as file:
        listed = {found.group(2): found.group(1) for found in map(LINE.fullmatch, file) if found}
    paths = {each: os.path.join(folder, each) for each in os.listdir(folder) if each != LIST}
    return paths.keys() <= listed.keys() and all(is_file(path) and sum_of(path) == listed[each] for each, path in paths.items())


def is_file(path: str) -> bool:
    return os.path.isfile(path) and not os.path.islink(path)


def is_own_log(path: str) -> bool:
    if not is_file(path):
        return False
    with open(path, "rb") as file:
        return file.read(len(LOG_BEGINS)) == LOG_BEGINS.encode("ascii")


def put_frames_folder(made: str, place: str, folder: str) -> None:
    """Puts a folder of frames in its place, instead of one of an earlier run. `folder` is for temporary files in the same file system."""
    lines = [f"{sum_of(os.path.join(made, name))}  {name}\n" for name in sorted(os.listdir(made))]
    with open(os.path.join(made, LIST), "x", encoding="ascii") as file:
        file.writelines(lines)
    take_away(place, folder)
    os.rename(made, place)


def take_away(place: str, folder: str) -> None:
    """Moves the frames of an earlier run to the temporary files."""
    if os.path.lexists(place) and is_own_folder(place):
        os.rename(place, os.path.join(folder, f"earlier{FRAMES}"))


def put_log(out: str, lines: list[str], mask: int) -> None:
    """Writes the log of a run whole, instead of one of an earlier run."""
    part = f"{out}.log.part-{os.getpid()}"
    try:
        with open(part, "x", encoding="utf-8", errors="surrogateescape") as file:
            file.write(LOG_BEGINS)
            file.writelines(f"{line}\n" for line in lines)
            file.flush()
            os.fsync(file.fileno())
        os.chmod(part, 0o666 & ~mask)
        os.replace(part, f"{out}.log")
    except OSError as fault:
        raise OSError(fault.errno, fault.strerror, f"{out}.log") from fault
    finally:
        if os.path.lexists(part):
            os.unlink(part)
