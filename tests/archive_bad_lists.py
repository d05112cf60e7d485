"""Checks of tests/commands_archive on `--bad`: lists of bad places of trees, as folders of lists and as the map of a disk."""
from __future__ import annotations

import os
import random
import re
import shutil
import subprocess
from typing import Dict, Iterator, List, Tuple

import dicom_files
from archive_bad_sectors import SIDE, stream_of
from archive_cases import ARCHIVE, PROGRAMS, get, put
from archive_decisions import rows_of
from jls_tools.archive import lists

Check = Tuple[str, bool]
MAP = b"# Mapfile. Created by GNU ddrescue version 1.26\n0x%08X ? 1\n0x00000000 0x%08X +\n0x%08X 0x%08X -\n0x%08X 0x%08X +\n"


def map_of(begin: int, size: int) -> bytes:
    """A mapfile with one bad place."""
    return MAP % (begin, begin, begin, size, begin + size, 1 << 40)


def changed(data: bytes, at: int, new: bytes) -> bytes:
    return data[:at] + new + data[at + len(new) :]


def run(work: str, *more: str) -> Tuple[Dict[str, Dict[str, str]], str]:
    """The rows of a run with lists of both trees, and what it said."""
    words = [ARCHIVE, "--quiet", "--bad", f"1:{work}/lists a", "--bad", f"2:{work}/lists b", *more, f"{work}/out", f"{work}/a", f"{work}/b"]
    done = subprocess.run(words, env=PROGRAMS, capture_output=True, text=True)
    return rows_of(f"{work}/out.report"), done.stderr


def checks_of_lists(work: str) -> Iterator[Check]:
    """Bytes that a list names as bad in one tree are taken from the other one; what is bad in both is no whole file."""
    work = f"{work}/lists"
    chance = random.Random(5)
    stream = stream_of(work)
    made = dicom_files.File([stream], 8, SIDE, SIDE).bytes
    note = bytes(chance.choice(b"abcdefgh ijk\n") for _ in range(3000))
    name = made.index(b"Doe^Jane")
    # (the true file, what is bad in each tree: where, what stands there)
    files = {
        "deep/note.txt": (note, [(100, b"#" * 90), (1000, chance.randbytes(100))]),
        "one.jls": (stream, [(300, bytes(16)), (600, chance.randbytes(16))]),
        "scan.dcm": (made, [(name, b"E"), (name + 20, b"\1")]),
        "both.txt": (note, [(40, b"\0"), (40, b"\0")]),
        "unlisted.txt": (note, [(40, b"one"), (80, b"two")]),
        "nonsense.txt": (note, [(40, b"one"), (80, b"two")]),
    }
    for path, (true, places) in files.items():
        for tree, (at, new) in zip("ab", places):
            put(f"{work}/{tree}/{path}", changed(true, at, new))
            if path != "unlisted.txt":
                listed = map_of(at, len(new)) if tree == "b" else b"%d %d\n" % (at, len(new))
                put(f"{work}/lists {tree}/{path}" + (".map" if tree == "b" else ""), listed)
    put(f"{work}/lists a/nonsense.txt", b"bad from here on\n")
    rows, said = run(work)
    for path in ("deep/note.txt", "one.jls", "scan.dcm"):
        row = rows[path]
        yield f"lists, {path}: mended ({row}, {said})", (row["result"], row["status"]) == ("mended", "0")
        yield f"lists, {path}: the true file", get(f"{work}/out/{path}") == files[path][0]
    told = [(path, rows[path]["result"], rows[path]["status"]) for path in ("both.txt", "unlisted.txt", "nonsense.txt")]
    wanted = [("both.txt", "bad places", "1"), ("unlisted.txt", "differs", "1"), ("nonsense.txt", "differs", "4")]
    yield f"lists, what they don't mend: {told}", told == wanted
    yield "lists, one that is none is told", "a list can't be used" in rows["nonsense.txt"]["note"]
    before = os.stat(f"{work}/out/one.jls").st_ino
    put(f"{work}/lists a/deep/note.txt", b"100 20\n")
    again, _ = run(work)
    yield "lists, a changed one counts in the next run", again["deep/note.txt"]["result"] == "differs"
    yield "lists, other files are not done anew", os.stat(f"{work}/out/one.jls").st_ino == before


def physical_of(path: str) -> List[Tuple[int, int, int]]:
    """Where filefrag of e2fsprogs says that a file stands: (in the file, on the disk, how many bytes) of each extent."""
    done = subprocess.run(["filefrag", "-v", "-b1", "-s", path], capture_output=True, text=True)
    found = re.findall(r"^ *\d+: +(\d+)\.\. *\d+: +(\d+)\.\. *\d+: +(\d+):", done.stdout, re.M) if done.returncode == 0 else []
    return [(int(first), int(second), int(third)) for first, second, third in found]


def checks_of_maps(work: str) -> Iterator[Check]:
    """The map of a disk is of the files that stand where it is bad, as filefrag says too."""
    work = f"{work}/maps"
    path = put(f"{work}/file", random.Random(3).randbytes(20000))
    os.sync()
    extents = physical_of(path) if shutil.which("filefrag") else []
    if not extents:
        print("left out: maps of disks, as filefrag says nothing of this file system, or is not there")
        return
    logical, physical, _ = extents[0]
    for begin, word in ((0, ""), (1 << 20, f"@{1 << 20}")):
        put(f"{work}/disk.map", map_of(begin + physical + 1024, 512))
        source = lists.source_of(f"{work}/disk.map{word}")
        found = source.places("file", path)
        yield f"map of a disk, {begin}: {found}", found == [(logical + 1024, logical + 1536)]
    yield "map of a disk: another place of it", lists.source_of(f"{work}/disk.map").places("file", path) == []


CHECKS = (checks_of_lists, checks_of_maps)
