"""Checks of tests/commands_archive on equal copies with a bad sector: the lines before it are kept beside OUT."""
from __future__ import annotations

import os
import random
import struct
import subprocess
from typing import Dict, Iterator, List, Tuple

import dicom_files
from archive_cases import ARCHIVE, PROGRAM, PROGRAMS, get, put
from archive_decisions import rows_of
from jls_tools import partial_picture

Check = Tuple[str, bool]
SIDE, SECTOR = 80, 512


def stream_of(work: str) -> bytes:
    """A picture of noise on a slope."""
    chance = random.Random(31)
    text = b"JLSP\2\x08" + struct.pack(">HHB", SIDE, SIDE, 1) + b"\1" + struct.pack(">I", SIDE)
    for line in range(SIDE):
        samples = [line + column + chance.randrange(20) for column in range(SIDE)]
        text += struct.pack(">BHQ", 0, line, 1) + struct.pack(f">{SIDE}H", *samples) + bytes(8)
    put(f"{work}/text", text)
    subprocess.run([PROGRAM, "write", "--as", "jls", f"{work}/file", f"{work}/text"], check=True)
    return get(f"{work}/file")


def lines_in(path: str) -> Dict[int, List[bytes]]:
    readings = partial_picture.read(path).readings if os.path.exists(path) else {}
    return {line: [reading.samples for reading in several] for (_, line), several in readings.items()}


def head_of(stream: bytes, work: str) -> Dict[int, List[bytes]]:
    put(f"{work}/head", stream)
    subprocess.run([PROGRAM, "join", f"{work}/head.jlsp", f"{work}/head"], capture_output=True)
    return lines_in(f"{work}/head.jlsp")


def checks_of_bad_sectors(work: str) -> Iterator[Check]:
    work = f"{work}/sectors"
    stream = stream_of(work)
    made = dicom_files.File([stream], 8, SIDE, SIDE)
    at = (made.items[0] + 8 + len(stream) // 2) // SECTOR * SECTOR
    fill = (b"BAD-SECTOR " * 60)[:SECTOR]
    end = (len(stream) - 40) // SECTOR * SECTOR
    files = {
        "scan.dcm": made.bytes[:at] + fill + made.bytes[at + SECTOR :],
        "one.jls": stream[:1024] + bytes(SECTOR) + stream[1024 + SECTOR :],
        "end.jls": stream[: end - SECTOR] + b"\xf6" * (len(stream) - end + SECTOR),
        "well.jls": stream,
    }
    heads = {"scan.dcm": stream[: at - made.items[0] - 8], "one.jls": stream[:1024], "end.jls": stream[: end - SECTOR]}
    for tree in "ab":
        for name, data in files.items():
            put(f"{work}/{tree}/{name}", data)
    done = subprocess.run([ARCHIVE, "--quiet", f"{work}/out", f"{work}/a", f"{work}/b"], env=PROGRAMS, capture_output=True, text=True)
    rows = rows_of(f"{work}/out.report")
    yield f"sectors: the run {done}", (done.returncode, done.stderr, rows["well.jls"]["result"]) == (1, "", "reads")
    kept = {"scan.dcm": "scan.dcm.frames/frame-0000.jlsp", "one.jls": "one.jls.jlsp", "end.jls": "end.jls.jlsp"}
    for name, head in heads.items():
        wanted, row = head_of(head, work), rows[name]
        found = lines_in(f"{work}/out.partial/{kept[name]}")
        counts = (row["result"], row["settled"], row["missing"]) == ("lines missing", str(len(wanted)), str(SIDE - len(wanted)))
        yield f"sectors, {name}: {len(wanted)} lines ({row})", 8 < len(wanted) < SIDE and found == wanted and counts
        yield f"sectors, {name}: it says where", "cut before bad bytes at " in row["note"]
        yield f"sectors, {name}: OUT has it as it is", get(f"{work}/out/{name}") == files[name]
    again = subprocess.run([ARCHIVE, "--quiet", f"{work}/out", f"{work}/a", f"{work}/b"], env=PROGRAMS, capture_output=True, text=True)
    yield f"sectors: the same again {again}", again.returncode == 1 and rows_of(f"{work}/out.report") == rows


CHECKS = [checks_of_bad_sectors]
