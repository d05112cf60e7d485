"""Checks of tests/commands_archive on pictures that are interleaved by sample: what jls-archive takes of them, and what jls-view draws."""
from __future__ import annotations

import os
import random
import subprocess
from collections.abc import Iterator

from archive_cases import PROGRAMS, VIEW, get, put
from archive_codings import BITS, HEIGHT, WIDTH, content, damaged
from archive_decisions import called, rows_of
from coded_pictures import Coding, coded, some_lines
from dicom_files import File
from jls_tools.archive import bad_cells
from jls_tools.frames.by_sample import headers_by_line, is_by_sample, scan_of

Check = tuple[str, bool]
PIXELS, COMPONENTS = Coding(are_pixels=True), 3


def checks_of_scans_by_sample(work: str) -> Iterator[Check]:
    """Which codestreams jls-splice is asked of alone, and where bytes are bad by its lines."""
    lines = some_lines(random.Random(3), BITS, WIDTH, HEIGHT, COMPONENTS)
    stream = coded(PIXELS, BITS, COMPONENTS, lines)
    scan, found = stream.index(b"\xff\xda") + 14, scan_of(stream)
    yield f"where its data begin: {scan}", found is not None and found.end() == scan
    others = [coded(Coding(), BITS, COMPONENTS, lines), coded(Coding(are_planes=True), BITS, COMPONENTS, lines), b"JLSP" + stream, b""]
    yield "no other has such a scan", not any(map(is_by_sample, others))
    wanted = stream[: scan - 2] + b"\1\0"
    yield "its headers by line, without data", (headers_by_line(stream), headers_by_line(b"\xff\xd8")) == (wanted, b"\xff\xd8")
    said = ["splices 0", "promise lines", "missing 1 0-3"]
    for name, printed, begin in (("all", said, scan), ("from an offset on", ["before 200", *said], 200), ("nothing", said[:2], None)):
        ranges = [] if begin is None else [(begin + 7, len(stream) + 7)]
        yield f"bad bytes where lines are missing: {name}", bad_cells.ranges_in(stream, printed, 7) == ranges


def checks_of_archives_by_sample(work: str) -> Iterator[Check]:
    """Bare files and DICOM files in two trees: equal and whole, equal and damaged, or damaged at two places."""
    work = f"{work}/by-sample"
    lines = some_lines(random.Random(5), BITS, WIDTH, HEIGHT, COMPONENTS)
    stream = coded(PIXELS, BITS, COMPONENTS, lines)
    restarts = coded(Coding(rows=6, are_pixels=True), BITS, COMPONENTS, lines)
    made = File([stream, stream], BITS, WIDTH, HEIGHT, samples=COMPONENTS)
    at = made.items[1] + 200
    spoilt = made.bytes[:at] + bytes(8) + made.bytes[at + 8 :]
    copies = {
        "whole.jls": ([stream] * 2, "reads", stream),
        "part.jls": ([damaged(restarts, 0.4)] * 2, "lines missing", damaged(restarts, 0.4)),
        "lost.jls": ([damaged(stream, 0.4)] * 2, "lines missing", damaged(stream, 0.4)),
        "mended.jls": ([damaged(stream, 0.3), damaged(stream, 0.7)], "mended", stream),
        "whole.dcm": ([made.bytes] * 2, "reads", made.bytes),
        "part.dcm": ([spoilt] * 2, "lines missing", spoilt),
        "mended.dcm": ([spoilt, damaged(made.bytes, 0.4)], "mended", made.bytes),
    }
    for name, (several, _, _) in copies.items():
        for tree, copy in zip("ab", several):
            put(f"{work}/{tree}/{name}", copy)
    ended = called([f"{work}/out", f"{work}/a", f"{work}/b"])
    yield f"pictures by sample: not all is whole {ended}", ended == (1, "")
    rows = rows_of(f"{work}/out.report")
    for name, (_, result, out) in copies.items():
        found = (rows[name]["result"], content(f"{work}/out/{name}") == out)
        yield f"{name}: {result} ({rows[name]})", found == (result, True)
    yield "the lines beside a damaged interval are kept", (rows["part.jls"]["settled"], rows["part.jls"]["missing"]) == ("54", "18")
    yield "and those of the frame that is whole", (rows["part.dcm"]["settled"], rows["part.dcm"]["missing"]) == ("72", "72")
    yield "a partial picture stands beside", os.path.exists(f"{work}/out.partial/part.jls.jlsp")
    drawn = subprocess.run([VIEW, "--map", f"{work}/a/part.jls"], env=PROGRAMS, capture_output=True, text=True)
    told = [line.count("#") == 6 and ", missing 6, " in line for line in drawn.stdout.splitlines()]
    yield f"jls-view draws it ({drawn})", (drawn.returncode, told) == (0, [True] * COMPONENTS)
    words = [VIEW, f"{work}/a/mended.jls", f"{work}/b/mended.jls", f"{work}/drawn.png"]
    both = subprocess.run(words, env=PROGRAMS, capture_output=True, text=True)
    yield f"jls-view draws both, and what comes of them ({both})", both.returncode == 0 and get(f"{work}/drawn.png")[:4] == b"\x89PNG"


CHECKS = [checks_of_scans_by_sample, checks_of_archives_by_sample]
