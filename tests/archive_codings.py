"""Checks of tests/commands_archive on copies in different codings: what jls-archive takes, where bytes are bad, and what jls-view draws."""
from __future__ import annotations

import os
import random
import tempfile
from collections.abc import Iterator

import dicom_recoded
from archive_cases import get, put
from archive_decisions import called, rows_of
from coded_pictures import OTHER, USUAL, coded, some_lines
from jls_tools.archive import bad_cells
from jls_tools.programs import Report
from jls_tools.view import splice

Check = tuple[str, bool]
WIDTH, HEIGHT, BITS = 32, 24, 8
ZEROS = 24

LINES = """\
differ 16 4080
splices 0
by groups 0
coding 1, copies 1 3
coding 2, copies 2
copy 4 left out
copy 1 differs 1024 512 510
copy 1 differs 4000 0 7
copy 2 differs 7000 13 0
copy 3 differs more 12
promise lines
picture 303x384, 8 bits, components 1
settled 303, missing 0, disputed 0
"""


def checks_of_lines_of_codings(work: str) -> Iterator[Check]:
    """The lines of jls-splice on copies in several codings."""
    report = Report(LINES)
    yield f"codings: {report.codings}", report.codings == [[1, 3], [2]]
    wanted = {1: [(1024, 512, 510), (4000, 0, 7)], 2: [(7000, 13, 0)]}
    yield f"where copies differ: {report.differs}", report.differs == wanted
    yield "the others as ever", (report.width, report.settled, report.promise) == (303, 303, "lines")
    found = splice.edited(report.differs[1])
    yield f"places in the mended file: {found}", found == [(1024, 1534), (3998, 4005)]
    many = splice.edited([(at * 10, 1, 1) for at in range(100)])
    bad = bad_cells.of_edits({1: [(0, 10, 0)], 2: [(630, 5, 9), (20, 0, 4)]}, [640, 640])
    yield f"where bytes are bad: {bad}", bad == "9" + "0" + "1" + "0" * 60 + "5"
    yield "not more than are drawn", len(many) == splice.MOST and (many[0][0], many[-1][1]) == (0, 991)


def damaged(stream: bytes, part: float) -> bytes:
    at = int(len(stream) * part)
    return stream[:at] + bytes(ZEROS) + stream[at + ZEROS :]


def content(path: str) -> bytes:
    return get(path) if os.path.exists(path) else b""


def checks_of_archives_in_codings(work: str) -> Iterator[Check]:
    """A bare file and a DICOM file, each in two codings in two trees."""
    work, rng = f"{work}/codings", random.Random(7)
    lines = some_lines(rng, BITS, WIDTH, HEIGHT, 1)
    streams = [coded(coding, BITS, 1, lines) for coding in (USUAL, OTHER)]
    made = dicom_recoded.files(rng, [USUAL, OTHER])
    for tree, part, stream, file in zip("ab", (0.3, 0.7), streams, made):
        put(f"{work}/{tree}/head.jls", damaged(stream, part))
        put(f"{work}/{tree}/scan.dcm", dicom_recoded.damaged(file, part))
    ended = called([f"{work}/out", f"{work}/a", f"{work}/b"])
    yield f"copies in two codings: all comes back {ended}", ended == (0, "")
    rows = rows_of(f"{work}/out.report")
    for name, true in (("head.jls", streams[0]), ("scan.dcm", made[0].bytes)):
        is_same = content(f"{work}/out/{name}") == true
        yield f"{name} is mended, as the first tree had it", (rows[name]["result"], is_same) == ("mended", True)
    log = content(f"{work}/out.report/logs/scan.dcm.log")
    yield "the log says why", b"copies of several codings gave each other lines" in log
    yield from checks_of_drawn_codings(streams)


def checks_of_drawn_codings(streams: list[bytes]) -> Iterator[Check]:
    with tempfile.TemporaryDirectory() as folder:
        for name, part, stream in zip("ab", (0.3, 0.7), streams):
            put(os.path.join(folder, name), damaged(stream, part))
        panels = list(splice.Splice(["a", "b"], folder).panels())
    lost = [sorted(set(range(HEIGHT)) - {line for _, line in panel.readings}) for panel in panels]
    yield f"the lines of each copy that are damaged: {lost}", [bool(lines) for lines in lost] == [True, True, False]
    yield "few, and others in each", max(map(len, lost)) < 5 and lost[0][-1] < lost[1][0]


CHECKS = [checks_of_lines_of_codings, checks_of_archives_in_codings]
