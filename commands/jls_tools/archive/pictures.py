"""JPEG-LS files and partial pictures of the trees: whether one reads, and what comes of copies that differ."""
from __future__ import annotations

import os
from typing import Optional, Sequence, Set, Tuple

from jls_tools.archive import bad_cells
from jls_tools.archive.desk import Copy, Desk, shown
from jls_tools.archive.places import own_name_of_file
from jls_tools.archive.rows import Row
from jls_tools.dicom.axis import bad_places
from jls_tools.dicom.result import FrameResult, MendOptions
from jls_tools.frames.mending import FrameMender, Mended
from jls_tools.frames.unsupported import NOT_SUPPORTED, unsupported
from jls_tools.programs import Outcome, Report, Splice

PART = ".jlsp"
BEGINNING = 1 << 16  # bytes of a file in which its first headers stand


def result_of(report: Report | Row, status: int) -> str:
    """The words for a picture whose lines a report counts."""
    if status == 3 or not report.shape:
        return "does not read"
    return "lines disputed" if report.disputed else "lines missing" if report.missing else "reads"


def status_of(outcome: Outcome, report: Report) -> int:
    """The row's status: a picture with lines missing is not whole whatever the call ended with."""
    return outcome.status or (1 if report.missing or report.disputed else 0)


def look(desk: Desk, row: Row, copy: Copy) -> Row:
    """Says of a file that is copied through whether it reads. If it isn't whole, its partial picture is kept beside OUT."""
    whole = desk.library.whole(copy.data) if desk.library and copy.data is not None else None
    if whole:
        row.frames, row.shape, row.settled, row.missing, row.disputed = 1, whole.shape, whole.settled, 0, 0
        return row.end("reads", 0)
    name = desk.links([copy])[0]
    outcome = desk.sure(desk.programs.check(name, desk.folder))
    report = outcome.report
    odd = unsupported_of(desk, name, outcome)
    if odd is not None:
        row.frames, row.shape = 1, report.shape
        return row.end(NOT_SUPPORTED, 0, odd)
    beside = beside_bad(desk, copy, report) if outcome.status == 1 else None
    if beside:
        row.say(beside.result.note)
        report = desk.programs.show(str(beside.partial), desk.folder).report
    row.take(report)
    result = result_of(report, outcome.status)
    row.end(result, status_of(outcome, report), outcome.faults.replace(name, "it"))
    if row.status and copy.data is not None:
        row.bad = bad_cells.of_ranges(bad_cells.ranges_in(copy.data, outcome.report.lines), len(copy.data))
    if beside:
        desk.keep_partial(row, os.path.basename(str(beside.partial)), row.path + PART)
    elif result in ("lines missing", "lines disputed"):
        partial = desk.name("partial")
        if desk.sure(desk.programs.join(partial, [name], desk.folder)).status <= 1:
            desk.keep_partial(row, partial, row.path + PART)
    return row


def beside_bad(desk: Desk, copy: Copy, report: Report) -> Optional[Mended]:
    """What there is of a picture beside sectors that look bad, if that is more than what is read of it as it is."""
    data = copy.data
    if data is None:
        with open(copy.path, "rb") as file:
            data = file.read()
    bad, as_it_is = bad_places.seen(data), Mended(FrameResult(0, "lines", report.settled, report.missing, report.disputed))
    mender = FrameMender(desk.programs, desk.folder, MendOptions())
    found = mender.mend_beside(as_it_is, [data], bad, bad_places.note_of(bad))
    return None if found is as_it_is else found


def unsupported_of(desk: Desk, name: str, outcome: Outcome) -> Optional[str]:
    """What a copy without any line has that isn't read; or nothing."""
    if outcome.report.settled:
        return None
    with open(desk.place(name), "rb") as file:
        return unsupported(file.read(BEGINNING), outcome.fault)


def odd_in_all(desk: Desk, names: Sequence[str]) -> Optional[str]:
    """What all copies have that isn't read, if it is one thing."""
    odd: Set[Optional[str]] = {unsupported_of(desk, name, desk.programs.check(name, desk.folder)) for name in names}
    return odd.pop() if len(odd) == 1 else None


def log_of(copies: Sequence[Copy], names: Sequence[str], outcome: Outcome) -> str:
    """What jls-splice or join printed, with the places of the copies."""
    lines = [f"{name}: {shown(copy.path)}" for name, copy in zip(names, copies)]
    return "\n".join(lines) + f"\nstatus {outcome.status}\n" + outcome.printed + outcome.faults


def mend(desk: Desk, row: Row, copies: Sequence[Copy]) -> Row:
    """JPEG-LS files that differ: OUT gets the mended file if it is promised to be the picture, or is the file of the sums."""
    names, spliced, mended = desk.links(copies), desk.name("spliced"), desk.name("mended")
    outcome = desk.sure(desk.programs.splice(spliced, names, mended, desk.folder, ["--tries", str(desk.options.tries)]))
    log = log_of(copies, names, outcome)
    row.take(outcome.report)
    row.bad = bad_of(copies, outcome.report)
    odd = None if outcome.report.settled else odd_in_all(desk, names)
    if odd is not None:
        row.settled = row.missing = row.disputed = None
        return desk.set_aside(row, copies, NOT_SUPPORTED).end(NOT_SUPPORTED, 1, odd)
    if outcome.status >= 2 or not os.path.exists(desk.place(spliced)):
        row.say(outcome.faults)
        keep_log(desk, row, log)
        return desk.set_aside(row, copies, "does not read", outcome.status or 3)
    fits = desk.judge(row, desk.place(mended)) if outcome.file_written else None
    if fits or fits is None and outcome.promises_picture:
        desk.keep_log(row, log, row.path + ".log", "logs")
        desk.put(row, mended, "out", row.path, copies[0].path)
        return row.end("mended", 0)
    desk.set_aside(row, copies)
    return keep(desk, row, (spliced, mended, copies[0].path), outcome, log)


def bad_of(copies: Sequence[Copy], report: Report) -> str:
    """Where bytes of copies are bad, as far as that shows."""
    texts = [copy.data for copy in copies if copy.data is not None]
    if report.codings and len(texts) == len(copies):
        return bad_cells.of_edits(report.differs, list(map(len, texts)))
    return bad_cells.of_copies(texts)


def keep(desk: Desk, row: Row, names: Tuple[str, str, str], outcome: Splice, log: str) -> Row:
    """A picture that isn't whole, or isn't promised to be: what there is of it stands beside OUT."""
    spliced, mended, model = names
    result = result_of(outcome.report, outcome.status)
    if result == "reads":
        result = "not promised"
        if not outcome.file_written:
            wrote = desk.sure(desk.programs.write_jls(mended, spliced, desk.folder))
            log += wrote.faults
        if os.path.exists(desk.place(mended)):
            desk.put(row, mended, "partial", own_name_of_file(row.path), model)
    if row.sum == "differs":
        row.say("what decodes is not the file of the sum")
    desk.keep_partial(row, spliced, row.path + PART)
    keep_log(desk, row, log)
    return row.end(result, max(outcome.status, 1))


def keep_log(desk: Desk, row: Row, log: str) -> None:
    desk.keep_log(row, log, row.path + ".log")


def join(desk: Desk, row: Row, copies: Sequence[Copy]) -> Row:
    """Partial pictures that differ, perhaps with copies among them: OUT gets all that they have."""
    names, joined = desk.links(copies), desk.name("joined")
    outcome = desk.sure(desk.programs.join(joined, names, desk.folder))
    if not os.path.exists(desk.place(joined)):
        keep_log(desk, row, log_of(copies, names, outcome))
        return desk.set_aside(row, copies, "does not read", outcome.status or 3)
    report = desk.programs.show(joined, desk.folder).report
    row.take(report)
    if report.missing or report.disputed:
        desk.draw(row, joined)
    desk.judge(row, desk.place(joined))
    desk.put(row, joined, "out", row.path, copies[0].path)
    result = result_of(report, outcome.status)
    return row.end("joined" if result == "reads" else result, status_of(outcome, report), outcome.faults)
