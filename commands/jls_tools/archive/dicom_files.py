"""DICOM files of the trees: whether one reads, and what comes of copies that differ."""
from __future__ import annotations

import dataclasses
import os
import shutil
from typing import Iterator, List, Sequence

from jls_tools.archive import bad_cells, plain_walk, versions
from jls_tools.archive.desk import Copy, Desk
from jls_tools.archive.places import own_name, own_name_of_file
from jls_tools.archive.rows import Row
from jls_tools.dicom import command, info
from jls_tools.dicom.mend import mend as mend_dicom
from jls_tools.dicom.read.elements import syntax_name
from jls_tools.dicom.result import FAILED, WHOLE, FrameResult, MendOptions, MendResult
from jls_tools.dicom.write.outputs import FRAMES
from jls_tools.file_names import printable
from jls_tools.frames import mending
from jls_tools.frames.mending import Mended
from jls_tools.frames.unsupported import NOT_SUPPORTED
from jls_tools.programs import ProgramFailed

OTHER_HEADER = "same pixels, other header"
MOST_CHECKED = 16  # frames of a file whose bad bytes are looked for


def take(row: Row, frames: Sequence[FrameResult]) -> None:
    """Takes the numbers of frames."""
    row.frames = len(frames)
    row.settled, row.missing = sum(frame.settled for frame in frames), sum(frame.missing for frame in frames)
    row.disputed = sum(frame.disputed for frame in frames)


def words_for(result: MendResult) -> str:
    """The words for a file that isn't written: each frame came back, or one isn't whole."""
    if any(frame.kind != "whole" for frame in result.frames):
        return words_for_lost(result.frames)
    return OTHER_HEADER if result.versions and result.versions.taken is None else "undecided"


def words_for_lost(frames: Sequence[FrameResult]) -> str:
    """The words for frames of which one isn't whole."""
    if any(frame.disputed or frame.kind == "disputed" for frame in frames):
        return "lines disputed"
    return "lines missing" if any(frame.missing or frame.kind == "missing" for frame in frames) else "not promised"


def loss(frame: FrameResult) -> int:
    return frame.missing + frame.disputed


def log_of(desk: Desk, row: Row, copies: Sequence[Copy], result: MendResult) -> str:
    """What mending came to, in the lines of `jls-dicom mend`."""
    told = dataclasses.replace(result, folder=None)  # it has another name in the end
    lines = [f"copy {printable(copy.path)}" for copy in copies]
    lines += command.mended_lines(told, row.path, False, not desk.options.no_names, command.LONG_VALUES)
    lines += [printable(result.refusal)] if result.refusal else []
    return "".join(f"{line}\n" for line in lines)


def said(fault: Exception) -> str:
    """What a note says of a file on which the reading of DICOM failed."""
    return f"its structure could not be followed ({type(fault).__name__}: {fault})"


def mend(desk: Desk, row: Row, copies: Sequence[Copy]) -> Row:
    """DICOM files that differ. A file on which their reading fails must not stop the run: its copies are set aside."""
    try:
        return mend_files(desk, row, copies)
    except (OSError, ProgramFailed, MemoryError):
        raise
    except Exception as fault:
        return desk.set_aside(row, copies, "does not read", 3).end("does not read", 3, said(fault))


def mend_files(desk: Desk, row: Row, copies: Sequence[Copy]) -> Row:
    """DICOM files that differ: OUT gets the mended file if it is whole. Otherwise its frames that came back stand beside OUT."""
    bad = [(at, copy.bad) for at, copy in enumerate(copies) if copy.bad]
    options = MendOptions(sha256=desk.expected.get("sha256"), tries=desk.options.tries, bad_ranges=bad)
    out = desk.name("mended") + ".dcm"
    result = mend_dicom([copy.path for copy in copies], desk.place(out), options, desk.programs)
    if result.status == FAILED:
        raise ProgramFailed(str(result.refusal), 4)
    take(row, result.frames)
    take_decisions(desk, row, copies, result)
    row.bad = bad_of(copies, result, desk.place(out))
    for path, why in result.left_out:
        row.say(f"{printable(path)} is left out: {why}")
    if result.status == WHOLE and result.written:
        fits, used = desk.judge(row, desk.place(out)), len(copies) - len(result.left_out)
        if fits or fits is None and used > 1:
            desk.keep_log(row, log_of(desk, row, copies, result), row.path + ".log", "logs")
            desk.put(row, out, "out", row.path, copies[0].path)
            return row.end("mended", 0)
        row.say("what came back is not the file of the sum" if fits is False else "one copy alone is left, and nothing confirms its header")
        desk.put(row, out, "partial", own_name_of_file(row.path), copies[0].path)
    return keep(desk, row, copies, result)


def take_decisions(desk: Desk, row: Row, copies: Sequence[Copy], result: MendResult) -> None:
    """What was decided where copies differ, and whose picture it is."""
    decided = [place.values[place.taken][0] for place in result.places if place.taken is not None]
    row.decided, row.one_copy = len(decided), sum(len(names) == 1 for names in decided)
    texts = list(bytes_of(copies))
    row.versions = max(versions.count(texts), len(result.versions.rows) if result.versions else 0)
    if not desk.options.no_names:
        row.patient, row.study = versions.whose(texts)


def bad_of(copies: Sequence[Copy], result: MendResult, out: str) -> str:
    """Where bytes of copies are bad, as far as that shows: those in another coding than OUT have none in common with it."""
    others = {path for group in result.other_codings for path in group}
    texts = list(bytes_of([copy for copy in copies if copy.path not in others]))
    if others and result.written:
        with open(out, "rb") as file:
            texts.append(file.read())
    return bad_cells.of_copies(texts)


def bytes_of(copies: Sequence[Copy]) -> Iterator[bytes]:
    for copy in copies:
        if copy.data is not None:
            yield copy.data
        elif os.path.getsize(copy.path) <= bad_cells.LARGEST:
            with open(copy.path, "rb") as file:
                yield file.read()


def keep(desk: Desk, row: Row, copies: Sequence[Copy], result: MendResult) -> Row:
    """A file that isn't whole: its frames and a log stand beside OUT. Copies of which nothing came are set aside."""
    if result.is_unsupported:
        return set_unsupported_aside(desk, row, copies, str(result.refusal))
    desk.keep_log(row, log_of(desk, row, copies, result), row.path + ".log")
    if result.refusal or not any(frame.settled or frame.disputed for frame in result.frames):
        return desk.set_aside(row, copies, "does not read", 3).end("does not read", 3, result.refusal or "no frame has a line")
    worst = max(result.frames, key=loss)
    if result.folder and os.path.isdir(result.folder):
        drawn = os.path.join(result.folder, f"frame-{worst.number:04}.jlsp")
        if loss(worst) and os.path.exists(drawn):
            desk.draw(row, drawn)
        row.outputs.append(desk.places.put(result.folder, "partial", own_name(row.path + FRAMES)))
    words = words_for(result)
    desk.set_aside(row, copies, words)
    return row.end(words, max(result.status, 1), "; ".join(result.notes))


def set_unsupported_aside(desk: Desk, row: Row, copies: Sequence[Copy], why: str) -> Row:
    """Copies that differ, of a coding that isn't read: nothing says which of them is damaged, or how much of it is lost."""
    row.settled = row.missing = row.disputed = None
    return desk.set_aside(row, copies, NOT_SUPPORTED).end(NOT_SUPPORTED, 1, why)


def look(desk: Desk, row: Row, copy: Copy) -> Row:
    """Says of a file that is copied through whether it reads."""
    if copy.data is not None and reads_plainly(desk, row, copy.data):
        return row.end("reads", 0)
    syntax = plain_walk.other_syntax(copy.data) if copy.data is not None else None
    if syntax is not None:
        return row.end("copied", 0, f"it: no JPEG-LS lossless: {syntax_name(syntax)}")
    try:
        return look_at(desk, row, info.OneFile(copy.path))
    except (OSError, ProgramFailed, MemoryError):
        raise
    except Exception as fault:
        return row.end("does not read", 3, said(fault))


def reads_plainly(desk: Desk, row: Row, data: bytes) -> bool:
    """Whether a plain walk comes to the end of a file, and each frame is whole by the library. The row has its numbers then."""
    plain = plain_walk.read(data) if desk.library else None
    if not desk.library or not plain:
        return False
    settled = 0
    for frame in plain.frames:
        whole = desk.library.whole(frame)
        if not whole:
            return False
        settled += whole.settled
    row.frames, row.settled, row.missing, row.disputed = len(plain.frames), settled, 0, 0
    return True


def look_at(desk: Desk, row: Row, file: info.OneFile) -> Row:
    """Says of a file whether its frames read."""
    refusal = info.refusal_of("it", file)
    if refusal:
        is_broken = not file.is_dicom or file.layout.breaks or file.layout.structure.is_cut
        return row.end("does not read" if is_broken else "copied", 3 if is_broken else 0, refusal)
    mender = mending.FrameMender(desk.programs, desk.folder, MendOptions())
    mended = [file.mended(mender, number) for number in range(len(file.frames))]
    odd = sorted({frame.result.note for frame in mended if frame.result.kind == NOT_SUPPORTED})
    if odd and all(frame.is_whole or frame.result.kind == NOT_SUPPORTED for frame in mended):
        row.frames = len(mended)
        return row.end(NOT_SUPPORTED, 0, ", ".join(odd))
    take(row, [frame.result for frame in mended])
    lost = [frame for frame in mended if frame.result.kind != "whole"]
    if not lost:
        return row.end("reads", 0)
    tell_of(desk, row, file, [frame.result.number for frame in lost])
    notes = sorted({frame.result.note for frame in lost if frame.result.note})
    drawn = max(lost, key=lambda frame: loss(frame.result))
    if drawn.partial:
        desk.draw(row, drawn.partial)
    keep_parts(desk, row, lost)
    if not any(frame.result.settled for frame in mended):
        return row.end("does not read", 3, "; ".join(notes))
    return row.end(words_for_lost([frame.result for frame in lost]), 1, "; ".join(notes))


def keep_parts(desk: Desk, row: Row, lost: Sequence[Mended]) -> None:
    """Keeps what there is of frames that aren't whole beside OUT."""
    kept = [(frame.result.number, frame.partial) for frame in lost if frame.partial and frame.result.settled]
    if not kept:
        return
    part = desk.place(desk.name("frames"))
    os.mkdir(part)
    for number, partial in kept:
        shutil.copyfile(partial, os.path.join(part, f"frame-{number:04}.jlsp"))
    row.outputs.append(desk.places.put(part, "partial", own_name(row.path + FRAMES)))


def tell_of(desk: Desk, row: Row, file: info.OneFile, lost: List[int]) -> None:
    """Where bytes of a damaged file are bad, and whose picture it is."""
    ranges = []
    for number in lost[:MOST_CHECKED]:
        begin, stream = file.frames[number]
        name = desk.name("frame")
        with open(desk.place(name), "xb") as out:
            out.write(stream)
        ranges += bad_cells.ranges_in(stream, desk.programs.check(name, desk.folder).report.lines, begin)
    row.bad = bad_cells.of_ranges(ranges, len(file.data))
    if not desk.options.no_names:
        row.patient, row.study = versions.whose([file.data])
