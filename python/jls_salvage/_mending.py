"""Mending copies together, by a call of the program jls-splice."""
from __future__ import annotations

import operator
import os
import re
import tempfile
from typing import List, NoReturn, Optional, Sequence, Tuple

from ._library import refuse_name
from ._mended import Mended, Report
from ._program import Ended, called
from ._reading import check, header, lines
from ._types import Bytes, Coding, Error, Fault, NoPicture, NotMendable, Picture, ShapesDiffer, Unsupported

PROGRAM = "jls-splice"
OUT, FILE, FILES = "out.jlsp", "file", "found"
NO_PICTURE = re.compile(r"no picture, fault (\d+) at (\d+)$", re.M)


def _put(path: str, copy: Bytes) -> None:
    view = memoryview(copy)
    with open(path, "wb") as file:
        file.write(view if view.c_contiguous else view.tobytes())


def _got(folder: str, name: str) -> Optional[bytes]:
    """A file that the program wrote, or nothing."""
    try:
        with open(os.path.join(folder, name), "rb") as file:
            return file.read()
    except FileNotFoundError:
        return None


def _found(folder: str) -> List[bytes]:
    """The files of --files, in their order."""
    found: List[bytes] = []
    while (file := _got(folder, f"{FILES}-{len(found) + 1}")) is not None:
        found.append(file)
    return found


def _words(tries: Optional[int], max_sample: Optional[int], source: Optional[int]) -> List[str]:
    """The options of the program."""
    words = ["--file", FILE, "--files", FILES]
    for name, value, least, most in (
        ("tries", tries, 1, 2**32 - 1),
        ("max_sample", max_sample, 0, 65535),
        ("source", source, 0, 2**32 - 1),
    ):
        if value is not None:
            if not least <= operator.index(value) <= most:
                raise ValueError(f"{name} is {value}, and {least} to {most} is wanted")
            words += [f"--{'max' if name == 'max_sample' else name}", str(operator.index(value))]
    return words


def _refused(ended: Ended) -> NoReturn:
    """Raises what the status of the program says."""
    kinds = {"jls": "copy", "bad": "list", "seen": "witness"}
    named = re.compile(r"^jls-splice: (?:(\d+)\.(jls|bad|seen))?")
    said = named.sub(lambda found: f"{kinds[found[2]]} {found[1]}" if found[1] else "", ended.faults.strip())
    no_picture = NO_PICTURE.search(said)
    if ended.status == 5:
        raise MemoryError("jls-splice: out of memory")
    if ended.status == 4:
        raise OSError(said)
    if ended.status == 3 and no_picture:
        raise NoPicture(Fault(int(no_picture[1])), int(no_picture[2]))
    if ended.status == 3 and said.endswith("shape differs"):
        raise ShapesDiffer
    if ended.status == 3:
        raise NotMendable(said)
    raise Error(f"jls-splice ended with status {ended.status}: {said}")


def _refuse_coding(copies: Sequence[Bytes], picture: Picture) -> None:
    """Raises `Unsupported` where no line came back, and all copies say one coding that isn't read: damage hardly says so in each. A header
    says so of scans by sample too, of which those of one component aren't read."""
    if picture.info.missing < picture.info.lines:
        return
    try:
        headers = [header(copy) for copy in copies]
    except NoPicture:
        return
    coding = headers[0].coding
    if coding == Coding.BY_SAMPLE and any(check(copy).coding != coding for copy in copies):
        return
    if coding != Coding.SUPPORTED and all(it.coding == coding for it in headers):
        raise Unsupported(coding, headers[0].end_offset)


def _lists(bad: Sequence[Tuple[int, Bytes]], count: int) -> List[Bytes]:
    """The lists of bad places, if each is of one of so many copies."""
    for copy, text in bad:
        refuse_name(text)
        if not 0 <= operator.index(copy) < count:
            raise ValueError(f"a list of bad places is of copy {copy}, and there are {count}")
    return [text for _, text in bad]


def mend(
    copies: Sequence[Bytes],
    *,
    bad: Sequence[Tuple[int, Bytes]] = (),
    witnesses: Sequence[Bytes] = (),
    tries: Optional[int] = None,
    max_sample: Optional[int] = None,
    source: Optional[int] = None,
    timeout: Optional[float] = None,
) -> Mended:
    """Mends damaged copies of one JPEG-LS file, or of one picture in several codings.

    It calls the program jls-splice, of which JLS_SPLICE can name the path, in a folder of its own that `tempfile` makes and that goes
    again. `bad` has lists of bad places, each behind the number of its copy, from 0: the bytes of GNU ddrescue's mapfile, or of lines
    `OFFSET LENGTH`. Bytes of other copies stand in these places. `witnesses` are JPEG-LS files whose lines help to mend the copies, in
    another coding. What comes of it stands in `files`: the picture has no reading that they alone give. With a list or a witness one copy
    is enough. `tries` is the most that each search tries, 4,096 if it isn't given. `max_sample` looks only for files whose samples are no
    larger. `source` is a number of 32 bits for the readings. After `timeout` seconds the search is stopped, and TimeoutError raised.

    Raises `NoPicture` where no copy and no splice has a picture, `Unsupported` where all copies have one coding that isn't read and no
    line came back, `ShapesDiffer`, `NotMendable`, `MissingProgram`, OSError where the folder can't be written, and MemoryError.
    """
    if isinstance(copies, (bytes, bytearray, memoryview)):
        raise TypeError("a list of copies is wanted, and these are the bytes of one")
    refuse_name(copies)
    refuse_name(witnesses)
    copies, bad, witnesses, words = list(copies), list(bad), list(witnesses), _words(tries, max_sample, source)
    for file in [*copies, *witnesses]:
        refuse_name(file)
    if len(copies) < (1 if bad or witnesses else 2):
        raise ValueError("two copies or more are wanted: read takes one")
    lists = _lists(bad, len(copies))
    with tempfile.TemporaryDirectory(prefix="jls_salvage-") as folder:
        names = [f"{number}.jls" for number in range(len(copies))]
        listed = [f"{number}.bad" for number in range(len(lists))]
        seen = [f"{number}.seen" for number in range(len(witnesses))]
        for name, content in zip([*names, *listed, *seen], [*copies, *lists, *witnesses]):
            _put(os.path.join(folder, name), content)
        for name, (copy_number, _) in zip(listed, bad):
            words += ["--bad", f"{operator.index(copy_number) + 1}:{name}"]
        for name in seen:
            words += ["--witness", name]
        ended = called(PROGRAM, [*words, OUT, *names], folder, timeout, is_inside=True)
        partial = _got(folder, OUT)
        if ended.status not in (0, 1) or partial is None:
            _refused(ended)
        single, files = _got(folder, FILE), _found(folder)
    picture = lines(partial)
    _refuse_coding(copies, picture)
    return _mended(Report(ended.printed, ended.status == 0), picture, partial, single, files)


def _mended(report: Report, picture: Picture, partial: bytes, file: Optional[bytes], files: Sequence[bytes]) -> Mended:
    assert report.promise is not None
    return Mended(
        report.promise, report.premise, picture, partial, file, files, report.differs, report.more_differs, report.splices,
        report.is_cut_off, report.limit, report.before, report.is_eoi_added, report.codings, report.left_out, report.strangers,
        report.edits, report.more_edits, report.printed,
    )  # fmt: skip
