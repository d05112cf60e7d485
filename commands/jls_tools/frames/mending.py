"""Mends one frame from its copies, by jls-splice and jls-salvage."""
from __future__ import annotations

import itertools
import os
import re
from collections.abc import Iterable, Sequence
from dataclasses import dataclass, field
from typing import TypeVar

from jls_tools.dicom.axis.bad_places import Range, parts_of
from jls_tools.dicom.axis.media import SECTORS
from jls_tools.dicom.result import FAILED, FrameResult, MendOptions
from jls_tools.frames.by_sectors import by_sectors
from jls_tools.frames.codestream import EOI, Shape, has_usual_parameters, shape_of, without_padding
from jls_tools.frames.crossed import crossed
from jls_tools.frames.likeness import shares_little
from jls_tools.frames.unsupported import NOT_SUPPORTED, unsupported
from jls_tools.programs import Outcome, ProgramFailed, Programs, Report, Splice

MOST_CROSSED = 40
FEWEST_TRIES = 1
KEPT, UNPADDED = 1 << 21, 1 << 22  # added to the number of a frame: so nothing of it is written over
EOI_ADDED = "eoi added"
BY_SECTORS = "picture if the true file has in each sector what one copy has there"
OTHER_STREAM = "another copy has less than half of these bytes here"
GAVE_LINES = "copies of several codings gave each other lines"
AnyOutcome = TypeVar("AnyOutcome", bound=Outcome)


@dataclass
class Mended:
    """What a frame came to: its FrameResult, the stream if there is one, further streams that decode, and its partial picture."""

    result: FrameResult
    stream: bytes | None = None
    others: list[bytes] = field(default_factory=list)
    partial: str | None = None  # the path of the partial picture
    shape: str = ""
    is_unpadded: bool = False  # whether it came of the streams without a last byte that can be padding

    @property
    def is_whole(self) -> bool:
        return self.result.kind == "whole"


def as_copied(stream: bytes, streams: Sequence[bytes], splice: Outcome) -> bytes:
    """A frame's stream that jls-splice made. If no copy has EOI, it is without the EOI that was added: its item has no place for it."""
    if not splice.report.has(EOI_ADDED) or any(copy.rstrip(b"\0").endswith(EOI) for copy in streams):
        return stream
    return stream.removesuffix(EOI[1:] if any(copy.endswith(EOI[:1]) for copy in streams) else EOI)


class FrameMender:
    """Mends frames in a folder for temporary files."""

    def __init__(self, programs: Programs, folder: str, options: MendOptions) -> None:
        self.programs = programs
        self.folder = folder
        self.most, self.tries = options.most, options.tries
        self.words = self.words_for(options.tries)
        self.has_files = programs.has_option("--files")
        self.wants_all = options.sha256 is not None

    def words_for(self, tries: int | None) -> list[str]:
        """The options of jls-splice, with so many tries."""
        given = {"--max": self.most, "--tries": tries}
        return [word for name, value in given.items() if value is not None for word in (name, str(value))]

    def name(self, number: int, ending: str) -> str:
        return f"{number}{ending}"

    def path(self, name: str) -> str:
        return os.path.join(self.folder, name)

    def put(self, name: str, data: bytes) -> str:
        with open(self.path(name), "wb") as file:
            file.write(data)
        return name

    def get(self, name: str) -> bytes:
        with open(self.path(name), "rb") as file:
            return file.read()

    def drop(self, names: Iterable[str]) -> None:
        for name in names:
            if os.path.exists(self.path(name)):
                os.remove(self.path(name))

    def mend(self, number: int, streams: Sequence[bytes], begin: int = 0) -> Mended:
        """A Mended from the streams of a frame, which differ from each other; those of zeros alone are left out.

        `begin` is where the streams begin in the file.
        """
        usable = [stream for stream in dict.fromkeys(streams) if stream.strip(b"\0")]
        if not usable:
            return Mended(FrameResult(number, "missing", note="no copy has it"))
        if len(usable) == 1 and (whole := self.whole(number, usable[0])):
            return whole
        names = [self.put(self.name(number, f"-{at}.jls"), stream) for at, stream in enumerate(usable)]
        try:
            if len(usable) == 1:
                return self.of_one(number, usable[0], names[0])
            mended = self.of_several(number, usable, names)
            if mended.is_whole:
                return mended
            return self.of_crossed(number, usable, names, begin) or self.of_sectors(mended, usable, begin) or mended
        finally:
            self.drop(names)

    def mend_aside(self, number: int, streams: Sequence[bytes], begin: int, aside: int) -> Mended:
        """As `mend`, in files of its own names: what came of the frame before stays."""
        mended = self.mend(number + aside, streams, begin)
        mended.result.number = number
        return mended

    def mend_padded(self, number: int, streams: Sequence[bytes], begin: int = 0, is_exact: bool = True) -> Mended:
        """As `mend`, of streams from items: a last byte that can be their padding counts where all lines come with it.

        Such a 00 after a frame that is cut off is no code of it. With it no line of an interval can come, or one that is false. `is_exact`
        says that the items end where they say.
        """
        mended, unpadded = self.mend(number, streams, begin), without_padding(streams)
        result = mended.result
        if mended.is_whole or unpadded == list(streams) or result.settled and not (result.missing or result.disputed):
            return mended
        other = self.mend_aside(number, unpadded, begin, UNPADDED)
        further = other.result.settled - result.settled
        has_more = further > 0 or further < 0 and is_exact and len(set(streams)) == 1
        other.is_unpadded = other.is_whole or has_more and other.result.disputed <= result.disputed
        return other if other.is_unpadded else mended

    def of_crossed(self, number: int, streams: Sequence[bytes], names: list[str], begin: int) -> Mended | None:
        """A Mended that is whole, from the streams and from what has one of two before a place and the other after it; or nothing."""
        tried: list[bytes] = []
        for has_short, sector in itertools.product((True, False), SECTORS):
            further = crossed(streams, begin, sector, has_short)
            if further == tried or not 0 < len(further) <= MOST_CROSSED:
                continue
            tried = further
            added = [self.put(self.name(number, f"-{len(names) + at}.jls"), stream) for at, stream in enumerate(further)]
            try:
                mended = self.of_several(number, streams, names + added, ".crossed")
            finally:
                self.drop(added)
            if mended.is_whole:
                return mended
        return None

    def of_sectors(self, mended: Mended, streams: Sequence[bytes], begin: int) -> Mended | None:
        """A Mended that is whole, where the search was cut off and one file alone reads that has whole sectors of two streams."""
        if mended.result.kind not in ("lines", "missing"):
            return None
        stream = by_sectors(streams, begin, self.programs.reads)
        if stream is None or stream in streams and any(shares_little(stream, other) for other in streams):
            return None
        number = mended.result.number
        names = [self.put(self.name(number, ".by-sectors.jls"), stream)]
        try:
            found = self.of_one(number, stream, names[0])
        finally:
            self.drop(names)
        found.result.promise = BY_SECTORS
        return found if found.is_whole else None

    def mend_beside(self, mended: Mended, streams: Sequence[bytes], bad: Sequence[Range], note: str, is_sure: bool = False) -> Mended:
        """What a frame came to, or what there is of it beside bytes that are bad in all its copies, if that is more.

        `is_sure` says that a list names them. Else they look so, and a frame that reads whole shows that they are not.
        """
        usable = [stream for stream in dict.fromkeys(streams) if stream.strip(b"\0")]
        if not bad or not usable or mended.result.kind == NOT_SUPPORTED or mended.is_whole and not is_sure:
            return mended
        parts: list[str] = []
        number = mended.result.number
        made: list[str] = []
        try:
            for at, several in enumerate(parts_of(usable, bad)):
                names = [self.put(self.name(number, f"-{at}-{of}.part"), stream) for of, stream in enumerate(several)]
                made += names
                parts += self.part_of(names, self.name(number, f"-{at}.spliced"))
            made += parts
            found = self.joined(number, parts, note)
        finally:
            self.drop(made)
        if found is None:
            return Mended(FrameResult(number, "missing", note=note)) if is_sure else mended
        return found if is_sure or found.result.settled > mended.result.settled else mended

    def part_of(self, names: Sequence[str], partial: str) -> list[str]:
        """A file that has the lines of these: the only one of them, or what jls-splice makes of several; nothing if there is no picture."""
        if len(names) == 1:
            return list(names) if self.check(names[0]).report.width else []
        self.sure(self.programs.splice(partial, names, None, self.folder, self.words))
        return [partial] if os.path.exists(self.path(partial)) else []

    def joined(self, number: int, parts: Sequence[str], note: str) -> Mended | None:
        """All lines of the parts of a frame."""
        partial = self.name(number, ".cut.jlsp")
        if not parts or self.sure(self.programs.join(partial, parts, self.folder)).status > 1:
            return None
        report = self.programs.show(partial, self.folder).report
        kind = "disputed" if report.disputed else "lines" if report.settled else "missing"
        return Mended(self.result(number, kind, report, "lines", note), None, [], self.path(partial), report.shape)

    def check(self, name: str) -> Outcome:
        return self.sure(self.programs.check(name, self.folder))

    def sure(self, outcome: AnyOutcome) -> AnyOutcome:
        """The outcome, unless a file of this folder could not be read or written: then nothing is said of the picture."""
        if outcome.status == FAILED:
            raise ProgramFailed(outcome.faults.strip(), FAILED)
        return outcome

    def result(self, number: int, kind: str, report: Report, promise: str = "", note: str = "") -> FrameResult:
        return FrameResult(number, kind, report.settled, report.missing, report.disputed, promise, note)

    def whole(self, number: int, stream: bytes) -> Mended | None:
        """A Mended of a stream that is whole, as the library says in this process; nothing if it isn't, or there is no library."""
        whole = self.programs.library.whole(stream) if self.programs.library else None
        return Mended(FrameResult(number, "whole", whole.settled), stream, [], None, whole.shape) if whole else None

    def of_one(self, number: int, stream: bytes, name: str) -> Mended:
        outcome = self.check(name)
        if outcome.status == 0:
            return Mended(self.result(number, "whole", outcome.report), stream, [], None, outcome.report.shape)
        coding = unsupported(stream, outcome.fault)
        if not outcome.report.settled and coding:
            return Mended(FrameResult(number, NOT_SUPPORTED, note=coding))
        if outcome.status == 3 or not outcome.report.width:
            return Mended(FrameResult(number, "missing", note=self.why_unread(outcome.faults)))
        partial = self.name(number, ".jlsp")
        self.sure(self.programs.join(partial, [name], self.folder))
        note = coding or ""
        kind = "missing" if outcome.report.settled + outcome.report.disputed == 0 else "lines"
        return Mended(self.result(number, kind, outcome.report, note=note), None, [], self.path(partial), outcome.report.shape)

    def why_unread(self, faults: str) -> str:
        """Why there is no picture: the fault as the program names it."""
        found = re.search(r"no picture, (fault .*)", faults)
        return found.group(1) if found else "no copy reads"

    def of_several(
        self, number: int, streams: Sequence[bytes], names: Sequence[str], way: str = "", further: Sequence[bytes] = ()
    ) -> Mended:
        """A Mended of several streams. `further` are those of them that are in other codings than the first.

        No bytes of these are the first's, and what has some of both is no file of the picture. So jls-splice doesn't look for one.
        """
        partial, file, prefix = (self.name(number, way + ending) for ending in (".jlsp", ".mended", ".other"))
        words = self.words_for(FEWEST_TRIES) if further else list(self.words)
        listing = ["--files", prefix] if self.has_files and self.wants_all else []
        splice = self.sure(self.programs.splice(partial, names, file, self.folder, words + listing))
        others = self.others(splice, prefix, streams, names)
        if splice.file_written:
            stream: bytes | None = as_copied(self.get(file), streams, splice)
        else:
            stream = self.usual_of_several(splice, streams, names, prefix, words)
        self.drop([file])
        report = splice.report
        name = self.unsupported_of(streams, names) if stream is None and not report.settled else None
        if name is not None:
            return Mended(FrameResult(number, NOT_SUPPORTED, note=name), None, others)
        if splice.status == 3 or not report.width:
            return Mended(FrameResult(number, "missing", note=self.why_unread(splice.faults)), None, others)
        promise = report.promise or "lines"
        kind, note = self.kind_of(splice, report), ""
        if stream is not None and not splice.file_written:
            kind, note = "whole", "of several files of this picture that with the usual parameters"
        if kind == "whole" and report.codings:
            note = GAVE_LINES
        elif kind == "whole" and further and stream not in streams:
            kind = "lines"
        if kind == "whole" and stream is not None and stream not in further:
            if stream in streams and any(shares_little(stream, other) for other in streams if other not in further):
                kind, note = "disputed", OTHER_STREAM
        return Mended(self.result(number, kind, report, promise, note), stream, others, self.path(partial), report.shape)

    def unsupported_of(self, streams: Sequence[bytes], names: Sequence[str]) -> str | None:
        """What all streams of a frame have that isn't read; nothing if one of them says otherwise."""
        found = {unsupported(stream, self.check(name).fault) for stream, name in zip(streams, names)}
        return found.pop() if len(found) == 1 else None

    def usual_of_several(
        self, splice: Splice, streams: Sequence[bytes], names: Sequence[str], prefix: str, words: list[str]
    ) -> bytes | None:
        """Of several files that have one picture, which is promised: the one whose coding parameters are the usual ones; or nothing.

        Of copies in several codings the mended file of the first coding is taken, which jls-splice lists first.
        """
        report = splice.report
        is_one = (report.promise or "").startswith("picture") and report.settled and not report.missing and not report.disputed
        if not (is_one and self.has_files):
            return None
        partial = f"{prefix}.jlsp"
        listed = self.sure(self.programs.splice(partial, names, None, self.folder, words + ["--files", prefix]))
        files = self.files(prefix)
        self.drop([partial])
        # others than the first decode, and lines of other codings speak against them
        some = files[:1] if report.codings else [stream for stream in files if has_usual_parameters(stream)]
        return as_copied(some[0], streams, listed) if len(some) == 1 else None

    def kind_of(self, splice: Splice, report: Report) -> str:
        if splice.status == 0 and splice.promises_picture:
            return "whole"
        if report.disputed:
            return "disputed"
        return "missing" if report.settled == 0 else "lines"

    def others(self, splice: Splice, prefix: str, streams: Sequence[bytes], names: Sequence[str]) -> list[bytes]:
        """Streams that decode and may be the one that a checksum is of, where one is given."""
        if not self.wants_all:
            return []
        if not self.has_files:
            return [stream for stream, name in zip(streams, names) if self.check(name).status == 0]
        return [as_copied(stream, streams, splice) for stream in self.files(prefix)]

    def files(self, prefix: str) -> list[bytes]:
        """What jls-splice wrote for --files."""
        found, number = [], 1
        while os.path.exists(self.path(f"{prefix}-{number}")):
            found.append(self.get(f"{prefix}-{number}"))
            self.drop([f"{prefix}-{number}"])
            number += 1
        return found


def shapes_of(mended: Sequence[Mended], streams: Sequence[Sequence[bytes]]) -> Shape | None:
    """The Shape that frames have: of those that are whole, else of what any copy says of them."""
    for frame in mended:
        if frame.stream is not None and frame.is_whole:
            return shape_of(frame.stream)
    found = [shape_of(stream) for several in streams for stream in several]
    return next((shape for shape in found if shape), None)
