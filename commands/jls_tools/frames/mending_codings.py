"""Mends one frame whose copies are in several codings: what comes of those of one coding is mended by lines of the others.

A frame that is whole in one coding ends the search of jls-splice. So it is compared with the others here.
"""
from __future__ import annotations

import os
from collections.abc import Iterator, Mapping, Sequence
from contextlib import contextmanager

from jls_tools import partial_picture
from jls_tools.dicom.result import FrameResult
from jls_tools.frames.codings import Coding, coding_of
from jls_tools.frames.likeness import without_zeros
from jls_tools.frames.mending import GAVE_LINES, FrameMender, Mended
from jls_tools.frames.unsupported import NOT_SUPPORTED

OTHER_LINES = "a copy in another coding has other lines"
UNCONFIRMED = "copies in other codings don't confirm it"
PARTS = (0.5, 0.25, 0.12, 0.06)  # of a damaged codestream, in which lines can stand before the damage
MARRED, MARK = (0.9, 0.4), 12  # where a whole codestream gets so many zeros
BESIDE = 1 << 20  # added to the number of a frame: so nothing of it is written over
Lines = Mapping[tuple[int, int], bytes]  # the samples of each settled line, by component and row


class CodingsMender:
    """Mends frames across codings, in the folder of a FrameMender."""

    def __init__(self, mender: FrameMender) -> None:
        self.mender = mender
        self.programs, self.folder = mender.programs, mender.folder

    def mend(self, mended: Mended, streams: Sequence[bytes], others: Sequence[bytes]) -> Mended:
        """What a frame came to in the coding that stands, of these streams, with those in other codings."""
        number = mended.result.number
        own, further = ([stream for stream in dict.fromkeys(several) if stream.strip(b"\0")] for several in (streams, others))
        if not further or mended.result.kind == NOT_SUPPORTED:
            return mended
        further = self.mended_each(number, further)
        if not mended.is_whole:
            mended = self.whole_of(number, further) or self.with_lines(mended, own, further)
        if not mended.is_whole or mended.stream is None or mended.result.note == GAVE_LINES:
            return mended
        return self.compared(mended, mended.stream, own, further)

    def whole_of(self, number: int, streams: Sequence[bytes]) -> Mended | None:
        """The first of these streams that is whole, as a Mended."""
        with self.named(number, streams) as names:
            for stream, outcome in zip(streams, map(self.mender.check, names)):
                if outcome.status == 0:
                    return Mended(self.mender.result(number, "whole", outcome.report), stream, shape=outcome.report.shape)
        return None

    def with_lines(self, mended: Mended, own: Sequence[bytes], further: Sequence[bytes]) -> Mended:
        """A frame that is whole in no coding, with what the lines of others give it, if that is more."""
        number = mended.result.number
        with self.named(number, [*own, *further]) as names:
            if len(names) == 1:
                found = self.mender.of_one(number, further[0], names[0])
            else:
                found = self.mender.of_several(number, [*own, *further], names, ".codings", further)
        return found if found.is_whole or found.result.settled > mended.result.settled else mended

    @contextmanager
    def named(self, number: int, streams: Sequence[bytes], kind: str = "jls") -> Iterator[list[str]]:
        """The names of these streams, which stand in the folder meanwhile."""
        names = [self.mender.put(self.mender.name(number, f"-{at}.{kind}"), stream) for at, stream in enumerate(streams)]
        try:
            yield names
        finally:
            self.mender.drop(names)

    def mended_each(self, number: int, streams: Sequence[bytes]) -> list[bytes]:
        """The streams, those of one coding as what comes of them, if that is whole."""
        groups: dict[Coding | None, list[bytes]] = {}
        for stream in streams:
            groups.setdefault(coding_of(stream), []).append(stream)
        for coding, group in groups.items():
            mended = self.mender.mend(number + BESIDE, group) if coding is not None and len(group) > 1 else None
            if mended is not None and mended.is_whole and mended.stream is not None:
                groups[coding] = [mended.stream]
        return [stream for group in groups.values() for stream in group]

    def compared(self, mended: Mended, whole: bytes, own: Sequence[bytes], further: Sequence[bytes]) -> Mended:
        """A frame that is whole in one coding, after it was compared with its streams in other codings."""
        number = mended.result.number
        others = own if whole in further else further
        with self.named(number, [whole, *others], "whole") as names:
            lines = self.lines_of(names[0])
            given = [self.lines_of(name) for name in names[1:]]
            if any(lines.get(line, samples) != samples for each in given for line, samples in each.items()):
                return self.against(mended, names, note=OTHER_LINES)
            if whole in own and lines in given:
                return mended
            found = self.marred(number, whole, own, further)
            if found.is_whole:
                return mended if found.stream == whole else found
            if found.result.disputed or any(self.denies(name, stream, lines) for name, stream in zip(names[1:], others)):
                return self.against(mended, names, note=OTHER_LINES)
            # damage that a decoder doesn't notice would stand against these, and one that is true is confirmed nearly always
            if any(without_zeros(stream) * 2 >= len(stream) for stream in others):
                return self.against(mended, names, note=UNCONFIRMED)
        return mended

    def marred(self, number: int, whole: bytes, own: Sequence[bytes], further: Sequence[bytes]) -> Mended:
        """What jls-splice makes of the streams where the whole one has zeros at one place: it gives lines only where no file is whole.

        So the bytes of a damaged stream say whether the whole one is true, or bring back what is in the coding that stands.
        """
        found = Mended(FrameResult(number, "missing"))
        for part in MARRED:
            at = int(len(whole) * part)
            stream = whole[:at] + bytes(MARK) + whole[at + MARK :]
            if whole in further:
                streams = [*own, stream, *(other for other in further if other != whole)]
            else:
                streams = [stream, *further]
            with self.named(number, streams, "marred") as names:
                found = self.mender.of_several(number, streams, names, ".marred", streams[1:])
            if found.is_whole and found.result.note == GAVE_LINES:
                return found
        found.result.kind = "lines"
        return found

    def denies(self, name: str, stream: bytes, own: Lines) -> bool:
        """Whether a stream is of another picture than these lines: whole and not the same, or other from the first lines on.

        A damaged one gives the lines before the damage where it is cut there. Lines of one value say nothing.
        """
        lines = self.lines_of(name)
        if len(lines) == len(own):
            return lines != own
        is_other = False
        for part in PARTS:
            cut = self.mender.put(f"{name}.head", stream[: int(len(stream) * part)])
            lines = {line: samples for line, samples in self.lines_of(cut).items() if samples != samples[:2] * (len(samples) // 2)}
            self.mender.drop([cut])
            if lines and all(own.get(line) == samples for line, samples in lines.items()):
                return False
            is_other = is_other or bool(lines)
        return is_other

    def against(self, mended: Mended, names: Sequence[str], note: str) -> Mended:
        """A frame whose lines a copy in another coding denies, or doesn't confirm."""
        number, partial = mended.result.number, self.mender.name(mended.result.number, ".against.jlsp")
        joined = self.mender.sure(self.programs.join(partial, names, self.folder))
        if joined.status > 1:
            return Mended(FrameResult(number, "disputed", note=note), mended.stream, mended.others)
        report = self.programs.show(partial, self.folder).report
        result = self.mender.result(number, "disputed", report, "lines", note)
        return Mended(result, mended.stream, mended.others, self.mender.path(partial), report.shape)

    def lines_of(self, name: str) -> Lines:
        """The lines that a copy settles."""
        partial = f"{name}.lines"
        self.mender.sure(self.programs.join(partial, [name], self.folder))
        if not os.path.exists(self.mender.path(partial)):
            return {}
        picture = partial_picture.read(self.mender.path(partial))
        self.mender.drop([partial])
        return {line: readings[0].samples for line, readings in picture.readings.items() if len(readings) == 1}
