"""The finished file by its SHA-256: what is open is tried, until the file has the sum that is given."""
from __future__ import annotations

from collections.abc import Sequence
from typing import TYPE_CHECKING, Optional

from jls_tools.dicom.axis.align import Copy
from jls_tools.dicom.evidence.header import Header
from jls_tools.dicom.result import Place
from jls_tools.dicom.walk.frames import FramePlace
from jls_tools.dicom.write.build import Choice, find_sum, in_fragments, padding, with_choices
from jls_tools.frames.mending import Mended

if TYPE_CHECKING:
    from jls_tools.dicom.layout import Layout

MATCHED = "the SHA-256 matched"


class BySum:
    """What is open in a file: frames of which several streams decode, places outside of them, its header, and what follows its end."""

    def __init__(
        self,
        layout: Layout,
        header: Header,
        copies: Sequence[Copy],
        mended: Sequence[Mended],
        data: bytes,
        tails: list[bytes],
        heads: Sequence[bytes] = (),
    ) -> None:
        self.layout = layout
        self.header = header
        self.copies = copies
        self.mended = mended
        self.data = data
        self.tails = tails
        self.heads = heads  # what can stand before Pixel Data, if copies have several headers: that in the data first

    def find(self, wanted: str) -> Optional[bytes]:
        """The file that has this sum, or nothing. Frames and places then say that the sum decided them."""
        choices = self.choices()
        taken = find_sum(self.data, choices, wanted) if choices is not None else None
        if choices is None or taken is None:
            return None
        for frame in self.mended:
            if not frame.is_whole:
                frame.result.kind, frame.result.note = "whole", MATCHED
        self.take(choices, taken)
        return with_choices(self.data, choices, taken)

    def choices(self) -> Optional[list[Choice]]:
        """[(begin, end, ways)] of what is open, in order; nothing if a frame has no stream that fits."""
        found: list[Choice] = []
        for place, frame in zip(self.layout.places, self.mended):
            ways = self.frame_ways(place, frame)
            if not ways:
                return None
            found.append((place.begin, place.end, ways))
        if self.heads and self.data.startswith(self.heads[0]) and not self.header.open_runs(0, len(self.heads[0])):
            found.insert(0, (0, len(self.heads[0]), list(self.heads)))
        for number in self.header.open_runs():
            run = self.header.runs.runs[number]
            for begin, end in self.header.parts[number]:
                if not any(first < end and begin < last for first, last, _ in found):
                    found.append((begin, end, [run.part(way, begin, end) for way in self.header.left[number]]))
        found.sort(key=lambda choice: choice[0])
        return [*found, (len(self.data), len(self.data), self.tails)]

    def frame_ways(self, place: FramePlace, frame: Mended) -> list[bytes]:
        """The bytes from a frame's begin to its end, for each stream that decodes and fits."""
        found = []
        for stream in dict.fromkeys(([frame.stream] if frame.stream is not None else []) + frame.others):
            pad = padding(place, stream, self.copies)
            if pad is not None:
                data = bytearray(self.data[place.begin : place.end])
                for begin, part in in_fragments(place, stream + pad):
                    data[begin - place.begin : begin - place.begin + len(part)] = part
                found.append(bytes(data))
        return found

    def take(self, choices: Sequence[Choice], taken: Sequence[int]) -> None:
        for (begin, end, ways), way in zip(choices, taken):
            for number in self.header.open_runs(begin, end):
                run = self.header.runs.runs[number]
                kept = {own for own in self.header.left[number] if run.part(own, begin, end) == ways[way]}
                self.header.keep(number, kept, MATCHED)
        for place in self.header.alone:
            self.header.take_alone(place, self.copy_of(place), MATCHED)

    def copy_of(self, place: Place) -> int:
        """A copy that has a place itself; the first of all, if each lacks some of it."""
        end = place.offset + place.length
        return next((number for number, copy in enumerate(self.copies) if not copy.lacks(place.offset, end)), 0)
