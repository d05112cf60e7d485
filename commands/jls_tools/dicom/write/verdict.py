"""Whether the mended file may be written with status 0, or why not."""
from __future__ import annotations

from typing import Optional

from jls_tools.dicom.axis.bad_places import outside
from jls_tools.dicom.copies.given import Given
from jls_tools.dicom.evidence.borders import goes_on_nowhere
from jls_tools.dicom.evidence.denials import contradiction, forbidden
from jls_tools.dicom.evidence.doubtful import change_at, ends_before, hole_in_text, lost_in_each, lost_in_most, stands_twice
from jls_tools.dicom.evidence.header import Header
from jls_tools.dicom.evidence.hidden_bits import hidden_at
from jls_tools.dicom.evidence.otherwise import stands_otherwise
from jls_tools.dicom.evidence.uids import stands_against
from jls_tools.dicom.evidence.witnessed import why_odd
from jls_tools.dicom.mended_frames import MendedFrames
from jls_tools.dicom.read.tags import INSTANCE, INSTANCE_IN_META
from jls_tools.dicom.result import NOT_SUPPORTED
from jls_tools.dicom.write.build import put_frames
from jls_tools.dicom.write.finished import faults_of
from jls_tools.frames.codestream import Shape


class Verdict:
    """What forbids status 0: in the header as it was decided, and in the finished file."""

    def __init__(self, given: Given, frames: MendedFrames, header: Header, shape: Optional[Shape]) -> None:
        self.given = given
        self.frames = frames
        self.layout = frames.layout
        self.header = header
        self.shape = shape
        self.data = header.merged()

    def why_not(self) -> Optional[str]:
        """Why the header isn't decided or doesn't read; nothing if it is and does."""
        doubts = {self.given.paths[at]: why for at, why in self.given.instances.doubts.items()}
        if doubts and self.given.options.header not in doubts:
            return next(iter(doubts.values()))
        fault = self.given.versions.fault()
        if fault is not None:
            return fault
        if self.frames.is_alone and self.given.options.header is None:
            return "one copy alone is left, and nothing confirms its header; --header COPY takes it"
        if not self.layout.has_header:
            return "no copy has a header that leads to Pixel Data"
        if self.header.is_open:
            return "a place is undecided"
        if not self.is_named and self.is_of_series():
            return "a copy has the UID of another file of the series, and most copies can be of that one"
        if any(not self.is_in_pixels(begin, end) for begin, end in self.layout.breaks):
            return "the header is broken where no copy has it"
        fault = self.doubtful() if self.given.options.header is None else None
        if fault is not None:
            return fault
        if (bad := outside(self.frames.bad_in_all, self.frames.fragments())) and self.given.options.header is None:
            return f"a list names what stands at {bad[0][0]} as bad in each copy"
        if self.layout.structure.is_cut:
            return "the file ends before its last element does"
        if not self.given.tails.is_decided:
            return "what stands after the last element is not in all copies, and no copy that reads whole lacks it"
        for odd in (frame.result for frame in self.frames.mended if frame.result.kind == NOT_SUPPORTED):
            return f"frame {odd.number} is {NOT_SUPPORTED}: {odd.note}"
        fault = contradiction(self.header, self.shape, len(self.frames.mended))
        return fault if fault or self.given.options.header is not None else forbidden(self.header)

    def is_of_series(self) -> bool:
        """Whether a copy has the UID of another file of the series, where the header says one in both places."""
        uid = self.header.text(INSTANCE)
        elements = [self.header.elements[tag] for tag in (INSTANCE_IN_META, INSTANCE) if tag in self.header.elements]
        is_said = uid is not None and uid == self.header.text(INSTANCE_IN_META)
        return is_said and stands_against(self.frames.copies, uid or "", elements, bytes(self.data))

    def doubtful(self) -> Optional[str]:
        """Damage of the header that shows by itself, and that no copy contradicts."""
        data = bytes(self.data)
        at = lost_in_each(self.frames.copies, self.frames.fragments(), data)
        if at is not None:
            return f"a sector at {at} looks lost in each copy"
        at = hole_in_text(self.header.places(), data)
        if at is not None:
            return f"a text has a hole at {at}, and one copy alone has it"
        at = lost_in_most(self.frames.copies)
        if at is not None:
            return f"most copies lack the same bytes at {at}"
        at = ends_before(self.frames.copies, self.layout.structure.end_of_pixels())
        if at is not None:
            return f"a copy has the end of Pixel Data before {at}, where others go on"
        at = hidden_at(self.header, data)
        if at is not None:
            return f"a bit of a copy is stuck at {at}, and no other copy has this byte"
        whole = self.with_frames()
        at = stands_twice(self.header, whole)
        if at is not None:
            return f"the sector at {at} stands elsewhere in the file too"
        at = stands_otherwise(self.header, whole)
        if at is not None:
            return f"a copy has the sector at {at} elsewhere, with other bytes"
        at = goes_on_nowhere(self.frames.copies, data, list(self.header.outside(0, len(data))))
        if at is not None:
            return f"one copy alone has the sector at {at}, and over its borders no text goes on so elsewhere"
        at = change_at(self.header)
        return None if at is None else f"damage of two copies has to touch at {at}, inside of a sector"

    def with_frames(self) -> bytes:
        """The file with the frames that are whole in their places; others are as the first copy has them."""
        data, copies = bytearray(self.data), self.frames.copies
        for place, frame in zip(self.layout.places, self.frames.mended):
            if frame.is_whole and frame.stream is not None:
                put_frames(data, [place], [frame.stream], copies)
        return bytes(data)

    def is_in_pixels(self, begin: int, end: int) -> bool:
        structure = self.layout.structure
        pixels = structure.pixel_data
        return pixels is not None and pixels.value <= begin and end <= structure.end_of_pixels()

    def fault_of(self, data: bytes) -> Optional[str]:
        """What forbids status 0 in the finished file. What every copy has is its writer's: that is noted."""
        moved = len(data) - len(self.data)
        if self.frames.is_witnessed and (odd := why_odd(data, len(self.frames.mended), moved)) is not None:
            return odd
        for fault in faults_of(data, len(self.frames.mended)):
            can_be_writers = fault.can_be_writers and (not fault.is_unlikely or self.is_named)
            if not (can_be_writers and all(self.is_in_all(*part, moved) for part in fault.ranges)):
                return fault.text
            self.given.result.notes.append(f"{fault.text}: every copy has it so")
        if tail := self.given.tails.ways[0]:
            if tail.strip(tail[:1]) and self.given.options.header is None:
                return f"{len(tail)} bytes stand after the last element of every copy, and are no padding"
            self.given.result.notes.append(f"{len(tail)} bytes stand after the last element: every copy has them")
        return None

    @property
    def is_named(self) -> bool:
        """Whether the caller says which header is the file's, or that the copies are of one instance."""
        return self.given.options.same or self.given.options.header is not None

    def is_in_all(self, begin: int, end: int, moved: int) -> bool:
        """Whether each copy has the bytes of this range of the finished file. What follows Pixel Data can have been moved."""
        if self.frames.is_witnessed:  # one copy alone is no two that have a fault
            return False
        shift = moved if begin >= self.layout.structure.end_of_pixels() + moved else 0
        begin, end = begin - shift, end - shift
        is_bad = any(first < end and begin < last for copy in self.frames.copies for first, last in [*copy.absent, *copy.bad])
        return not is_bad and len({copy.data[begin:end] for copy in self.frames.copies}) == 1
