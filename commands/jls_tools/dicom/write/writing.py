"""What comes of mended frames: OUT, or a folder of those that came back, and what is said of both."""
from __future__ import annotations

import hashlib
import os
import shutil
from typing import Optional

from jls_tools.dicom.axis.placed import alone
from jls_tools.dicom.copies.given import Given
from jls_tools.dicom.evidence.denials import has_shape, shape_said
from jls_tools.dicom.evidence.witnessed import by_witnesses
from jls_tools.dicom.mended_frames import MendedFrames
from jls_tools.dicom.read.tags import CHARACTER_SET
from jls_tools.dicom.result import NOT_WHOLE, WHOLE, Refused
from jls_tools.dicom.write.build import packed, put_frames, store
from jls_tools.dicom.write.by_sum import BySum
from jls_tools.dicom.write.filled import filled_file
from jls_tools.dicom.write.outputs import FRAMES, put_frames_folder, take_away
from jls_tools.dicom.write.verdict import Verdict
from jls_tools.frames.mending import shapes_of


class Writing:
    """Decides the header, and writes what may be written."""

    def __init__(self, out: str, given: Given, frames: MendedFrames) -> None:
        self.out = out
        self.place_of_frames = f"{out}{FRAMES}"
        self.given = given
        self.options = given.options
        self.result = given.result
        self.frames = frames
        self.layout = frames.layout
        self.folder = frames.mender.folder

    def write(self) -> None:
        """All that comes of the frames."""
        self.shape = shapes_of(self.frames.mended, self.frames.streams)
        self.name_counts()
        self.header = self.layout.header(self.shape, len(self.frames.mended))
        by_witnesses(self.header, self.given.witnesses)
        if not self.given.is_one and not self.frames.is_witnessed:
            self.header.find_alone(self.frames.strange)
        if self.options.header is not None:
            names = [copy.path for copy in self.frames.copies]
            if self.options.header not in names:
                raise Refused(f"--header names {self.options.header}, which was left out", NOT_WHOLE)
            self.header.by_copy(names.index(self.options.header))
        self.deny_other_shapes()
        self.result.frames = [frame.result for frame in self.frames.mended]
        self.note_codings()
        self.note_breaks()
        self.verdict = Verdict(self.given, self.frames, self.header, self.shape)
        self.data = self.verdict.data
        if self.options.sha256 is not None:
            self.by_sum(self.options.sha256.lower())
        else:
            self.without_sum()
        self.result.places = self.header.places()
        self.result.characters = self.header.text(CHARACTER_SET) or ""
        self.result.versions = self.given.versions.told(self.given.paths)

    def deny_other_shapes(self) -> None:
        """A frame of another shape than the header says is of another file, if most bytes of codestreams are of the header's."""
        said = shape_said(self.header)
        sizes: dict[Optional[bool], int] = {True: 0, False: 0, None: 0}
        for stream in (stream for streams in self.frames.streams for stream in streams):
            sizes[has_shape(stream, said)] += len(stream)
        for frame in self.frames.mended if sizes[True] > sizes[False] else ():
            if frame.is_whole and frame.stream is not None and has_shape(frame.stream, said) is False:
                frame.result.kind, frame.result.note = "disputed", "it has another shape than the header says"

    def name_counts(self) -> None:
        """A frame of which there is nothing has as many lines missing as the others have."""
        for frame in self.frames.mended:
            result = frame.result
            if result.kind == "missing" and result.missing == 0 and self.shape:
                result.missing = self.shape.rows * self.shape.components

    def note_codings(self) -> None:
        """Says which copies are in another coding than that of OUT."""
        for at, is_paired in self.frames.paired.items():
            model = self.given.paths[self.given.codings.stands if self.given.codings.stands is not None else at]
            rest = "" if is_paired else ", and can't be paired with them: their lines don't count"
            self.result.notes.append(f"the frames of {self.given.paths[at]} are in another coding than those of {model}{rest}")

    def note_breaks(self) -> None:
        for number, ranges in alone(self.frames.copies, self.frames.fragments()).items():
            size, path = sum(end - begin for begin, end in ranges), self.frames.copies[number].path
            self.result.notes.append(f"{size} bytes outside of frames, the first at {ranges[0][0]}, rest on {path}: others are bad there")
        for copy in self.frames.copies:
            for at, count in copy.stuck:
                self.result.notes.append(f"a bit of {copy.path} is stuck in the page at {at}: {count} bytes rest on the other copies")
            if copy.hidden:
                what = "a byte there is" if len(copy.hidden) == 1 else f"{len(copy.hidden)} bytes there are"
                self.result.notes.append(f"{what} in no other copy: each can have the other bit")
        for path, at, size in self.layout.put_in:
            what, them = (f"1 byte at {at} of {path} is", "it") if size == 1 else (f"{size} bytes at {at} of {path} are", "them")
            self.result.notes.append(f"{what} no part of the file: elements and items go on only without {them}")
        for begin, end in self.layout.breaks:
            self.result.notes.append(f"no copy has what stands at {begin}: the next that reads is at {end}")
        if self.layout.structure.is_cut:
            self.result.notes.append("the file ends before its last element does")

    def all_whole(self) -> bool:
        return all(frame.is_whole for frame in self.frames.mended)

    def without_sum(self) -> None:
        if self.given.tails.cut:
            names = ", ".join(self.given.paths[at] for at in self.given.tails.cut)
            self.result.notes.append(f"bytes after the last element are no part of the file: they were cut from {names}")
        fault = self.verdict.why_not()
        if fault is None and self.all_whole():
            self.write_whole([frame.stream for frame in self.frames.mended if frame.stream is not None])
        elif fault is None and self.options.with_gaps is not None:
            self.store(filled_file(self.frames, self.shape, self.data, self.options.with_gaps), NOT_WHOLE)
        else:
            self.result.is_short_of_frames = fault is None
            if fault is not None:
                self.result.notes = [*(note for note in self.result.notes if note != fault), f"OUT is not written: {fault}"]
            self.write_frames()

    def write_whole(self, streams: list[bytes]) -> None:
        placed = bytearray(self.data)
        self.result.in_place = self.layout.is_exact and put_frames(placed, self.layout.places, streams, self.frames.copies)
        data = bytes(placed) if self.result.in_place else packed(self.data, self.layout.structure, streams)
        self.result.is_guessed = self.header.is_guessed
        fault = self.verdict.fault_of(data)
        if fault is None:
            self.note_rest()
            self.store(data + self.given.tails.ways[0], WHOLE)
        else:
            self.result.notes.append(f"OUT is not written: {fault}")
            self.write_frames()

    def note_rest(self) -> None:
        """Says how many places nothing but one copy tells."""
        count = sum(place.taken is not None and len(place.values[place.taken][0]) == 1 for place in self.header.places())
        if count:
            what = "a place rests" if count == 1 else f"{count} places rest"
            self.result.notes.append(f"{what} on one copy: only a checksum can tell if it is true")

    def store(self, data: bytes, status: int) -> None:
        store(data, self.out, self.folder)
        take_away(self.place_of_frames, self.folder)
        self.result.written, self.result.status = True, status
        self.result.sha256 = hashlib.sha256(data).hexdigest()

    def by_sum(self, wanted: str) -> None:
        """Tries what is open, until the file has the sum that is given."""
        heads = self.given.versions.heads()
        by_sum = BySum(self.layout, self.header, self.frames.copies, self.frames.mended, bytes(self.data), self.given.tails.ways, heads)
        found = by_sum.find(wanted)
        if found is None:
            self.result.notes.append("OUT is not written: no combination of what is open has the SHA-256 that is given")
            self.write_frames()
            return
        self.given.versions.choose(found)
        self.result.matched = self.result.in_place = True
        self.store(found, WHOLE)

    def write_frames(self) -> None:
        """All frames that came back, in a folder."""
        self.result.status = NOT_WHOLE
        kept = [frame for frame in self.frames.mended if frame.is_whole or frame.partial]
        if not kept:
            return
        part = os.path.join(self.folder, "frames")
        os.mkdir(part)
        for frame in kept:
            name = os.path.join(part, f"frame-{frame.result.number:04}")
            if frame.is_whole and frame.stream is not None:
                with open(f"{name}.jls", "wb") as file:
                    file.write(frame.stream)
            elif frame.partial is not None:
                shutil.copyfile(frame.partial, f"{name}.jlsp")
        put_frames_folder(part, self.place_of_frames, self.folder)
        self.result.folder = self.place_of_frames
