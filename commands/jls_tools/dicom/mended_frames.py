"""Chosen copies on one axis, and each of their frames mended."""
from __future__ import annotations

from collections.abc import Iterator, Sequence
from typing import Optional

from jls_tools.dicom.axis.align import merged
from jls_tools.dicom.axis.bad_places import Range, clipped, in_all, marked, note_of, within
from jls_tools.dicom.axis.placed import in_no_copy
from jls_tools.dicom.axis.seven_bits import sent_of_each
from jls_tools.dicom.axis.stuck import with_bits, without_hidden
from jls_tools.dicom.copies.given import Given
from jls_tools.dicom.evidence.alone import Stranger
from jls_tools.dicom.evidence.sources import sources_of
from jls_tools.dicom.evidence.witnessed import resting, why_denied
from jls_tools.dicom.layout import is_through, laid_out
from jls_tools.dicom.read.elements import DELIMITER
from jls_tools.dicom.result import NOT_SUPPORTED, FrameResult, Unsupported
from jls_tools.dicom.walk.frames import FramePlace, Searched, by_search, paired_by_bytes
from jls_tools.dicom.walk.lost import Lost, equal_in_most, most_of
from jls_tools.dicom.witnessed_frames import WitnessedFrames
from jls_tools.frames.codestream import EOI_AND_PADDING, without_padding
from jls_tools.frames.likeness import is_connected, is_spliced, shares_little
from jls_tools.frames.mending import KEPT, OTHER_STREAM, FrameMender, Mended
from jls_tools.frames.mending_codings import CodingsMender


class MendedFrames:
    """What the frames of chosen copies came to. `is_alone` says that no other copy confirms the header."""

    def __init__(self, given: Given, mender: FrameMender, chosen: Sequence[int], is_alone: bool) -> None:
        """Lays these copies on one axis, finds their way and their frames, and mends each frame."""
        self.given = given
        self.mender = mender
        self.chosen = chosen
        self.is_alone = is_alone
        self.copies, self.layout = laid_out([given.copy_at(at) for at in chosen], given.options.header)
        named = enumerate(zip(given.paths, given.texts))
        self.strange = [Stranger(path, text, at in given.instances.uncertain) for at, (path, text) in named if at not in chosen]
        self.sources = sources_of(self.copies, self.layout.runs, self.layout.structure.ways)
        self.sent = sent_of_each([copy.data for copy in self.copies]) if len(self.copies) > 2 else [[] for _ in self.copies]
        self.own = [self.own_streams(place, [copy.data for copy in self.copies]) for place in self.layout.places]
        filled = self.own
        self.kept: dict[int, list[bytes]] = {}
        self.rivals: dict[int, list[bytes]] = {}  # for each frame what copies have in an item of their own there
        self.searched: list[list[Searched]] = []  # of each frame what a search found
        if self.layout.has_header and is_through(self.layout.structure):
            lost = Lost(self.copies, self.layout)
            texts = without_hidden(self.copies, lost.filled())
            filled = [self.own_streams(place, texts) for place in self.layout.places]
            self.kept = {place.number: lost.of_this_file(place, filled[place.number]) for place in self.layout.places}
            self.rivals = {place.number: lost.other_frames(place) for place in self.layout.places}
        self.streams = [list(dict.fromkeys(own.values())) for own in filled]
        for place in self.layout.places:
            hidden = self.with_hidden_bits(place)
            self.streams[place.number] += hidden
            if hidden and place.number in self.kept:
                self.kept[place.number] += hidden
        if not self.layout.places:
            self.searched = paired_by_bytes(found for at in chosen for found in self.search(at))
            self.streams = [[found.stream for found in group] for group in self.searched]
            self.own = [dict(enumerate(streams)) for streams in self.streams]
        self.bad_in_all, self.seen_in_all = in_no_copy(self.copies), in_no_copy(self.copies, True)
        self.take_others()
        self.witnesses = WitnessedFrames(given.witnesses, mender)
        self.mended: list[Mended] = []
        for number, streams in enumerate(self.streams):
            begin = self.layout.places[number].begin if self.layout.places else 0
            beside = self.beside_bad(self.mended_frame(number, streams, begin), streams)
            self.mended.append(self.witnessed(beside, streams))
            if given.options.progress:
                given.options.progress(number + 1, len(self.streams))
        self.refuse_unsupported()
        self.is_witnessed = is_alone and self.is_confirmed()
        self.is_alone = is_alone and not self.is_witnessed

    def is_confirmed(self) -> bool:
        """Whether a witness confirms the header and the frames of the one copy of JPEG-LS."""
        if len(self.given.paths) > 1 or len(self.chosen) != 1 or not self.layout.is_exact or self.given.tails.ways != [b""]:
            return False
        for witness in self.given.witnesses:
            fault = why_denied(self.given.texts[0], witness, len(self.mended)) or self.witnesses.why_denied(witness, self.mended)
            if fault is None:
                self.given.result.notes += resting(self.given.texts[0], witness)
                return True
            self.given.result.notes.append(f"{witness.path} does not confirm {self.given.paths[0]}: {fault}")
        return False

    def strangers(self) -> list[int]:
        """Of copies whose UIDs don't say what they are: those of which no frame equals, or is spliced with, one of a certain copy."""
        instances, chosen = self.given.instances, self.chosen
        certain = [chosen.index(at) for at in instances.certain if at in chosen]
        if not certain:
            return []
        found = []
        for at in instances.uncertain:
            if at in chosen and not any(self.fits(chosen.index(at), frame, certain) for frame in range(len(self.streams))):
                found.append(at)
        return found

    def fits(self, copy: int, frame: int, certain: Sequence[int]) -> bool:
        own, mended = self.own[frame].get(copy), self.mended[frame]
        others = [self.own[frame][other] for other in certain if other in self.own[frame]]
        if own is None:
            return False
        spliced = mended.stream if mended.is_whole else None
        return any(is_connected(own, other) or spliced is not None and is_spliced(spliced, own, other) for other in others)

    def take_others(self) -> None:
        """Frames of copies in other codings, by number, if as many are there as in the coding that stands."""
        self.others: dict[int, list[bytes]] = {}
        self.paired: dict[int, bool] = {}
        for at in (at for at in self.chosen if at in self.given.codings.others):
            ways = (streams for streams in self.given.codings.others[at] if len(streams) == len(self.layout.places))
            streams = next(ways, None)
            self.paired[at] = streams is not None
            for number, stream in enumerate(streams or []):
                self.others.setdefault(number, []).append(stream)

    def mended_frame(self, number: int, streams: list[bytes], begin: int) -> Mended:
        """A Mended: of all streams, or if it isn't whole of those that are of this file, if these are fewer and it is whole then."""
        place = self.layout.places[number] if self.layout.places else None
        if self.has_rival(number):
            return Mended(FrameResult(number, "disputed", note="other items are as likely here"))
        mended = self.mended_of_one_coding(number, streams, begin, place is not None and place.is_exact)
        stream = mended.stream if mended.is_whole else None
        if stream is not None and any(shares_little(stream, rival) for rival in self.rivals.get(number, ())):
            mended.result.kind, mended.result.note = "disputed", OTHER_STREAM
        if mended.is_unpadded:
            self.kept[number] = without_padding(self.kept.get(number, streams))
        others = self.others.get(number)
        return CodingsMender(self.mender).mend(mended, self.kept.get(number, streams), others) if others else mended

    def has_rival(self, number: int) -> bool:
        """Whether other items are as likely as those of a frame."""
        place = self.layout.places[number] if self.layout.places else None
        rivals = self.layout.structure.has_rival
        return place is not None and place.is_exact and any(rivals(first - 8, last) for first, last in place.fragments)

    def witnessed(self, mended: Mended, streams: list[bytes]) -> Mended:
        """A frame that isn't whole, with what witnesses have of it. Bytes that are bad in all copies confirm nothing."""
        number = mended.result.number
        if not self.layout.places or self.has_rival(number):
            return mended
        bad = within(self.seen_in_all, self.layout.places[number].fragments)
        own = [marked(stream, bad) for stream in self.kept.get(number) or streams]
        return self.witnesses.mend(mended, own, len(self.streams))

    def mended_of_one_coding(self, number: int, streams: list[bytes], begin: int, is_exact: bool) -> Mended:
        mended = self.mended_by_most(number, begin) or self.mender.mend_padded(number, streams, begin, is_exact)
        kept = self.kept.get(number, streams)
        if mended.is_whole or not 0 < len(kept) < len(streams):
            return mended
        other = self.mender.mend_aside(number, kept, begin, KEPT)
        return other if other.is_whole else mended

    def search(self, at: int) -> Iterator[Searched]:
        """The streams of a copy that begin as frames do. A foreign beginning has frames of its own."""
        text, start = self.given.texts[at], self.given.instances.rests.get(at, (0, 0))[0]
        for begin, end in by_search(text[start:]):
            yield Searched(text[start + begin : start + end], at, start + begin, start + end)

    def beside_bad(self, mended: Mended, streams: list[bytes]) -> Mended:
        """A frame as it is mended, or what there is of it beside bytes that are bad in all copies."""
        number = mended.result.number
        if not self.layout.places:
            known = [(found.copy, [(found.begin, found.end)]) for found in self.searched[number]]
            lists = [[within(self.given.bad[at], parts), within(self.given.seen[at], parts)] for at, parts in known]
            bad = in_all([merged([*listed, *seen]) for listed, seen in lists])
            places = [(begin + self.searched[number][0].begin, end) for begin, end in bad]
            is_sure = bool(in_all([listed for listed, _ in lists]))
        else:
            parts = self.layout.places[number].fragments
            bad = within(self.seen_in_all, parts)
            places = [pair for part in parts for pair in clipped(self.seen_in_all, *part)]
            is_sure = bool(within(self.bad_in_all, parts)) and number not in self.others
        return self.mender.mend_beside(mended, self.kept.get(number) or streams, bad, note_of(places), is_sure)

    def mended_by_most(self, number: int, begin: int) -> Optional[Mended]:
        """A Mended of three copies or more: what most of them have, if it is whole; or nothing. One sent with seven bits has no voice."""
        place = self.layout.places[number] if self.layout.places else None
        if place is None or any(copy.lacks(place.begin, place.end) for copy in self.copies if not copy.recoded):
            return None
        own = {copy: stream for copy, stream in self.own[number].items() if not within(self.sent[copy], place.fragments)}
        stream = equal_in_most(own, self.copies, self.layout.put_in, self.sources) or most_of(list(own.values()))
        mended = self.mender.mend(number, [stream], begin) if stream is not None else None
        return mended if mended and mended.is_whole else None

    def own_streams(self, place: FramePlace, texts: Sequence[bytes]) -> dict[int, bytes]:
        """{copy: its stream of a frame}, of copies that have some of it. `texts` are the bytes of the copies."""
        found = {}
        for number, copy in enumerate(self.copies):
            if any(copy.has_only(begin, end).strip(b"\0") for begin, end in place.fragments):
                found[number] = place.stream(texts[number])
        if not place.is_exact:  # an item that seems to go on beyond the file has what ends Pixel Data too
            found = {number: stream.removesuffix(DELIMITER) for number, stream in found.items()}
        if any(stream.endswith(EOI_AND_PADDING) for stream in found.values()):
            found = {number: stream[:-1] if len(stream) == place.size else stream for number, stream in found.items()}
        return found

    def with_hidden_bits(self, place: FramePlace) -> list[bytes]:
        """The streams of copies in which a stuck bit hides what a frame has, each with the other bits: one of both can read, or both."""
        hidden = [[each for each in copy.hidden if any(begin <= each[0] < end for begin, end in place.fragments)] for copy in self.copies]
        own = self.own_streams(place, [with_bits(copy.data, bits) for copy, bits in zip(self.copies, hidden)])
        return [own[number] for number in own if hidden[number]]

    def refuse_unsupported(self) -> None:
        """Refuses a file of which no line came back, and whose frames have a coding that isn't read."""
        results = [frame.result for frame in self.mended]
        names = sorted({result.note for result in results if result.kind == NOT_SUPPORTED})
        if names and not any(result.settled or result.disputed for result in results):
            raise Unsupported(f"{self.copies[0].path}: {NOT_SUPPORTED}: {', '.join(names)}; dcmdjpls of DCMTK can read it")

    def fragments(self) -> list[Range]:
        return [fragment for place in self.layout.places for fragment in place.fragments]
