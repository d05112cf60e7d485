"""The copies of a call as they are given, and what is done to each before they are laid side by side."""
from __future__ import annotations

import os
from collections.abc import Sequence
from typing import Optional

from jls_tools.dicom.axis.align import Copy, merged
from jls_tools.dicom.axis.bad_lists import BadList, of_copy
from jls_tools.dicom.axis.bad_places import Range, clipped, seen
from jls_tools.dicom.axis.leads import leads
from jls_tools.dicom.axis.tails import without_tails
from jls_tools.dicom.axis.transfers import moved, undone
from jls_tools.dicom.copies.codings import codings_of
from jls_tools.dicom.copies.codings import moved as moved_to_coding
from jls_tools.dicom.copies.instance import Instances, TwoInstances
from jls_tools.dicom.copies.kinds import NoKind, other_kinds
from jls_tools.dicom.copies.versions import versions_of
from jls_tools.dicom.copies.witness import Witness, can_be, check_beside, witness_of
from jls_tools.dicom.read.plain import Unread
from jls_tools.dicom.result import MendOptions, MendResult, Refused, Unsupported
from jls_tools.programs import Programs


def read(path: str) -> bytes:
    with open(path, "rb") as file:
        return file.read()


class Given:
    """Copies of one instance, with one header and on one coding: their bytes, and what is bad in each. The result says what was done."""

    def __init__(self, paths: Sequence[str], options: MendOptions, programs: Programs, result: MendResult) -> None:
        self.paths = list(paths)
        self.options = options
        self.programs = programs
        self.result = result
        self.texts = [read(path) for path in paths]
        self.bad = self.named_as_bad()
        repeated = self.leave_out_repeated()
        self.is_one = len(self.paths) == 1
        self.look_at_kinds()
        try:
            self.instances = Instances(self.texts, options.same)
        except TwoInstances as fault:
            raise Refused(f"{fault}; --same takes them as copies of one") from fault
        self.witnesses = [each for each in map(self.as_witness, self.uncompressed) if each is not None]
        result.left_out[:0] = repeated
        result.left_out += [(self.paths[at], why) for at, why in sorted(self.instances.left_out.items())]
        self.look_at_versions()

    def named_as_bad(self) -> list[list[Range]]:
        """For each copy what lists name as bad in it."""
        found: list[list[Range]] = [[] for _ in self.paths]
        for at, places in self.options.bad_ranges:
            found[at] = clipped(places, 0, len(self.texts[at]))
        for at, path in self.options.bad:
            try:
                ranges, behind = of_copy(path, len(self.texts[at]))
            except BadList as fault:
                raise Refused(str(fault)) from fault
            found[at] = merged([*found[at], *ranges])
            if behind:
                count = "a place" if behind == 1 else f"{behind} places"
                self.result.notes.append(f"{path} names {count} behind the end of {self.paths[at]}, which has {len(self.texts[at])} bytes")
        return found

    def leave_out_repeated(self) -> list[tuple[str, str]]:
        """Takes each file once, also where links name it, as it says nothing more the second time. Answers the others, and why."""
        first: dict[tuple[int, int], int] = {}
        left_out: dict[int, str] = {}
        for at, path in sorted(enumerate(self.paths), key=lambda each: (each[1] != self.options.header, each[0])):
            seen = os.stat(path)
            kept = first.setdefault((seen.st_dev, seen.st_ino), at)
            if kept != at:
                self.bad[kept] = merged([*self.bad[kept], *self.bad[at]])
                left_out[at] = f"it is the file {self.paths[kept]} again"
        repeated = [(self.paths[at], why) for at, why in sorted(left_out.items())]
        self.paths = [path for at, path in enumerate(self.paths) if at not in left_out]
        self.texts = [text for at, text in enumerate(self.texts) if at not in left_out]
        self.bad = [ranges for at, ranges in enumerate(self.bad) if at not in left_out]
        return repeated

    def look_at_kinds(self) -> None:
        """Leaves out copies of another transfer syntax, undoes transfers as text, cuts tails. Refuses what has no DICOM file of JPEG-LS."""
        self.cut_leads()
        try:
            others = other_kinds(self.paths, self.texts)
        except NoKind as fault:
            raise (Unsupported if fault.is_other else Refused)(str(fault)) from fault
        self.result.left_out = [(self.paths[at], why) for at, why in sorted(others.items())]
        self.uncompressed = [(self.paths[at], self.texts[at]) for at in sorted(others) if can_be(self.texts[at])]
        self.paths = [path for at, path in enumerate(self.paths) if at not in others]
        self.bad = [ranges for at, ranges in enumerate(self.bad) if at not in others]
        texts = [text for at, text in enumerate(self.texts) if at not in others]
        for at, text in undone(texts).items():
            self.bad[at] = moved(self.bad[at], texts[at])
            texts[at] = text
            self.result.notes.append(f"a transfer put a carriage return before each line feed of {self.paths[at]}: that was undone")
        self.seen = [seen(text) for text in texts]
        self.tails = without_tails(self.in_one_coding(texts))
        self.texts = self.tails.texts

    def as_witness(self, copy: tuple[str, bytes]) -> Optional[Witness]:
        """A copy that is not compressed, as a witness; nothing, and why, if it can be none."""
        path, text = copy
        kind = next(why for other, why in self.result.left_out if other == path)
        self.result.left_out.remove((path, kind))
        try:
            witness = witness_of(path, text)
            check_beside(witness, self.texts, self.instances.uid, self.options.same)
        except Unread as why:
            self.result.left_out.append((path, f"{kind}, and is no witness: {why}"))
            return None
        self.result.notes.append(f"{path} is a witness, {witness.name}: what it says counts where the other copies confirm it")
        return witness

    def cut_leads(self) -> None:
        """Cuts what stands before the preamble of a copy, where another one shows that it is no part of the file."""
        for at, size in leads(self.texts).items():
            bad = clipped(self.bad[at], size, len(self.texts[at]))
            self.bad[at] = [(begin - size, end - size) for begin, end in bad]
            self.texts[at] = self.texts[at][size:]
            self.result.notes.append(f"{size} bytes before the preamble are no part of the file: they were cut from {self.paths[at]}")

    def in_one_coding(self, texts: list[bytes]) -> list[bytes]:
        """The copies, those of other codings with the Pixel Data of one that stands."""
        wanted = (self.options.stands, self.options.header)
        stands, named = (next((at for at, path in enumerate(self.paths) if path == each), None) for each in wanted)
        self.codings = codings_of(texts, self.options.same, (stands, named), self.programs.reads)
        self.result.other_codings = [[self.paths[at] for at in group] for group in self.codings.further]
        for known in (self.bad, self.seen):
            known[:] = [moved_to_coding(ranges, texts[at], self.codings, at) for at, ranges in enumerate(known)]
        return self.codings.texts

    def look_at_versions(self) -> None:
        """Gives all copies one header, where those of several read whole and have other lengths."""
        certain = [at for at in self.instances.certain if at not in self.instances.rests]
        named = next((at for at, path in enumerate(self.paths) if path == self.options.header), None)
        self.versions = versions_of(self.texts, certain, named)
        texts = self.versions.texts(self.texts, certain)
        for at, (before, text) in enumerate(zip(self.texts, texts)):
            if text != before:
                self.bad[at], self.seen[at] = (self.versions.moved(ranges, before) for ranges in (self.bad[at], self.seen[at]))
                if at in self.codings.absent:
                    self.codings.absent[at] = self.versions.moved(self.codings.absent[at], before)
        self.texts = texts

    def copy_at(self, at: int) -> Copy:
        """A copy. One whose beginning a foreign file has overwritten has only the rest."""
        text, known = self.texts[at], (self.bad[at], self.seen[at])
        recoded = clipped(self.codings.absent.get(at, []), 0, len(text))
        if at not in self.instances.rests:
            return Copy(self.paths[at], text, recoded, b"", *known, recoded)
        until, beside = self.instances.rests[at]
        absent = merged([(0, until), *recoded])
        return Copy(self.paths[at], self.texts[beside][:until] + text[until:], absent, text[:until], *known, recoded)
