"""Joins copies of one picture that may have lost their headers, and mends them where lines are missing then."""
from __future__ import annotations

import os
from typing import Dict, List, Optional, Sequence, Tuple

from jls_tools.archive import bad_cells, pictures
from jls_tools.archive.desk import Copy, Desk
from jls_tools.archive.rows import Row
from jls_tools.file_names import printable
from jls_tools.programs import Outcome, Splice


class Joining:
    """The copies of one folder. `of` has by shape the names of those that have it, `unread` those that were refused."""

    def __init__(self, desk: Desk, copies: Sequence[Copy]) -> None:
        self.desk = desk
        self.copies = copies
        self.log: List[str] = []
        self.of: Dict[str, List[str]] = {}
        self.files: Dict[str, List[str]] = {}  # by shape: the copies that are no partial pictures
        self.unread: List[str] = []
        self.said: Dict[str, List[str]] = {}  # by name: the lines of `check`
        self.refused = 0
        self.coded: Optional[Splice] = None  # what jls-splice came to of copies in several codings

    def note(self, title: str, outcome: Outcome) -> None:
        self.log.append(f"{title}: status {outcome.status}\n{outcome.printed}{outcome.faults}")

    def look(self) -> None:
        """Checks each copy, under a name of our own."""
        for copy in self.copies:
            name = self.desk.links([copy])[0]
            outcome = self.desk.programs.check(name, self.desk.folder)
            self.note(printable(os.path.basename(copy.path)), outcome)
            with open(copy.path, "rb") as file:
                is_text = file.read(4) == b"JLSP"
            if not outcome.report.shape:
                self.refused += 1
                self.unread += [] if is_text else [name]
                continue
            self.said[name] = outcome.report.lines
            self.of.setdefault(outcome.report.shape, []).append(name)
            self.files.setdefault(outcome.report.shape, []).extend([] if is_text else [name])

    def salvage(self, row: Row, shape: str, spare: List[str]) -> None:
        """The picture of the copies of a shape; if lines are missing, with what jls-splice gets of them and of the spare ones.

        Where jls-splice added to it and never promised the picture, it isn't whole, also if each line is settled.
        """
        joined, files = self.of.get(shape, []), self.files.get(shape, [])
        known, status = self.join(None, joined, 3) if joined else (None, 3)
        splices: List[Splice] = []
        for names in [files, files + spare] if spare else [files]:
            known, status, splice = self.mend(known, status, names)
            splices += [splice] if splice else []
        result = "mended" if splices else "joined"
        if status == 0 and splices and not any(splice.promises for splice in splices):
            status, result = 1, "not promised"
        self.end(row, known, status, result)
        row.bad = self.bad(files) if row.status else ""
        row.say(f"{len(joined)} used, {self.refused} refused")

    def bad(self, names: Sequence[str]) -> str:
        """Where bytes are bad: of several files where they differ, of one what does not decode."""
        places = list(map(self.desk.place, names))
        if not places or max(map(os.path.getsize, places)) > bad_cells.LARGEST:
            return ""
        texts = []
        for place in places:
            with open(place, "rb") as file:
                texts.append(file.read())
        if self.coded:
            return bad_cells.of_edits(self.coded.report.differs, list(map(len, texts)))
        found = bad_cells.of_copies(texts)
        return found if found.strip("0") else bad_cells.of_ranges(bad_cells.ranges_in(texts[0], self.said[names[0]]), len(texts[0]))

    def join(self, known: Optional[str], names: List[str], status: int) -> Tuple[Optional[str], int]:
        """(the partial picture with these joined, the status). It stays as it was if the join is refused."""
        joined = self.desk.name("all")
        outcome = self.desk.programs.join(joined, ([known] if known else []) + names, self.desk.folder)
        self.note("join", outcome)
        if os.path.exists(self.desk.place(joined)):
            return joined, outcome.status
        return known, status if known else outcome.status

    def mend(self, known: Optional[str], status: int, names: List[str]) -> Tuple[Optional[str], int, Optional[Splice]]:
        """(the partial picture, the status, what jls-splice came to if it added to it)"""
        if len(names) < 2 or known and not self.desk.programs.show(known, self.desk.folder).report.missing:
            return known, status, None
        spliced = self.desk.name("spliced")
        outcome = self.desk.programs.splice(spliced, names, None, self.desk.folder, ["--tries", str(self.desk.options.tries)])
        self.note("splice", outcome)
        self.coded = outcome if outcome.report.codings else self.coded
        if not os.path.exists(self.desk.place(spliced)):
            return known, status, None
        return (*self.join(known, [spliced], status), outcome)

    def end(self, row: Row, known: Optional[str], status: int, result: str) -> None:
        """Writes the picture if it is whole, and keeps all that the copies have."""
        desk = self.desk
        if known:
            row.take(desk.programs.show(known, desk.folder).report)
        if status == 0 and known:
            picture = desk.name("picture")
            outcome = desk.programs.write_jls(picture, known, desk.folder)
            self.note("write", outcome)
            status = outcome.status
            if os.path.exists(desk.place(picture)):
                desk.put(row, picture, "out", f"{row.path}.jls")
        if known:
            if row.missing or row.disputed:
                desk.draw(row, known)
            desk.put(row, known, "out", f"{row.path}.jlsp")
        words = pictures.result_of(row, status)
        row.end(result if words == "reads" else words, status)

    def keep_log(self, row: Row) -> None:
        if self.log:
            self.desk.keep_log(row, "".join(self.log), f"{row.path}.log")
