"""The table and the page: of a run that ended, and of one that goes on."""
from __future__ import annotations

import os
import re
from typing import Any, Dict, Iterator, Optional, Tuple

from jls_tools.archive import claim, folders, rows
from jls_tools.archive.ledger import Known, Ledger
from jls_tools.archive.page import MENDED, Page, summary
from jls_tools.archive.places import Places, Refused, alone
from jls_tools.archive.rows import Row
from jls_tools.archive.totals import Totals
from jls_tools.file_names import printable


MOST_USUAL = 10000  # kinds of rows that are kept
# A path that stands in a line of CSV as it is, and the end of a line of a row whose last fields are its inputs and files
PLAIN = re.compile(rb"[ !#-+\--\[\]-~]*\Z")
OUTPUTS_LAST, INPUTS = b"]]}]\n", b', "inputs": "'


class Usual:
    """Rows of an archive that are whole as they were: millions, of few kinds. A kind is read once, and its rows are counted and copied."""

    def __init__(self, totals: Totals, lines: rows.Lines) -> None:
        self.totals = totals
        self.lines = lines
        self.kinds: Dict[bytes, Optional[Tuple[Row, bytes]]] = {}
        self.counts: Dict[bytes, int] = {}

    def take(self, known: Known) -> bool:
        """Counts a row of such a kind and writes its line of the table; false for any other."""
        line = known.lines[-1]
        end = line.find(INPUTS, known.at)
        if end < 0 or not line.endswith(OUTPUTS_LAST) or not PLAIN.match(known.key):
            return False
        fields = line[known.at : end]
        if fields not in self.kinds:
            self.note(fields, known.row())
        kind = self.kinds[fields]
        if kind is None:
            return False
        self.counts[fields] += 1
        self.lines.file.write(known.key + kind[1])
        return True

    def note(self, fields: bytes, row: Optional[Row]) -> None:
        """Notes a kind by one of its rows."""
        if len(self.kinds) >= MOST_USUAL:
            self.end()
        if row is None or row.status or row.result in MENDED:
            self.kinds[fields] = None
            return
        row.path = ""
        self.kinds[fields] = row, self.lines.of(row)
        self.counts[fields] = 0

    def end(self) -> None:
        """Counts the rows of all kinds."""
        for fields, count in self.counts.items():
            kind = self.kinds[fields]
            if kind and count:
                self.totals.add(kind[0], count)
        self.kinds, self.counts = {}, {}


def write(places: Places, store: Any) -> Totals:
    """Writes the table and the page of all rows that are there, and answers what they come to."""
    totals, page = Totals(), Page(places)
    # one at a time, so that no older table comes last
    with alone(places):
        with rows.written_whole(os.path.join(places.report, "pictures.csv")) as file:
            lines = rows.Lines(file)
            lines.head()
            for row in unusual(store, places.report, Usual(totals, lines)):
                totals.add(row)
                page.add(row)
                lines.add(row)
        with rows.written_whole(os.path.join(places.report, "report.html")) as file:
            for part in page.parts(totals):
                file.write(part.encode("utf-8", "replace"))
    return totals


def unusual(store: Any, folder: str, usual: Usual) -> Iterator[Row]:
    """The rows of trees that are of no usual kind, or all of folders."""
    if not isinstance(store, Ledger):
        yield from store.all()
        return
    for known in store.rows(folder):
        if not usual.take(known):
            row = known.row()
            if row:
                yield row
    usual.end()


def print_summary(totals: Totals, out: str, places: Places) -> None:
    """Prints what the rows come to. OUT is named as the person did."""
    named = out.rstrip("/") or out
    print(summary(totals, named if places.report == places.out else f"{named}.report"), end="")


def made_before(out: str) -> Tuple[Places, Any]:
    """(places, store) of a folder that a run of jls-archive made."""
    true, folder_store = os.path.realpath(out), folders.FolderStore
    of_trees, of_folders = Places(true), Places(true, report=true)
    if os.path.isfile(claim.mark_of(of_trees)):
        return of_trees, Ledger(os.path.join(of_trees.report, "rows"))
    if os.path.isfile(claim.mark_of(of_folders)):
        return of_folders, folder_store(true)
    raise Refused(f"no run of jls-archive made {printable(out)}")


def anew(options: Any) -> int:
    """Makes the table and the page of OUT anew; the trees are not read. The status is that of a run."""
    places, store = made_before(options.out)
    totals = write(places, store)
    if not options.quiet:
        print_summary(totals, options.out, places)
    return 1 if totals.not_whole else 0
