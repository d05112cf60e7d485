"""report.html: one page without outside parts, of the paths that aren't whole and of mended ones; and the summary on the terminal."""
from __future__ import annotations

import html
import json
import os
from typing import Any, Iterator, List, Optional
from urllib.parse import quote

from jls_tools.archive import page_parts
from jls_tools.archive.places import Places
from jls_tools.archive.rows import Row
from jls_tools.archive.totals import Most, Totals
from jls_tools.file_names import printable

# Rows that a page has: with more of them a browser takes long. All are in pictures.csv
MOST_LOST, MOST_MENDED, MOST_DRAWN = 8000, 2000, 2000
MENDED = ("mended", "joined")
WORDS = ("file", "not promised", "lines", "frames", "log")  # of links, in their order; copies come last


def percent(share: Optional[float]) -> Optional[str]:
    """With one decimal, so that neither a small loss is shown as none nor a small rest as nothing."""
    if share is None:
        return None
    if 0 < share < 0.001:
        return "0.1 %"
    return f"{99.9 if 0.999 < share < 1 else 100 * share:.1f} %"


class Page:
    """The rows of the page, of those that pass by: what lost most first, then what was mended."""

    def __init__(self, places: Places) -> None:
        self.places = places
        self.bases = {root: quoted(os.path.relpath(folder, places.report)) for root, folder in places.roots.items()}
        self.lost = Most(MOST_LOST, self.data_of)
        self.mended = Most(MOST_MENDED, self.data_of)

    def add(self, row: Row) -> None:
        if row.status:
            self.lost.add(row)
        elif row.result in MENDED:
            self.mended.add(row)

    def data_of(self, row: Row) -> str:
        """A row as the script reads it: COLUMNS of page_parts, then the links, the thumbnail and where bytes are bad."""
        shown = printable
        cells = [shown(row.path), row.kind, row.result, row.copies, row.frames, row.settled, row.missing, row.disputed, row.loss]
        cells += [row.decided, row.one_copy, row.versions, row.sum, shown(row.note), shown(row.patient), shown(row.study)]
        return json.dumps([*cells, self.links_of(row), row.thumbnail, row.bad], separators=(",", ":")).replace("</", "<\\/")

    def links_of(self, row: Row) -> List[Any]:
        """[what it is, where it stands] of the files that were written."""
        known = [(root, name) for root, name in row.outputs if root in self.bases]
        found = [[word_for(root, name, row.path), f"{self.bases[root]}/{quoted(name)}"] for root, name in known]
        return sorted(found, key=lambda link: WORDS.index(link[0]) if link[0] in WORDS else len(WORDS))

    def parts(self, totals: Totals) -> Iterator[str]:
        """The text of the page."""
        name = html.escape(printable(os.path.basename(self.places.out)))
        yield page_parts.HEAD.format(title=f"{name}: what came back")
        numbers = "".join(f"<div><dt>{title}</dt><dd>{count:,}</dd></div>" for title, count in totals.counts().items())
        yield f"<style>{page_parts.STYLE}</style></head>\n<body><h1>{name}: what came back</h1><dl>{numbers}</dl>\n"
        yield f'<table class="small"><tbody>\n{"".join(map(self.result_line, totals.results()))}</tbody></table>\n'
        told = [*self.lost.made(), *self.mended.made()]
        if not told:
            yield "<p>All is whole, and nothing had to be mended.</p></body></html>\n"
            return
        if len(told) < self.lost.seen + self.mended.seen:
            every = self.lost.seen + self.mended.seen
            yield f'<p class="part">{len(told):,} of {every:,} rows are in this page: those that lost most. All are in pictures.csv.</p>\n'
        yield page_parts.CHOICE
        yield '<script type="application/json" id="data">[\n'
        for number, data in enumerate(told):
            yield ("" if number == 0 else ",\n") + (data if number < MOST_DRAWN else without_thumbnail(data))
        yield f"\n]</script>\n<script>{page_parts.SCRIPT}</script></body></html>\n"

    def result_line(self, result: Any) -> str:
        words, count, is_whole = result
        state = "whole" if is_whole else "not whole"
        shown = html.escape(words)
        has_rows = not is_whole or words in MENDED
        told = f'<button type="button" data-result="{shown}">{shown}</button>' if has_rows else shown
        return f'<tr><td>{told}</td><td class="n">{count:,}</td><td>{state}</td></tr>\n'


def without_thumbnail(data: str) -> str:
    row = json.loads(data)
    row[-2] = ""
    return json.dumps(row, separators=(",", ":")).replace("</", "<\\/")


def quoted(path: str) -> str:
    return quote(os.fsencode(path))


def word_for(root: str, name: str, path: str) -> str:
    """What a link leads to, of a row of this path."""
    if root == "differ":
        return printable(f"copy of {name.partition('/')[0]}") if "/" in name else "copy"
    ending = os.path.splitext(name)[1]
    if root == "out" and (name == path or ending != ".jlsp"):
        return "file"
    return {".log": "log", ".jlsp": "lines", ".frames": "frames"}.get(ending, "not promised")


def summary(totals: Totals, report: str) -> str:
    """What the run came to, in a few lines of text."""
    sums = totals.counts()
    paths = "1 path" if sums["paths"] == 1 else f"{sums['paths']} paths"
    said = [f"{paths}, {sums['pictures']} of them pictures; {sums['whole']} whole, {sums['not whole']} not"]
    said.append("lines: " + ", ".join(f"{sums[f'lines {name}']} {name}" for name in ("settled", "missing", "disputed")))
    for result, count, whole in totals.results():
        said.append(f"{count:7} {result}{'' if whole else ', not whole'}")
    worst: List[Row] = totals.worst.made()
    said += ["most lost:"] if worst else []
    said += [f"{percent(row.loss) or '':>9} {printable(row.path)}" for row in worst]
    said.append(f"see {printable(os.path.join(report, 'report.html'))}")
    return "\n".join(said) + "\n"
