"""Files of which lists name bad places: bytes that are bad in one copy are taken from another, where all copies have one length."""
from __future__ import annotations

import shutil
from typing import List, Sequence

from jls_tools.archive import pictures
from jls_tools.archive.bad_cells import LARGEST, Range
from jls_tools.archive.desk import Copy, Desk
from jls_tools.archive.rows import PICTURES, Row
from jls_tools.dicom.axis import bad_places
from jls_tools.dicom.axis.align import Copy as OnAxis
from jls_tools.dicom.axis.placed import placed

BAD_PLACES = "bad places"


def bad_in_all(copies: Sequence[Copy]) -> List[Range]:
    return list(bad_places.in_all([copy.bad for copy in copies]))


def tell(row: Row, copies: Sequence[Copy]) -> Row:
    """The row of equal copies. What lists name as bad in each of them is no file that one can trust."""
    bad = bad_in_all(copies)
    if not bad:
        return row
    note = f"lists name what stands at {bad[0][0]} as bad in each copy"
    return row.end(BAD_PLACES if row.result in ("copied", "reads") else row.result, 1, note)


def text_of(copy: Copy) -> bytes:
    if copy.data is not None:
        return copy.data
    with open(copy.path, "rb") as file:
        return file.read(LARGEST + 1)


def fill(desk: Desk, copies: Sequence[Copy]) -> bool:
    """Fills the bad places of copies from others. Whether all are one file then, without a bad place."""
    if not any(copy.bad for copy in copies):
        return False
    texts = [text_of(copy) for copy in copies]
    if len(set(map(len, texts))) > 1 or len(texts[0]) > LARGEST:
        return False
    filled = placed([OnAxis(copy.path, text, bad=copy.bad) for copy, text in zip(copies, texts)])
    for copy, text in zip(copies, filled):
        copy.filled = desk.place(desk.name("filled"))
        with open(copy.filled, "xb") as file:
            file.write(text.data)
    return len({text.data for text in filled}) == 1 and not bad_in_all(copies)


def take(desk: Desk, row: Row, copies: Sequence[Copy]) -> Row:
    """The file that all copies are where lists don't name them as bad. The row says what is read of it, if it is a picture."""
    name, model = desk.name("mended"), copies[0]
    shutil.copyfile(model.filled, desk.place(name))
    if desk.judge(row, desk.place(name)) is False:
        row.say("what the lists leave is not the file of the sum")
        return desk.set_aside(row, copies)
    if row.kind in PICTURES:
        pictures.look(desk, row, Copy(model.tree, desk.place(name), {}))
    row.say("bytes that lists name as bad were taken from other copies")
    desk.put(row, name, "out", row.path, model.path)
    return row.end("mended" if row.result in ("", "reads") else row.result, row.status)
