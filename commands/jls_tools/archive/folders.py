"""jls-archive --folders: a picture of each folder of IN, from the copies in it."""
from __future__ import annotations

import hashlib
import os
import stat
from typing import Any, Dict, Iterator, List, Optional, Sequence, Tuple

from jls_tools.archive import claim, dicom_files, places, trees
from jls_tools.archive.desk import Copy, Desk
from jls_tools.archive.item import not_followed, special
from jls_tools.archive.joining import Joining
from jls_tools.archive.rows import CANNOT_BE_READ, Row, Store
from jls_tools.dicom.read.elements import begins_as_dicom
from jls_tools.programs import ProgramFailed, Programs

ENDINGS = (".jls", ".jlsp")
BESIDE = "./"  # begins the path of what stands beside the folders
IN_NO_FOLDER = "in no folder"


class FolderStore(Store):
    """The row of NAME is OUT/NAME.row, and that of what stands beside the folders OUT/.SUM.row: a folder can have a row of its name."""

    def file_of(self, path: str) -> str:
        name = "." + hashlib.sha256(os.fsencode(path)).hexdigest()[:40] if path.startswith(BESIDE) else path
        return os.path.join(self.folder, f"{name}.row")

    def files(self) -> Iterator[str]:
        for name in os.listdir(self.folder):
            if name.endswith(".row"):
                yield os.path.join(self.folder, name)

    def beside(self) -> Iterator[str]:
        """The paths of what stood beside the folders."""
        hidden = (file for file in self.files() if os.path.basename(file).startswith("."))
        for row in filter(None, map(self.load, hidden)):
            if row.path.startswith(BESIDE):
                yield row.path


def sorts_of(folder: str) -> Tuple[List[str], List[str], int]:
    """The copies of pictures in a folder, the DICOM files in it, and how many other files there are. Links are not followed."""
    pictures: List[str] = []
    dicom: List[str] = []
    other = 0
    for entry in sorted(os.scandir(folder), key=lambda entry: os.fsencode(entry.name)):
        if not entry.is_file(follow_symlinks=False):
            other += 1
            continue
        ending = os.path.splitext(entry.name)[1].lower()
        if ending in ENDINGS:
            pictures.append(entry.path)
        elif ending == ".dcm" or begins_as_dicom(entry.path):
            dicom.append(entry.path)
        else:
            other += 1
    # partial pictures last
    pictures.sort(key=lambda path: path.lower().endswith(".jlsp"))
    return pictures, dicom, other


def inputs_of(desk: Desk, folder: str) -> str:
    """A text that changes if a file of the folder does, or a choice of the call."""
    parts = [f"tries {desk.options.tries}"]
    for entry in sorted(os.scandir(folder), key=lambda entry: os.fsencode(entry.name)):
        seen = entry.stat(follow_symlinks=False)
        parts.append(f"{seen.st_size} {seen.st_mtime_ns} {entry.path}")
    return "\n".join(parts)


def row_beside(path: str, place: str) -> Row:
    """The row of a file, a link or a pipe that stands beside the folders."""
    row, mode = Row(path, copies=1), os.lstat(place).st_mode
    if stat.S_ISLNK(mode):
        row.kind = "link"
        return row.end(IN_NO_FOLDER, 1, not_followed([os.readlink(place)]))
    if stat.S_ISREG(mode):
        return row.end(IN_NO_FOLDER, 1, "it stands beside the folders, and is not taken")
    return special(row)


def name_of_shape(name: str, shape: str) -> str:
    """The name of the picture of copies that have another shape than most."""
    return f"{name}.{shape.replace(' bits, components ', '-').replace(', ', '-').replace(',', '-')}"


def most(shapes: Dict[str, List[str]]) -> str:
    """The shape of most copies; of several the first."""
    return max(shapes, key=lambda shape: len(shapes[shape]))


def picture_rows(desk: Desk, name: str, copies: Sequence[str]) -> List[Row]:
    """A row for each shape that the copies have, that of most of them first."""
    joining = Joining(desk, [Copy(0, path, {}) for path in copies])
    joining.look()
    rows = []
    main = most(joining.of) if joining.of else ""
    for shape in sorted(joining.of, key=lambda shape: shape != main) or [""]:
        row = Row(name if shape == main else name_of_shape(name, shape), "jls", len(copies))
        joining.salvage(row, shape, joining.unread if shape == main else [])
        rows.append(row)
    joining.keep_log(rows[0])
    return rows


def dicom_row(desk: Desk, name: str, paths: Sequence[str]) -> Row:
    """The row of the DICOM files of a folder, which are mended together."""
    row = Row(f"{name}.dcm", "dicom", len(paths))
    dicom_files.mend(desk, row, [Copy(0, path, {}) for path in paths])
    return row


class Folders:
    """The work on folders: each item is the name of one."""

    def __init__(self, options: Any, programs: Programs) -> None:
        self.options = options
        self.source = claim.folder_named(options.trees[0])
        self.out = os.path.realpath(options.out)
        claim.check_places(self.out, [self.source])
        self.places = places.Places(self.out, report=self.out)
        self.places.roots = dict.fromkeys(self.places.roots, self.out)
        claim.claim(self.places, "folders")
        self.store = FolderStore(self.out)
        self.desk = Desk([self.source], self.places, programs, options)

    def names(self) -> List[str]:
        """The folders of this part, and the paths of what stands beside folders."""
        kinds = ((entry.name, trees.kind_of(entry)) for entry in os.scandir(self.source))
        names = [name if kind == trees.FOLDER else BESIDE + name for name, kind in kinds]
        index, parts = self.options.part
        return sorted(names, key=os.fsencode)[index - 1 :: parts]

    def begin(self, _: str) -> Iterator[Tuple[str, Optional[Row]]]:
        """The names of this part, each with its row if it has one."""
        self.prune()
        return ((name, self.store.of(name)) for name in self.names())

    def prune(self) -> None:
        """Takes the rows away of what stands beside the folders no more."""
        for path in self.store.beside():
            if not trees.is_no_folder(os.path.join(self.source, path)):
                self.store.remove(path)

    def count(self) -> int:
        return len(self.names())

    def rows_of(self, name: str) -> List[Row]:
        folder = os.path.join(self.source, name)
        if name.startswith(BESIDE):
            return [row_beside(name, folder)]
        pictures, dicom, other = sorts_of(folder)
        if self.desk.is_late:
            return [self.desk.late(Row(name, "jls" if pictures or not dicom else "dicom", len(pictures) + len(dicom)))]
        rows = [dicom_row(self.desk, name, dicom)] if dicom else []
        if pictures or not rows:
            rows = [*picture_rows(self.desk, name, pictures), *rows]
        elif rows:
            rows[0].path = name
        if other:
            rows[0].say("1 other file" if other == 1 else f"{other} other files")
        return rows

    def is_done(self, name: str, row: Optional[Row]) -> bool:
        """Whether a folder needs no work: nothing has changed since, and what was written is there."""
        inputs = self.inputs_now(name)
        return row is not None and bool(inputs) and self.desk.is_of(row, inputs)

    def forget(self, name: str, row: Optional[Row]) -> None:
        """Nothing: `do` takes the rows away itself."""

    def keep(self, rows: List[Row]) -> None:
        """Nothing: `do` has kept them."""

    def undo(self) -> None:
        self.places.undo()

    def do(self, name: str, folder: str, is_late: bool) -> Row:
        """Settles a folder in a worker: its rows are kept when all files are there, its own row last."""
        row = self.store.of(name)
        self.store.remove(name)
        for output in row.outputs if row else []:
            self.places.drop(output)
        self.desk.begin(folder, is_late, {})
        inputs, rows = self.settle(name)
        self.places.store([output for row in rows for output in row.outputs])
        for row in reversed(rows):
            row.inputs = self.desk.inputs(inputs, row)
            self.store.save(row)
        return max(rows, key=lambda row: row.status)

    def settle(self, name: str) -> Tuple[str, List[Row]]:
        """(what the rows of a folder are made of, the rows). One that changed meanwhile is a result, and doesn't end the run."""
        inputs = self.inputs_now(name)
        try:
            return inputs, self.rows_of(name)
        except (OSError, ProgramFailed):
            if self.inputs_now(name) == inputs and inputs:
                raise
            self.places.undo()
            return "", [Row(name).end(CANNOT_BE_READ, 4, "the folder changed while it was read")]

    def inputs_now(self, name: str) -> str:
        """What the rows of a name are made of; nothing if it can't be read."""
        place = os.path.join(self.source, name)
        try:
            if name.startswith(BESIDE):
                row = row_beside(name, place)
                return f"{row.kind} {row.note}"
            return inputs_of(self.desk, place)
        except OSError:
            return ""
