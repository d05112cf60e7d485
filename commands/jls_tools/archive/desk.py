"""What the work on a path needs, and what every kind of path has done to it: comparing, copying through, setting aside."""
from __future__ import annotations

import hashlib
import os
import shutil
from typing import Any, Dict, List, Optional, Sequence, Tuple, TypeVar

from jls_tools import partial_picture
from jls_tools.archive import sums
from jls_tools.archive.lists import Lists
from jls_tools.archive.places import Places, own_name
from jls_tools.archive.rows import TOOK_TOO_LONG, Row
from jls_tools.dicom.result import FAILED
from jls_tools.file_names import labels_of, printable
from jls_tools.programs import Outcome, ProgramFailed, Programs
from jls_tools.view import thumbnail

NAMED = "\nnames are told"
Done = TypeVar("Done", bound=Outcome)


def shown(path: str) -> str:
    return printable(path)


class Copy:
    """A readable file of a path: the tree that it is in, where it stands, its sums.

    Of a small one there are its bytes and what stat says; of a large one perhaps the name of a copy of it, `made` on the way. `bad` is what
    lists name as bad in it, and `filled` a file that has bytes of other copies there.
    """

    def __init__(
        self,
        tree: int,
        path: str,
        digests: Dict[str, str],
        data: Optional[bytes] = None,
        seen: Optional[os.stat_result] = None,
        made: str = "",
    ) -> None:
        self.tree = tree
        self.path = path
        self.digests = digests
        self.data = data
        self.seen = seen
        self.made = made
        self.bad: List[Tuple[int, int]] = []
        self.filled = ""


class Desk:
    """The trees with their labels, the places for results, the programs, and a folder for what isn't complete."""

    def __init__(self, trees: Sequence[str], places: Places, programs: Programs, options: Any) -> None:
        self.trees = trees
        self.labels = labels_of(trees)
        self.places = places
        self.programs = programs
        self.library = programs.library
        self.options = options
        self.sums: sums.Sums = options.sums_read
        self.lists: Lists = options.lists
        self.expected: Dict[str, str] = {}  # {algorithm: sum} of the path that is worked on, as the manifests have it
        self.folder = ""
        self.made = 0
        self.is_late = False  # the time for the path ran out: its copies are compared, and neither read as pictures nor mended

    def begin(self, folder: str, is_late: bool, expected: Dict[str, str]) -> None:
        """Takes an empty folder for the next path. Names in it begin anew, so that logs are the same in each run."""
        self.folder, self.made, self.is_late, self.expected = folder, 0, is_late, expected
        self.places.begin()

    def late(self, row: Row) -> Row:
        """The row of a picture for which the time ran out."""
        return row.end(TOOK_TOO_LONG, 1, f"its work was ended after {self.options.seconds} s")

    def inputs(self, inputs: str, row: Row) -> str:
        """What a row keeps of what it was made of: also of the time that the path had, if that ran out, and whether names are told."""
        has_log = row.kind == "dicom" and any(name.endswith(".log") for _, name in row.outputs)
        has_names = not self.options.no_names and (row.patient or row.study or has_log)
        return sum_of(inputs + self.limit() if self.is_late else inputs + NAMED if has_names else inputs)

    def limit(self) -> str:
        return f"\nended after {self.options.seconds} s"

    def is_of(self, row: Row, inputs: str) -> bool:
        """Whether a row was made of this, and its files are there. One whose time ran out is of its limit too."""
        texts = [inputs, inputs + self.limit(), *([] if self.options.no_names else [inputs + NAMED])]
        known = row.inputs in (*map(sum_of, texts), *texts)  # version 1.1.0 kept the texts
        return known and all(map(self.places.has, row.outputs))

    def name(self, what: str = "file") -> str:
        """The name of a new file in the folder for what isn't complete."""
        self.made += 1
        return f"{what}-{self.made}"

    def place(self, name: str) -> str:
        return os.path.join(self.folder, name)

    def links(self, copies: Sequence[Copy]) -> List[str]:
        """Names of our own for files, since theirs can be anything."""
        names = []
        for copy in copies:
            names.append(self.name("copy"))
            os.symlink(copy.filled or copy.path, self.place(names[-1]))
        return names

    def put(self, row: Row, name: str, root: str, path: str, model: Optional[str] = None) -> None:
        """Moves a file of the folder to its place, and notes in the row that it is there."""
        row.outputs.append(self.places.put(self.place(name), root, path, model))

    def copy_to(self, row: Row, copy: Copy, root: str, path: str) -> None:
        """Copies a file to a place, with its permissions and times."""
        name = self.name()
        with open(copy.path, "rb") as source, open(self.place(name), "xb") as target:
            shutil.copyfileobj(source, target, 1 << 20)
        row.outputs.append(self.places.put(self.place(name), root, path, copy.path, True))

    def sure(self, outcome: Done) -> Done:
        """What a program came to, unless it could not read or write a file: that says nothing of a picture."""
        if outcome.status == FAILED:
            raise ProgramFailed(outcome.faults.strip() or "a file could not be read or written", FAILED)
        return outcome

    def label(self, copy: Copy) -> str:
        return printable(self.labels[copy.tree])

    def set_aside(self, row: Row, copies: Sequence[Copy], result: str = "differs", status: int = 1) -> Row:
        """Puts all copies beside OUT, each under the name of its tree."""
        for copy in copies:
            self.copy_to(row, copy, "differ", os.path.join(self.labels[copy.tree], row.path))
        return row.end(result, status)

    def judge(self, row: Row, path: str) -> Optional[bool]:
        """Whether a file is the one of the manifests, as the row says then too; nothing if these don't name it."""
        if not self.expected:
            return None
        fits = sums.agree(self.expected, sums.digests(path, self.expected))
        row.sum = "matches" if fits else "differs"
        return fits

    def keep_partial(self, row: Row, name: str, path: str) -> None:
        """Keeps a partial picture that isn't whole, and makes the row's thumbnail of it."""
        self.draw(row, name)
        self.put(row, name, "partial", own_name(path))

    def draw(self, row: Row, name: str) -> None:
        """Makes the row's thumbnail of a partial picture."""
        try:
            # an absolute path stays what it is
            row.thumbnail = thumbnail.of(partial_picture.read(self.place(name)))
        except (OSError, partial_picture.NotAPartialPicture) as fault:
            row.say(f"no thumbnail: {fault}")

    def keep_log(self, row: Row, text: str, path: str, root: str = "partial") -> None:
        """Keeps what is to be told of a picture: beside its parts if it isn't whole, else with the report."""
        name = self.name("log")
        with open(self.place(name), "w", encoding="utf-8", errors="surrogateescape") as file:
            file.write(text)
        self.put(row, name, root, own_name(path))


def sum_of(inputs: str) -> str:
    return hashlib.sha256(os.fsencode(inputs)).hexdigest()[:32]
