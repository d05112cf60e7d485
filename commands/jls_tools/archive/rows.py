"""The rows of pictures.csv: one for each path. Those of folders are each kept in a file of its own, so that a stopped run goes on."""
from __future__ import annotations

import contextlib
import csv
import dataclasses
import hashlib
import json
import os
import tempfile
from typing import IO, Any, Dict, Iterable, Iterator, List

from jls_tools.dicom.result import NOT_SUPPORTED

# Of the table: its titles, and the fields of a row
OF_DECISIONS = {"decided": "decided", "one copy": "one_copy", "versions": "versions"}
COLUMNS = ("path", "kind", "copies", "frames", "settled", "missing", "disputed", "before", "sum", "status", "result", "shape", "note")
FIELDS = (*COLUMNS, *OF_DECISIONS.values())
TITLES = (*COLUMNS, *OF_DECISIONS)
PICTURES = ("dicom", "jls", "jlsp")
TOOK_TOO_LONG = "took too long"
CANNOT_BE_READ = "cannot be read"  # a result, and what a note says of a copy
PART = ".part-"  # begins the name of a file that isn't complete; eight letters or digits follow


@dataclasses.dataclass
class Row:
    """What became of a path. Numbers are nothing where the path is no picture."""

    path: str
    kind: str = "other"
    copies: int = 0
    frames: int | None = None
    settled: int | None = None
    missing: int | None = None
    disputed: int | None = None
    before: int | None = None
    sum: str = ""
    status: int = 0
    result: str = ""
    shape: str = ""
    note: str = ""
    thumbnail: str = ""  # a small PNG in base 64, where lines are missing or disputed
    inputs: str = ""  # what the row was made of: see `Desk.is_of`
    outputs: List[List[str]] = dataclasses.field(default_factory=list)  # the files that were written
    decided: int | None = None  # places of the header where copies differ, and one was taken
    one_copy: int | None = None  # of these: what one copy alone has
    versions: int | None = None  # elements of which copies have several values that read, or that headers which read whole have otherwise
    bad: str = ""  # where bytes are bad, from the file's begin to its end: see `bad_cells`
    patient: str = ""
    study: str = ""

    def __reduce__(self) -> Any:
        return row_of, (self.path, values_of(self))

    def take(self, report: Any, frames: int = 1) -> None:
        """Takes the numbers of a report of a program."""
        self.frames, self.shape = frames, report.shape
        self.settled, self.missing, self.disputed = report.settled, report.missing, report.disputed
        self.before = report.before

    def end(self, result: str, status: int, note: str = "") -> Row:
        """Says what came out. A status that is there already stays if it is worse."""
        self.result, self.status = result, max(self.status, status)
        self.say(note)
        return self

    def say(self, note: str) -> None:
        """Adds to the note, on one line."""
        note = " / ".join(line.strip() for line in note.splitlines() if line.strip())
        self.note = "; ".join(part for part in (self.note, note) if part)

    @property
    def is_unread(self) -> bool:
        """Whether a copy could not be read, so that another call may read it."""
        return self.status >= 4 and CANNOT_BE_READ in f"{self.result}; {self.note}"

    @property
    def lines(self) -> int:
        return (self.settled or 0) + (self.missing or 0) + (self.disputed or 0)

    @property
    def loss(self) -> float | None:
        """Which share of a picture's lines is missing or disputed, all if nothing could be made of it; nothing if that isn't known."""
        if self.kind not in PICTURES or self.result in (NOT_SUPPORTED, TOOK_TOO_LONG):
            return None
        if self.lines:
            return ((self.missing or 0) + (self.disputed or 0)) / self.lines
        return 1.0 if self.status else 0.0


DEFAULTS = {field.name: field.default for field in dataclasses.fields(Row)}


def values_of(row: Row) -> Dict[str, Any]:
    """The fields of a row that say something: others are as they are where nothing is said. The path stands beside them."""
    found = {name: value for name, value in vars(row).items() if value != DEFAULTS[name]}
    del found["path"]
    if not row.outputs:
        del found["outputs"]
    return found


def row_of(path: str, values: Dict[str, Any]) -> Row | None:
    """The row of these fields; nothing where another version wrote them and they can't be used."""
    every: Dict[str, Any] = {"path": path, **values}
    try:
        return Row(**every)
    except TypeError:
        return None


@contextlib.contextmanager
def written_whole(path: str) -> Iterator[IO[bytes]]:
    """A file that gets its name when what stands inside has ended well, with the permissions that the umask leaves."""
    folder = os.path.dirname(path)
    mask = os.umask(0)
    os.umask(mask)
    handle, part = tempfile.mkstemp(prefix=PART, dir=folder)
    try:
        with open(handle, "wb") as file:
            yield file
            file.flush()
            os.fsync(file.fileno())
        os.chmod(part, 0o666 & ~mask)
        os.replace(part, path)
    except BaseException:
        with contextlib.suppress(FileNotFoundError):  # a signal came when it had its name already
            os.unlink(part)
        raise


def write_whole(path: str, data: bytes) -> None:
    """Writes a file whole or not at all."""
    with written_whole(path) as file:
        file.write(data)


class Store:
    """The rows in a folder, each in a file whose name follows from its path."""

    def __init__(self, folder: str) -> None:
        self.folder = folder

    def file_of(self, path: str) -> str:
        name = hashlib.sha256(os.fsencode(path)).hexdigest()[:40]
        return os.path.join(self.folder, name[:2], f"{name[2:]}.row")

    def load(self, file: str) -> Row | None:
        """The row in a file, or nothing where there is none that can be used."""
        try:
            with open(file, encoding="ascii") as opened:
                return Row(**json.load(opened))
        except (OSError, ValueError, TypeError):
            return None

    def of(self, path: str) -> Row | None:
        return self.load(self.file_of(path))

    def save(self, row: Row) -> None:
        file = self.file_of(row.path)
        os.makedirs(os.path.dirname(file), exist_ok=True)
        write_whole(file, json.dumps(dataclasses.asdict(row)).encode("ascii"))

    def remove(self, path: str) -> None:
        try:
            os.unlink(self.file_of(path))
        except FileNotFoundError:
            pass

    def files(self) -> Iterator[str]:
        for folder, _, names in os.walk(self.folder):
            yield from (os.path.join(folder, name) for name in names if name.endswith(".row"))

    def all(self) -> list[Row]:
        """All rows, by path."""
        rows = [row for row in map(self.load, self.files()) if row]
        return sorted(rows, key=lambda row: os.fsencode(row.path))


class Lines:
    """Lines of CSV, as they are written to a file."""

    def __init__(self, file: IO[bytes]) -> None:
        self.file = file

    def add(self, row: Row) -> None:
        self.file.write(self.of(row))

    def head(self) -> None:
        self.file.write(text_of(TITLES))

    def of(self, row: Row) -> bytes:
        return text_of([getattr(row, name) for name in FIELDS])


class Text(List[str]):
    """What csv.writer wants of a file."""

    def write(self, text: str) -> None:
        self.append(text)


def text_of(values: Iterable[Any]) -> bytes:
    """A line of CSV."""
    text = Text()
    csv.writer(text, lineterminator="\n").writerow(values)
    return "".join(text).encode("utf-8", "surrogateescape")
