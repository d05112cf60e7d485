"""The rows of trees: lines that are appended to one file for each part, so that a stopped run goes on.

A line is a row, or says that a path has none any more. The line of the latest run counts, and of one run the last. A line without its end
is one that a killed run did not complete. They are read in the order of paths, and never all at once: there can be millions.
"""
from __future__ import annotations

import contextlib
import itertools
import json
import os
import re
from typing import Any, Dict, Iterable, Iterator, List, Optional, Tuple

from jls_tools.archive.order import Sorter
from jls_tools.archive.rows import Row, Store, row_of, values_of

ENDING = ".rows"
# The number of the run, and the name: a path, with a slash behind it if it is a folder that can't be read
NONE = b", null]\n"  # ends a line that says that a path has no row
BEGINNING = re.compile(rb'\[(\d+), "([^"\\]*(?:\\.[^"\\]*)*)", ')


def name_of(row: Row) -> str:
    return f"{row.path}/" if row.kind == "folder" and row.path else row.path


def line_of(run: int, name: str, row: Optional[Row]) -> bytes:
    text = json.dumps([run, name, row and values_of(row)])
    return text.encode("ascii") + b"\n"


def values_in(line: bytes) -> Optional[Dict[str, Any]]:
    """The fields of the row that a line has; nothing if it has none, or a disk spoilt it."""
    try:
        _, _, values = json.loads(line)
        return values if isinstance(values, dict) else None
    except (ValueError, TypeError):
        return None


class Known:
    """A row that is there: where its path stands in the order, and its lines, the one that counts last. `at` is where its fields begin."""

    __slots__ = ("key", "lines", "at")

    def __init__(self, key: bytes, lines: List[bytes], at: int) -> None:
        self.key = key
        self.lines = lines
        self.at = at

    @property
    def name(self) -> str:
        return os.fsdecode(self.key)

    def row(self) -> Optional[Row]:
        """The row. Of lines that a disk spoilt the one before counts."""
        for line in reversed(self.lines):
            if line.endswith(NONE):
                return None
            values = values_in(line)
            if values is not None:
                return row_of(self.name.rstrip("/"), values)
        return None


def noted(line: bytes) -> Optional[Tuple[bytes, int, int]]:
    """(where the path of a line stands in the order, the number of its run, where its fields begin). A spoilt one says nothing."""
    found = BEGINNING.match(line)
    if not found:
        return None
    run, name = found.groups()
    if b"\\" in name:
        try:
            name = os.fsencode(json.loads(b'"' + name + b'"'))
        except ValueError:
            return None
    return name, int(run), found.end()


def latest(lines: Iterable[bytes], folder: str) -> Iterator[Known]:
    """The rows that count of these lines, in the order of paths. `folder` has room for what is sorted."""
    sorter = Sorter(folder)
    try:
        for number, line in enumerate(lines):
            said = noted(line)
            if said:
                sorter.add((said[0], said[1], number, said[2], line))
        name, begin = b"", 0
        of_name: List[bytes] = []
        for key, _, _, at, line in sorter.sorted():
            if key != name:
                if of_name and not of_name[-1].endswith(NONE):
                    yield Known(name, of_name, begin)
                of_name = []
            name, begin = key, at
            of_name.append(line)
        if of_name and not of_name[-1].endswith(NONE):
            yield Known(name, of_name, begin)
    finally:
        sorter.close()


class Ledger:
    """The rows of all parts in a folder. `begin` lets this process append to the file of its own part."""

    def __init__(self, folder: str) -> None:
        self.folder = folder
        self.run = 0
        self.file = ""
        self.handle = -1

    def begin(self, part: Tuple[int, int]) -> None:
        """Opens the file of this part. Its last line goes if it has no end."""
        os.makedirs(self.folder, exist_ok=True)
        self.file = os.path.join(self.folder, f"{part[0]}-of-{part[1]}{ENDING}")
        self.handle = os.open(self.file, os.O_RDWR | os.O_CREAT | os.O_APPEND, 0o666)
        os.ftruncate(self.handle, end_of_lines(self.file))
        self.adopt()
        said = (BEGINNING.match(line) for line in self.lines())
        self.run = 1 + max((int(found.group(1)) for found in said if found), default=0)

    def lines(self) -> Iterator[bytes]:
        """Each line that has its end, of all parts."""
        with contextlib.suppress(FileNotFoundError):
            for name in sorted(os.listdir(self.folder)):
                if name.endswith(ENDING):
                    yield from lines_of(os.path.join(self.folder, name))

    def adopt(self) -> None:
        """Takes over the rows that version 1.1.0 wrote, each in a file of its own. A row of any run counts more."""
        old = Store(self.folder)
        for file in old.files():
            row = old.load(file)
            if row:
                self.write([line_of(0, name_of(row), row)])
                os.fsync(self.handle)
            with contextlib.suppress(OSError):  # another part does the same
                os.unlink(file)
                os.rmdir(os.path.dirname(file))

    def rows(self, folder: str) -> Iterator[Known]:
        """The rows that are there now, in the order of paths. `folder` has room for what is sorted."""
        yield from latest(itertools.chain(self.old_lines(), self.lines()), folder)

    def old_lines(self) -> Iterator[bytes]:
        """Rows of version 1.1.0 that no run has taken over yet."""
        old = Store(self.folder)
        for row in filter(None, map(old.load, old.files())):
            yield line_of(0, name_of(row), row)

    def append(self, rows: Iterable[Row]) -> None:
        """Writes rows, and waits until they are on the disk."""
        self.write([line_of(self.run, name_of(row), row) for row in rows])
        os.fsync(self.handle)

    def remove(self, name: str) -> None:
        """Says that a path has no row any more."""
        self.write([line_of(self.run, name, None)])

    def write(self, lines: List[bytes]) -> None:
        """Writes lines, all or none."""
        at = os.fstat(self.handle).st_size
        try:
            data = memoryview(b"".join(lines))
            while data:
                data = data[os.write(self.handle, data) :]
        except OSError:
            os.ftruncate(self.handle, at)
            raise


def lines_of(file: str) -> Iterator[bytes]:
    """Each line of a file that has its end."""
    with open(file, "rb") as opened:
        for line in opened:
            if line.endswith(b"\n"):
                yield line


def end_of_lines(file: str) -> int:
    """Where the last line ends that has an end."""
    with open(file, "rb") as opened:
        at = opened.seek(0, os.SEEK_END)
        while at:
            begin = max(0, at - 65536)
            opened.seek(begin)
            found = opened.read(at - begin).rfind(b"\n")
            if found >= 0:
                return begin + found + 1
            at = begin
    return 0
