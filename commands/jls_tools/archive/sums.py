"""Reads manifests of checksums: lines of sha256sum, md5sum and their kin, with or without --tag, and BagIt's; never all at once."""
from __future__ import annotations

import hashlib
import itertools
import os
import re
import shutil
import tempfile
from operator import itemgetter
from typing import IO, Callable, Dict, Iterable, Iterator, List, Optional, Tuple

from jls_tools.archive import order

ALGORITHMS = {32: "md5", 40: "sha1", 56: "sha224", 64: "sha256", 96: "sha384", 128: "sha512"}
PLAIN = re.compile(r"(\\?)([0-9A-Fa-f]+)[ \t]+\*?(.+)$", re.S)
TAGGED = re.compile(r"(\\?)([A-Z0-9-]+) \((.+)\) = ([0-9A-Fa-f]+)$", re.S)
BAGIT = re.compile(r"(?:tag)?manifest-\w+\.txt$")


class BadManifest(Exception):
    """A file is no manifest; the text names the line."""


def unescaped(name: str) -> str:
    """The name after the backslash that begins a line of sha256sum."""
    return re.sub(r"\\([\\nr])", lambda found: {"\\": "\\", "n": "\n", "r": "\r"}[found.group(1)], name)


def decoded(name: str) -> str:
    """A name of BagIt: a line feed, a carriage return and a percent sign are written as %0A, %0D, %25."""
    return re.sub(r"%(0[AaDd]|25)", lambda found: chr(int(found.group(1), 16)), name)


def entry_of(line: str, is_bagit: bool) -> Optional[Tuple[str, str, str]]:
    """(name, algorithm, sum) of a line, or nothing."""
    tagged, plain = TAGGED.match(line), PLAIN.match(line)
    if tagged:
        escape, _, name, digest = tagged.groups()
    elif plain:
        escape, digest, name = plain.groups()
    else:
        return None
    if len(digest) not in ALGORITHMS:
        return None
    name = unescaped(name) if escape else decoded(name) if is_bagit else name
    return os.path.normpath(name), ALGORITHMS[len(digest)], digest.lower()


Entry = Tuple[str, str, str, int]  # a name, an algorithm, the sum, and the number of the line
Listed = Tuple[bytes, str, Dict[str, str]]  # where a path stands in the order, the path, and {algorithm: sum}


def entries_in(path: str) -> Iterator[Entry]:
    """The entries of a manifest. An OSError or BadManifest says why there are none."""
    is_bagit, number, taken = bool(BAGIT.search(os.path.basename(path))), 0, 0
    with open(path, encoding="utf-8", errors="surrogateescape", newline="\n") as file:
        for number, line in enumerate(file, 1):
            line = line.rstrip("\n").rstrip("\r")
            line = line.removeprefix("\ufeff") if number == 1 else line
            if not line.strip() or line.startswith("#"):
                continue
            entry = entry_of(line, is_bagit)
            if entry is None:
                raise BadManifest(f"line {number} is no line of sha256sum, md5sum or BagIt")
            yield (*entry, number)
            taken += 1
    if not taken:
        raise BadManifest("it has no sums")


class Sums:
    """What manifests say of paths. `head` is a folder that all names have, and no path of the trees."""

    def __init__(self) -> None:
        self.files: List[str] = []  # they are read more than once
        self.names: List[str] = []  # what they are called
        self.kept: List[IO[bytes]] = []
        self.head = ""

    def read(self, path: str) -> None:
        """Takes a manifest, when each of its lines has been read. An OSError or BadManifest says why it can't."""
        file = path if os.path.isfile(path) or not os.path.exists(path) else self.copy_of(path)
        for _ in entries_in(file):
            pass
        self.files.append(file)
        self.names.append(path)

    def copy_of(self, path: str) -> str:
        """The path of what a pipe gives, which can be read once alone."""
        kept = tempfile.NamedTemporaryFile()
        with open(path, "rb") as file:
            shutil.copyfileobj(file, kept)
        kept.flush()
        self.kept.append(kept)
        return kept.name

    def entries(self) -> Iterator[Tuple[str, str, str, Tuple[int, int]]]:
        """(name, algorithm, sum, (which manifest, which line)) of all manifests."""
        for which, file in enumerate(self.files):
            for name, algorithm, digest, number in entries_in(file):
                yield name.removeprefix(self.head), algorithm, digest, (which, number)

    def fit(self, is_there: Callable[[str], bool]) -> bool:
        """Leaves a folder out of all names, such as BagIt's data, if names are paths of the trees only without it.

        Answers whether any name is a path then.
        """
        heads = set()
        for name, _, _, _ in self.entries():
            if is_there(name):
                return True
            head, slash, rest = name.partition("/")
            if slash and head not in heads and is_there(rest):
                heads.add(head)
        if heads:
            self.head = min(heads) + "/"
        return bool(heads)

    def listed(self, folder: str) -> Iterator[Listed]:
        """What the manifests say, in the order of paths. `folder` has room for what is sorted. A BadManifest comes before all else."""
        sorter = order.Sorter(folder)
        try:
            for name, algorithm, digest, line in self.entries():
                sorter.add((order.key_of(name), algorithm, line, digest))
            kept = order.kept(self.grouped(sorter.sorted()), folder)
        finally:
            sorter.close()
        return listed_in(kept)

    def grouped(self, records: Iterable[order.Record]) -> Iterator[Listed]:
        for key, group in itertools.groupby(records, key=itemgetter(0)):
            found: Dict[str, str] = {}
            for _, algorithm, (which, number), digest in group:
                if found.setdefault(algorithm, digest) != digest:
                    raise BadManifest(f"{self.names[which]}: line {number} has another sum of the same file")
            yield key, os.fsdecode(key), found


def listed_in(kept: IO[bytes]) -> Iterator[Listed]:
    for key, path, expected in order.records_in(kept):
        yield key, path, expected


class Unreadable(Exception):
    """A file can't be read; the text is the system's."""


def blocks_of(path: str) -> Iterator[bytes]:
    try:
        with open(path, "rb", buffering=0) as file:
            while block := file.read(1 << 20):
                yield block
    except OSError as fault:
        raise Unreadable(fault.strerror) from fault


def whole_of(path: str, most: int) -> Tuple[Optional[bytes], os.stat_result]:
    """(the bytes of a file, what stat says of it); no bytes where there are more than so many."""
    try:
        handle = os.open(path, os.O_RDONLY | os.O_CLOEXEC)
        try:
            seen, parts = os.fstat(handle), []
            left = most + 1 if seen.st_size <= most else 0
            while left and (part := os.read(handle, min(left, seen.st_size + 1))):
                parts.append(part)
                left -= len(part)
            return (b"".join(parts) if left else None), seen
        finally:
            os.close(handle)
    except OSError as fault:
        raise Unreadable(fault.strerror) from fault


def digests(path: str, algorithms: Iterable[str], copy_to: Optional[IO[bytes]] = None) -> Dict[str, str]:
    """{algorithm: sum} of a file, in one reading of it. `copy_to` is an open file that gets its bytes."""
    sums = {name: hashlib.new(name, usedforsecurity=False) for name in algorithms}
    for block in blocks_of(path):
        for each in sums.values():
            each.update(block)
        if copy_to is not None:
            copy_to.write(block)
    return {name: each.hexdigest() for name, each in sums.items()}


def digests_of(data: bytes, algorithms: Iterable[str]) -> Dict[str, str]:
    """{algorithm: sum} of bytes."""
    return {name: hashlib.new(name, data, usedforsecurity=False).hexdigest() for name in algorithms}


def agree(expected: Dict[str, str], found: Dict[str, str]) -> bool:
    """Whether each sum that is expected of a file is the one that was found."""
    return bool(expected) and all(found.get(name) == digest for name, digest in expected.items())
