"""Walks several trees at once, in the order of paths: every relative path that any of them has, with what stands there in each."""
from __future__ import annotations

import heapq
import itertools
import os
import stat
from typing import Dict, Iterator, List, Optional, Sequence, Tuple

from jls_tools.archive import order
from jls_tools.archive.rows import Row

FILE, LINK, FOLDER, SPECIAL = "file", "link", "folder", "special"
Kinds = Dict[int, str]  # by tree
Fault = Tuple[int, str]  # a tree, and why something of it could not be read


class Item:
    """A relative path, and for each tree (by its index) that has it what stands there. `faults` names trees that could not be read.

    `before` is the row of an earlier run, whose files go. `expected` are the sums that lists have of it.
    """

    __slots__ = ("path", "kinds", "faults", "before", "expected")

    def __init__(self, path: str, kinds: Kinds, faults: Sequence[Fault] = ()) -> None:
        self.path = path
        self.kinds = kinds
        self.faults = list(faults)
        self.before: Optional[Row] = None
        self.expected: Dict[str, str] = {}

    def trees_with(self, kind: str) -> List[int]:
        return [tree for tree, found in sorted(self.kinds.items()) if found == kind]

    @property
    def is_folder(self) -> bool:
        """Whether every tree that has the path has a folder there."""
        return bool(self.kinds) and all(kind == FOLDER for kind in self.kinds.values())

    @property
    def is_empty_folder(self) -> bool:
        """Whether all of these could be read: then there is nothing in them, and nothing to be said."""
        return self.is_folder and not self.faults

    @property
    def key(self) -> bytes:
        return order.key_of(self.path, self.is_folder)


def kind_of(entry: os.DirEntry[str]) -> str:
    """What an entry of a folder is. One that is gone meanwhile counts as a file: its row says that it can't be read."""
    if entry.is_file(follow_symlinks=False):
        return FILE
    if entry.is_symlink():
        return LINK
    if entry.is_dir(follow_symlinks=False):
        return FOLDER
    try:
        return FILE if stat.S_ISREG(entry.stat(follow_symlinks=False).st_mode) else SPECIAL
    except FileNotFoundError:
        return FILE


def is_no_folder(path: str) -> bool:
    """Whether something stands there that is no folder. A link to one is none."""
    return os.path.lexists(path) and (os.path.islink(path) or not os.path.isdir(path))


def entries_of(folder: str) -> List[bytes]:
    """What is in a folder, in the order of paths: each name, of a folder with a slash after it, then a zero byte and the kind."""
    with os.scandir(folder) as entries:
        kinds = ((entry.name, kind_of(entry)) for entry in entries)
        return sorted(os.fsencode(name) + (b"/\0" if kind == FOLDER else b"\0") + kind.encode() for name, kind in kinds)


class Folder:
    """A relative path that is a folder in several trees, and what is left to be walked of it."""

    def __init__(self, trees: Sequence[str], path: str, of: Sequence[int]) -> None:
        self.path = path
        self.of = of
        self.faults: List[Fault] = []
        lists: List[Tuple[int, List[bytes]]] = []
        for tree in of:
            try:
                lists.append((tree, entries_of(os.path.join(trees[tree], path))))
            except OSError as fault:
                self.faults.append((tree, fault.strerror or "no reason is told"))
        self.is_empty = not any(own for _, own in lists)
        self.names = self.grouped(lists)

    def grouped(self, lists: List[Tuple[int, List[bytes]]]) -> Iterator[Tuple[str, Kinds]]:
        """(path, kinds) of each name. One that is a folder in some trees and none in others comes twice, with all kinds first."""
        folders: Dict[bytes, Kinds] = {}
        for tree, own in lists:
            for entry in own:
                if entry.endswith(b"/\0folder"):
                    folders.setdefault(entry[:-8], {})[tree] = FOLDER
        merged = heapq.merge(*(of_tree(own, tree) for tree, own in lists))
        for name, group in itertools.groupby(merged, key=lambda found: found[0].rpartition(b"\0")[0]):
            kinds = {tree: entry.rpartition(b"\0")[2].decode() for entry, tree in group}
            yield os.path.join(self.path, os.fsdecode(name.rstrip(b"/"))), {**kinds, **folders.get(name, {})}


def of_tree(entries: List[bytes], tree: int) -> Iterator[Tuple[bytes, int]]:
    return ((entry, tree) for entry in entries)


def walk(trees: Sequence[str]) -> Iterator[Item]:
    """An Item for each path that is no folder, or a folder with nothing in it, or one that can't be read; in the order of paths.

    Symbolic links are not followed. A path that is a folder in one tree and none in another is an Item, and its folder is walked too.
    """
    open_folders = []
    begun: Optional[Folder] = Folder(trees, "", range(len(trees)))
    while True:
        if begun:
            if begun.faults or begun.path and begun.is_empty:
                yield Item(begun.path, dict.fromkeys(begun.of, FOLDER), begun.faults)
            open_folders.append(begun)
        if not open_folders:
            return
        path, kinds = next(open_folders[-1].names, ("", None))
        begun = None
        if kinds is None:
            open_folders.pop()
        elif all(kind == FOLDER for kind in kinds.values()):
            begun = Folder(trees, path, sorted(kinds))
        else:
            yield Item(path, kinds)


def leads_out(path: str, target: str) -> bool:
    """Whether a symbolic link at this relative path leads out of its tree, as far as its text says."""
    if os.path.isabs(target):
        return True
    landing = os.path.normpath(os.path.join(os.path.dirname(path), target))
    return landing == ".." or landing.startswith("../")
