"""Whether a call may work where it is told to: its trees, and OUT with the folders beside it."""
from __future__ import annotations

import json
import os
from typing import Optional, Sequence

from jls_tools.archive.places import MARK, Places, Refused
from jls_tools.file_names import printable


def folder_named(path: str) -> str:
    """The true path of a folder that a word names."""
    if not os.path.isdir(path):
        reason = "is no folder" if os.path.lexists(path) else "is not there"
        raise Refused(f"{printable(path)} {reason}", 4)
    return os.path.realpath(path)


def backup_named(path: str) -> str:
    """The true path of a tree. One with nothing in it is refused: its disk may not be mounted, and what runs before made of it would go."""
    tree = folder_named(path)
    if is_empty(tree):
        raise Refused(f"{printable(path)} is empty: is its disk mounted?", 4)
    return tree


def is_empty(folder: str) -> bool:
    """Whether a folder has nothing in it. One that can't be read counts as full: its row says so."""
    try:
        with os.scandir(folder) as entries:
            return next(entries, None) is None
    except OSError:
        return False


def is_within(path: str, folder: str) -> bool:
    return path == folder or path.startswith(folder.rstrip("/") + "/")


def check_places(out: str, trees: Sequence[str]) -> None:
    """Refuses trees that are one another, or lie in OUT, and an OUT that lies in a tree."""
    shown = printable
    for at, tree in enumerate(trees):
        if tree in trees[:at]:
            raise Refused(f"{shown(tree)} is named twice")
        if is_within(out, tree) or is_within(tree, out):
            raise Refused(f"OUT and {shown(tree)} lie in one another: {shown(out)}")
        for other in trees[:at]:
            if is_within(tree, other) or is_within(other, tree):
                raise Refused(f"{shown(tree)} and {shown(other)} lie in one another")


def mark_of(places: Places) -> str:
    return os.path.join(places.report, MARK)


def made_for(mark: str) -> Optional[str]:
    """What the runs are for that made a folder, by its mark. None if there is no mark, or one that a killed run didn't complete."""
    try:
        with open(mark, encoding="ascii") as file:
            what: Optional[str] = json.load(file).get("what")
            return what
    except (FileNotFoundError, ValueError):
        return None


def claim(places: Places, what: str) -> None:
    """Makes OUT and the folder of the report. What is there already has to be of an earlier run, or empty."""
    mark, shown = mark_of(places), printable(places.out)
    if os.path.ismount(places.out):
        raise Refused(f"{shown} is where a disk begins: name a folder on it")
    if not os.path.isfile(mark):
        for path in {*places.roots.values(), places.report}:
            if os.path.lexists(path) and not (os.path.isdir(path) and not os.listdir(path)):
                raise Refused(f"{printable(path)} is there already, and no run of jls-archive made it")
    os.makedirs(places.report, exist_ok=True)
    if made_for(mark) not in (None, what):
        raise Refused(f"{shown} is there already, of a run of another kind")
    if made_for(mark) is None:
        # not by way of another name: a run that is killed would leave that, and its folder without a mark
        with open(mark, "w", encoding="ascii") as file:
            file.write(json.dumps({"what": what}))
    os.makedirs(places.out, exist_ok=True)
