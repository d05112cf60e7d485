"""What becomes of one path of the trees: its row, and what is written of it."""
from __future__ import annotations

import contextlib
import errno
import os
import shutil
from typing import Callable, Dict, Iterable, List, Optional, Sequence, Tuple

from jls_tools.archive import by_lists, dicom_files, lists, pictures, places, sums, trees
from jls_tools.archive.desk import Copy, Desk
from jls_tools.archive.rows import CANNOT_BE_READ, Row
from jls_tools.archive.trees import Item
from jls_tools.dicom.axis import bad_lists
from jls_tools.dicom.read.elements import begins_as_dicom, has_prefix
from jls_tools.file_names import printable
from jls_tools.programs import ProgramFailed

DICOM, PICTURE, PARTIAL, OTHER = "dicom", "jls", "jlsp", "other"
MOST_HELD = 1 << 23  # bytes of a file that is read at once


def inputs_of(desk: Desk, item: Item) -> str:
    """A text that changes if a copy, a tree, a sum or a choice of the call does."""
    parts = []
    for tree, kind in sorted(item.kinds.items()):
        path = os.path.join(desk.trees[tree], item.path)
        try:
            seen = os.lstat(path)
            parts.append(f"{kind} {seen.st_size} {seen.st_mtime_ns} {path}")
            if desk.lists.of and kind == trees.FILE:
                parts += filter(None, [desk.lists.text(tree, item.path, path)])
        except OSError as fault:
            parts.append(f"{kind} {fault.errno} {path}")
    expected = sorted(item.expected.items())
    return "\n".join([f"tries {desk.options.tries}, sums {bool(desk.sums.files)} {expected}, labels {desk.labels}", *parts])


def begins(copies: Sequence[Copy], text: bytes) -> bool:
    """Whether a copy begins with these bytes."""
    for copy in copies:
        if copy.data is not None:
            if copy.data.startswith(text):
                return True
            continue
        with open(copy.path, "rb") as file:
            if file.read(len(text)) == text:
                return True
    return False


def is_dicom(copy: Copy) -> bool:
    return has_prefix(copy.data) if copy.data is not None else begins_as_dicom(copy.path)


def kind_of(path: str, copies: Sequence[Copy]) -> str:
    """What copies of a path are, by its name and by how they begin."""
    ending = os.path.splitext(path)[1].lower()
    if ending == ".dcm" or any(map(is_dicom, copies)):
        return DICOM
    if ending in (".jls", ".jlsp"):
        return PARTIAL if ending == ".jlsp" or begins(copies, b"JLSP") else PICTURE
    return OTHER


def read_copies(desk: Desk, item: Item, row: Row) -> List[Copy]:
    """The copies that can be read. Small ones are held, with no sum but those that are expected."""
    copies: List[Copy] = []
    for tree in item.trees_with(trees.FILE):
        path = os.path.join(desk.trees[tree], item.path)
        try:
            copies.append(read_copy(desk, (tree, path), item.expected, copies[0] if copies else None))
            copies[-1].bad = desk.lists.places(tree, item.path, path) if desk.lists.of else []
        except bad_lists.BadList as fault:
            row.end("", 4, lists.note_of(fault))
        except sums.Unreadable as fault:
            row.end("", 4, unread(desk, tree, fault))
    return copies


def unread(desk: Desk, tree: int, why: object) -> str:
    """What a note says of what a tree has and can't be read."""
    return f"{printable(desk.labels[tree])} {CANNOT_BE_READ}: {why}"


def count_readable(desk: Desk, item: Item) -> int:
    """How many files of a path can be read to their ends."""
    count = 0
    for tree in item.trees_with(trees.FILE):
        with contextlib.suppress(sums.Unreadable):
            sums.digests(os.path.join(desk.trees[tree], item.path), ())
            count += 1
    return count


def read_copy(desk: Desk, where: Tuple[int, str], expected: Dict[str, str], first: Optional[Copy]) -> Copy:
    """A copy. One that equals the first one, which is held, is held once. The first one, if it is large, is copied on the way."""
    tree, path = where
    data, seen = sums.whole_of(path, MOST_HELD)
    if data is not None:
        data = first.data if first and first.data == data else data
        return Copy(tree, path, sums.digests_of(data, expected), data, seen)
    algorithms = {"sha256", *expected}
    if first:
        return Copy(tree, path, sums.digests(path, algorithms))
    name = desk.name("first")
    with open(desk.place(name), "xb") as target:
        return Copy(tree, path, sums.digests(path, algorithms, target), made=name)


def are_equal(copies: Sequence[Copy]) -> bool:
    """Whether all copies have the same bytes."""
    held = [copy.data for copy in copies]
    if None in held:
        return held.count(None) == len(held) and len({copy.digests["sha256"] for copy in copies}) == 1
    return all(data == held[0] for data in held)


def files(desk: Desk, item: Item, row: Row) -> Row:
    """Files in every tree that has the path."""
    copies = read_copies(desk, item, row)
    row.copies = len(copies)
    if not copies:
        return row.end(CANNOT_BE_READ, 4)
    row.kind = kind_of(item.path, copies)
    if desk.sums.files:
        row.sum = "differs" if item.expected else "not listed"
    if are_equal(copies):
        return by_lists.tell(copy_through(desk, row, copies[0]), copies)
    for copy in copies:
        if sums.agree(item.expected, copy.digests):
            row.say(f"the copies differ, and the sum is that of {desk.label(copy)}")
            return copy_through(desk, row, copy)
    if desk.is_late and row.kind != OTHER:
        return desk.late(desk.set_aside(row, copies))
    if row.kind != DICOM and by_lists.fill(desk, copies):
        return by_lists.take(desk, row, copies)
    if row.kind == OTHER:
        return desk.set_aside(row, copies)
    mends: Dict[str, Callable[[Desk, Row, Sequence[Copy]], Row]]
    mends = {DICOM: dicom_files.mend, PICTURE: pictures.mend, PARTIAL: pictures.join}
    return mends[row.kind](desk, row, copies)


def copy_through(desk: Desk, row: Row, copy: Copy) -> Row:
    """The file that all copies are, or that the sum names: it goes to OUT as it is, and the row says whether it reads."""
    if sums.agree(desk.expected, copy.digests):
        row.sum = "matches"
    if desk.is_late and row.kind != OTHER:
        desk.late(row)
    elif row.kind == DICOM:
        dicom_files.look(desk, row, copy)
    elif row.kind in (PICTURE, PARTIAL):
        pictures.look(desk, row, copy)
    else:
        row.end("copied", 0)
    row.outputs.append(copy_out(desk, row, copy))
    if row.sum == "differs":
        row.end(row.result, 1, "it is not the file of the sum")
    return row


def copy_out(desk: Desk, row: Row, copy: Copy) -> List[str]:
    """Writes the file of a path to OUT, with its permissions and times."""
    place = desk.place(copy.made or desk.name())
    if copy.data is not None and copy.seen is not None:
        places.write_like(place, copy.data, copy.seen)
        return desk.places.move(place, "out", row.path)
    if not copy.made:
        shutil.copyfile(copy.path, place)
    return desk.places.put(place, "out", row.path, copy.path, True)


def link(desk: Desk, item: Item, row: Row) -> Row:
    """Symbolic links: one that stays in the tree, with one target in all trees that have it, is made anew. None is followed."""
    row.kind = "link"
    targets = {}
    for tree in item.trees_with(trees.LINK):
        targets[tree] = os.readlink(os.path.join(desk.trees[tree], item.path))
    row.copies = len(targets)
    shown = sorted({printable(target) for target in targets.values()})
    if any(trees.leads_out(item.path, target) for target in targets.values()):
        return row.end("leads out", 1, not_followed(targets.values()))
    if len(shown) > 1 or len(item.kinds) > len(targets):
        for tree, target in targets.items():
            make_link(desk, row, target, ("differ", os.path.join(desk.labels[tree], item.path)))
        return row.end("differs", 1, f"symbolic links to {', '.join(shown)}" if targets else "")
    make_link(desk, row, next(iter(targets.values())), ("out", item.path))
    return row.end("copied", 0)


def not_followed(targets: Iterable[str]) -> str:
    """What a note says of symbolic links that are left where they are."""
    return f"a symbolic link to {', '.join(sorted(set(map(printable, targets))))} is not followed, and not copied"


def special(row: Row) -> Row:
    """The row of what is no file, no folder and no link."""
    row.kind = "special"
    return row.end("no file", 1, "a pipe, a socket or a device is not copied")


def make_link(desk: Desk, row: Row, target: str, place: Tuple[str, str]) -> None:
    name = desk.name("link")
    os.symlink(target, desk.place(name))
    row.outputs.append(desk.places.put(desk.place(name), *place))


def mixed(desk: Desk, item: Item, row: Row) -> Row:
    """A path that is a file in one tree and a folder, a link or something else in another: what is no folder is set aside."""
    words = {trees.FILE: "a file", trees.LINK: "a symbolic link", trees.SPECIAL: "no file", "folder": "a folder"}
    said = [f"{words[kind]} in {printable(desk.labels[tree])}" for tree, kind in sorted(item.kinds.items())]
    row.copies = len(item.kinds)
    if trees.LINK in item.kinds.values():
        link(desk, Item(item.path, {**item.kinds, -1: trees.FOLDER}), row)
    for tree in item.trees_with(trees.FILE):
        desk.set_aside(row, [Copy(tree, os.path.join(desk.trees[tree], item.path), {})])
    row.kind = "mixed"
    return row.end("differs", 1, "it is " + ", and ".join(said))


def gone(desk: Desk, item: Item) -> List[str]:
    """A text for each tree whose file or link of a path can't be read any more."""
    said = []
    for tree, kind in sorted(item.kinds.items()):
        path = os.path.join(desk.trees[tree], item.path)
        try:
            if kind == trees.FILE:
                open(path, "rb").close()
            elif kind == trees.LINK:
                os.readlink(path)
        except OSError as fault:
            said.append(unread(desk, tree, fault.strerror))
    return said


def settle(desk: Desk, item: Item) -> Row:
    """The row of a path, with its files written. A copy that went away meanwhile is a result, and doesn't end the run."""
    inputs, row = inputs_of(desk, item), Row(item.path)
    try:
        settle_as_it_is(desk, item, row)
    except (OSError, ProgramFailed) as fault:
        is_long = isinstance(fault, OSError) and fault.errno == errno.ENAMETOOLONG
        said = [] if is_long else gone(desk, item)
        if not (is_long or said):
            raise
        desk.places.undo()
        row = Row(item.path, row.kind, len(item.kinds))
        row.end(*("name too long", 4, "OUT can't have a path so long") if is_long else (CANNOT_BE_READ, 4, "; ".join(said)))
    row.inputs = desk.inputs(inputs, row)
    return row


def settle_as_it_is(desk: Desk, item: Item, row: Row) -> Row:
    """The row of a path whose copies stay as they are meanwhile."""
    kinds = set(item.kinds.values())
    if item.faults:
        row.kind, said = "folder", [unread(desk, tree, text) for tree, text in item.faults]
        return row.end(CANNOT_BE_READ, 4, "; ".join(said))
    if not kinds:
        row.kind, row.sum = "listed", "no file"
        return row.end("not there", 1, "no tree has the file")
    if kinds == {trees.FILE}:
        return files(desk, item, row)
    if kinds == {trees.LINK}:
        return link(desk, item, row)
    if kinds == {trees.SPECIAL}:
        row.copies = len(item.kinds)
        return special(row)
    return mixed(desk, item, row)
