"""Makes trees of backups for tests/commands_archive and tests/archive: small pictures, with damage of a known outcome."""
from __future__ import annotations

import hashlib
import json
import os
import random
import struct
import subprocess
from collections.abc import Iterable, Sequence
from typing import Optional

import objects

TOP = os.path.dirname(os.path.dirname(os.path.realpath(__file__)))
PROGRAM = objects.program("jls-salvage")
SPLICE = objects.program("jls-splice")
PROGRAMS = {**os.environ, "JLS_SALVAGE": PROGRAM, "JLS_SPLICE": SPLICE}
ARCHIVE = os.path.join(TOP, "commands", "jls-archive")
VIEW = os.path.join(TOP, "commands", "jls-view")
WIDTH, HEIGHT = 24, 16
Rows = Sequence[Sequence[int]]  # the samples of each line
Row = dict[str, object]  # the cells of a picture, as a run keeps them


def put(path: str, data: bytes) -> str:
    os.makedirs(os.path.dirname(path), exist_ok=True)
    with open(path, "wb") as file:
        file.write(data)
    return path


def get(path: str) -> bytes:
    with open(path, "rb") as file:
        return file.read()


def text_of(rows: Rows, lines: Sequence[int] = range(HEIGHT)) -> bytes:
    """The text of a partial picture of 8 bits, with these lines of the rows."""
    out = b"JLSP\2\x08" + struct.pack(">HHB", WIDTH, HEIGHT, 1) + b"\1" + struct.pack(">I", len(lines))
    for line in lines:
        out += struct.pack(">BHQ", 0, line, 1) + struct.pack(f">{WIDTH}H", *rows[line]) + bytes(8)
    return out


def rows_of(rng: random.Random) -> Rows:
    return [[(x * 5 + y * 7 + rng.randrange(30)) % 256 for x in range(WIDTH)] for y in range(HEIGHT)]


def files_of(work: str, several: Iterable[Rows], *options: str) -> list[bytes]:
    """The JPEG-LS file of each of these rows."""
    made = []
    for rows in several:
        put(f"{work}/text", text_of(rows))
        subprocess.run([PROGRAM, "write", "--as", "jls", *options, f"{work}/file", f"{work}/text"], check=True)
        made.append(get(f"{work}/file"))
    return made


def scan_of(data: bytes) -> int:
    """Where the scan data begins."""
    return data.index(b"\xff\xda") + 10


def spoilt(data: bytes, *places: tuple[int, int]) -> bytes:
    """The file with bytes from these places on that are no code."""
    copy = bytearray(data)
    for begin, count in places:
        copy[begin : begin + count] = b"\xff" + b"\x80" * (count - 1)
    return bytes(copy)


class Case:
    """A path: what each tree has of it (nothing where it has none), the result that its row names, and what OUT has."""

    def __init__(self, copies: Sequence[Optional[bytes]], result: str, status: int, out: Optional[bytes]) -> None:
        self.copies = copies
        self.result = result
        self.status = status
        self.out = out


def same(rng: random.Random, true: bytes) -> Case:
    return Case([true, true], "reads", 0, true)


def one_damaged(rng: random.Random, true: bytes) -> Case:
    return Case([true, spoilt(true, (rng.randrange(scan_of(true), len(true) - 20), 5))], "mended", 0, true)


def both_damaged(rng: random.Random, true: bytes) -> Case:
    places = rng.sample(range(scan_of(true), len(true) - 20, 70), 2)
    return Case([spoilt(true, (place, rng.randrange(2, 8))) for place in places], "mended", 0, true)


def no_header(rng: random.Random, true: bytes) -> Case:
    return Case([bytes(12) + true[12:], spoilt(true, (len(true) // 2, 4))], "mended", 0, true)


def cut(rng: random.Random, true: bytes) -> Case:
    return Case([true[: len(true) // 2], spoilt(true, (scan_of(true) + 9, 4))], "mended", 0, true)


def lost(rng: random.Random, true: bytes) -> Case:
    """The same bytes are damaged in both."""
    place = scan_of(true) + 60
    copies = [spoilt(true, (place, 6), (place + 90, 4)), spoilt(true, (place, 6), (place + 180, 4))]
    return Case(copies, "lines missing", 1, None)


def alike(rng: random.Random, true: bytes) -> Case:
    """One damaged file in both trees."""
    damaged = spoilt(true, (scan_of(true) + 60, 6))
    return Case([damaged, damaged], "lines missing", 1, damaged)


def unread(rng: random.Random, true: bytes) -> Case:
    return Case([bytes(50), rng.randbytes(50)], "does not read", 3, None)


def alone(rng: random.Random, true: bytes) -> Case:
    copies: list[Optional[bytes]] = [true, None]
    rng.shuffle(copies)
    return Case(copies, "reads", 0, true)


PICTURES = (same, one_damaged, both_damaged, no_header, cut, lost, alike, unread, alone)


def note(rng: random.Random) -> Case:
    data = rng.randbytes(300)
    return Case([data, data], "copied", 0, data)


def notes_differ(rng: random.Random) -> Case:
    return Case([rng.randbytes(300), rng.randbytes(200)], "differs", 1, None)


def partials(rng: random.Random) -> Case:
    rows = rows_of(rng)
    return Case([text_of(rows, range(0, 9)), text_of(rows, range(7, HEIGHT))], "joined", 0, text_of(rows))


OTHERS = (note, notes_differ, partials)
ENDINGS = {note: "txt", notes_differ: "txt", partials: "jlsp"}
FORMS = ("case {}/picture.{}", "a,b{}.{}", "-{}.{}", "deep/er/{}.{}", "Fall ä {}.{}", "new\nline {}.{}", "not \udcff {}.{}")


def cases(rng: random.Random, count: int, work: str) -> dict[str, Case]:
    """{path: Case} of so many paths, whose kinds come in turn."""
    trues = files_of(work, [rows_of(rng) for _ in range(12)])
    made = {}
    for number in range(count):
        at = number % (len(PICTURES) + len(OTHERS))
        if at < len(PICTURES):
            case, ending = PICTURES[at](rng, rng.choice(trues)), "jls"
        else:
            kind = OTHERS[at - len(PICTURES)]
            case, ending = kind(rng), ENDINGS[kind]
        made[rng.choice(FORMS).format(number, ending)] = case
    return made


def write_trees(made: dict[str, Case], trees: Sequence[str]) -> None:
    for path, case in made.items():
        for tree, copy in zip(trees, case.copies):
            if copy is not None:
                put(os.path.join(tree, path), copy)


def state_of(folder: str) -> dict[str, str]:
    """{path: a sum} of the files in a folder, and {path: text} of its links."""
    found = {}
    for inside, folders, names in os.walk(folder):
        for name in folders + names:
            path = os.path.join(inside, name)
            if os.path.islink(path):
                found[os.path.relpath(path, folder)] = os.readlink(path)
            elif os.path.isfile(path):
                found[os.path.relpath(path, folder)] = hashlib.sha256(get(path)).hexdigest()
    return found


def kept_rows(out: str) -> dict[str, Row]:
    """{path: row} of a run, as the files of its rows have them, whose lines stand in the order of the work."""
    found: dict[str, tuple[int, Row]] = {}
    folder = f"{out}.report/rows"
    for name in os.listdir(folder):
        for line in get(f"{folder}/{name}").splitlines():
            run, path, row = json.loads(line)
            if path not in found or found[path][0] <= run:
                found[path] = run, row
    return {path: row for path, (_, row) in found.items() if row}


def results_of(out: str) -> tuple[dict[tuple[str, str], str], dict[str, Row]]:
    """All that a run made, but for the page, which names OUT."""
    found = {}
    for root in ("", ".differ", ".partial", ".report"):
        for path, value in state_of(out + root).items():
            if path != "report.html" and not (root == ".report" and path.startswith("rows/")):
                found[root, path] = value
    return found, kept_rows(out)


random_of = random.Random
