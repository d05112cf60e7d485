"""tests/library_mended.py MENDING PROGRAM FOLDER: does jls_mend of the library give what jls-splice gives? FOLDER is that of the examples.

MENDING is tests/library_c/mending.c, and PROGRAM is jls-splice. Both are called on the same copies, which are the examples, and files that
are made and damaged here, and with the same lists of bad places. Lines, partial picture, mended file, files with numbers and promise have
to be the same. It prints what differs.
"""
from __future__ import annotations

import os
import random
import re
import subprocess
import sys
import tempfile
from typing import Sequence

import jls_salvage

GROUPS = 16
differing: list[str] = []
promised: list[bool] = []


def differ(what: str, found: object, wanted: object) -> None:
    if found != wanted:
        differing.append(what)
        print(f"{what}: {found!r:.200}, and {wanted!r:.200} is wanted")


def contents(folder: str) -> dict[str, bytes]:
    """The files of a folder, but the copies and the lists."""
    found = {}
    inputs = {f"{kind}{number}" for kind in ("", "BAD-") for number in range(1, 10)}
    for name in sorted(set(os.listdir(folder)) - inputs):
        with open(os.path.join(folder, name), "rb") as file:
            found[name] = file.read()
    return found


def same(what: str, programs: Sequence[str], copies: Sequence[bytes], tries: str = "4096", source: str = "-", most: str = "-",
         files: bool = True, bad: Sequence[tuple[int, str]] = ()) -> None:  # fmt: skip
    """Compares what both make of these copies, whose names are their numbers, and of these lists of bad places."""
    mending, program = programs
    with tempfile.TemporaryDirectory() as ours, tempfile.TemporaryDirectory() as theirs:
        names = [str(number) for number in range(1, len(copies) + 1)]
        lists = [f"{copy}:BAD-{number}" for number, (copy, _) in enumerate(bad, 1)]
        texts = [text.encode() for _, text in bad]
        for name, copy in zip([*names, *(word.partition(":")[2] for word in lists)], [*copies, *texts]):
            with open(os.path.join(theirs, name), "wb") as file:
                file.write(copy)
        words = [mending, tries if tries != "4096" else "0", source, most, "1" if files else "0", ours, *names]
        words += ["--bad", *lists] if lists else []
        told = subprocess.run(words, cwd=theirs, capture_output=True, text=True)
        words = [program, "--file", "FILE", *(["--files", "ALL"] if files else []), "--tries", tries]
        words += (["--source", source] if source != "-" else []) + (["--max", most] if most != "-" else [])
        words += [word for each in lists for word in ("--bad", each)]
        ran = subprocess.run([*words, "OUT", *names], cwd=theirs, capture_output=True)
        wanted = {**contents(theirs), **({"LINES": ran.stdout} if ran.stdout else {})}
        found = contents(ours)
        differ(f"{what}: outputs", sorted(found), sorted(wanted))
        differ(f"{what}: those that differ", [name for name in found if found[name] != wanted.get(name)], [])
        values = dict(re.findall(r"(\w+) (-?\d+)", told.stdout))
        differ(f"{what}: status", (told.returncode, told.stderr), (0, ""))
        if ran.returncode > 1:
            differ(f"{what}: answer", values.get("answer"), "15")
            line = ran.stderr.decode()
            copy, number = int(values.get("copy", -1)) + 1, int(values.get("list", -1)) + 1
            name = f"BAD-{number}" if number else str(copy)
            differ(f"{what}: the copy or list is named", (line.startswith(f"jls-splice: {name}: "), copy * number), (True, 0))
            by_line = re.search(r"by line (\d+)$", line.strip())
            differ(f"{what}: the line", values.get("line"), by_line.group(1) if by_line else "0")
            offset = re.search(r"at (?:offset )?(\d+)$", line.strip())
            differ(f"{what}: the offset", values.get("offset"), offset.group(1) if offset else "0")
            return
        numbered = sum(name.startswith("ALL-") for name in wanted)
        counts = {"answer": "0", "cause": "0", "promised": str(1 - ran.returncode), "whole": "1", "file": str(int("FILE" in wanted)),
                  "files": str(numbered)}  # fmt: skip
        differ(f"{what}: what is told", {name: values.get(name) for name in counts}, counts)
        promised.append(ran.returncode == 0)


def made(chance: random.Random) -> bytes:
    """A file: a slope with noise."""
    width, height = chance.randrange(8, 60), chance.randrange(8, 60)
    precision, components = chance.choice((8, 12, 16)), chance.choice((1, 3))
    most = 2**precision - 1
    places = [(x, y) for _ in range(components) for y in range(height) for x in range(width)]
    samples = [min(most, (x + y) * most // 160 + chance.randrange(1 + most // 60)) for x, y in places]
    interleaved, interval = components > 1 and chance.random() < 0.5, chance.choice((0, 0, 5))
    return jls_salvage.write(samples, precision, width, height, components, interleaved=interleaved, restart_interval=interval)


def groups(programs: Sequence[str]) -> None:
    """Copies that are damaged at places of their own."""
    chance = random.Random(11)
    for number in range(GROUPS):
        true = made(chance)
        begin, copies = true.index(b"\xff\xda") + 20, []
        for part in range(number % 2 + 2):
            at, copy = begin + part * (len(true) - begin) // 4 + chance.randrange(4), bytearray(true)
            copy[at : at + 6] = bytes(6) if number % 3 else chance.randbytes(6)
            copies.append(bytes(copy))
        same(f"group {number}", programs, copies, files=number % 4 > 0)
    differ("half of the groups are promised", sum(promised) * 2 >= GROUPS, True)


def examples(programs: Sequence[str], folder: str) -> None:
    pairs = {}
    for name in ("plain-", "coded-", "head-", ""):
        pairs[name] = []
        for which in ("first", "second"):
            with open(os.path.join(folder, f"{name}{which}.jls"), "rb") as file:
                pairs[name].append(file.read())
        same(f"{name}copies", programs, pairs[name])
    same("options", programs, pairs["plain-"], "9", "3", "255")
    same("a ceiling of 0", programs, pairs["plain-"], most="0")
    same("a source of 0", programs, pairs["coded-"], source="0")
    same("one try", programs, [*pairs["coded-"], *pairs["head-"]], "1")
    same("without EOI", programs, [copy[:-2] for copy in pairs["plain-"]])
    same("more files than the first room has", programs, [pairs["plain-"][0][: 60 + at] for at in range(9)])
    large = jls_salvage.write(random.Random(13).choices(range(65536), k=90000), 16, 300, 300)
    other = bytearray(large)
    other[100 : len(large) - 50 : 40] = bytes(byte ^ 0x11 for byte in other[100 : len(large) - 50 : 40])
    same("more places than are listed", programs, [large, bytes(other)], "1")
    flat = jls_salvage.write([0] * 3000000, 8, 3000, 1000)
    same("a copy of no bytes", programs, [pairs["plain-"][0], b"", pairs["plain-"][1]])
    same("a copy of no bytes beside one", programs, [b"", pairs["coded-"][0]])
    same("a picture that is larger than its copies", programs, [flat[: len(flat) // 2], flat[: len(flat) // 3]])
    for what, copies in {
        "no picture": [b"\xff\xd8", b"x"],
        "empty copies": [b"", b""],
        "a partial picture": [pairs["plain-"][0], jls_salvage.partial(pairs["plain-"][0], 1)],
        "two shapes": [jls_salvage.write([1] * 4, 8, 2, 2), jls_salvage.write([1] * 4, 8, 4, 1)],
    }.items():
        same(what, programs, copies)


def lists(programs: Sequence[str], folder: str) -> None:
    """Copies with lists of their bad places: each pair is damaged where a search of one try mends nothing, and the lists do."""
    chance, before = random.Random(12), len(promised)
    for number in range(GROUPS // 2):
        true = made(chance)
        begin = true.index(b"\xff\xda") + 20
        copies, texts = [], []
        for part in range(2):
            places = [begin + (4 * at + 2 * part) * (len(true) - begin - 8) // 16 for at in range(4)]
            copy = bytearray(true)
            for place in places:
                copy[place : place + 3] = b"\0\0\0" if number % 2 else chance.randbytes(3)
            copies.append(bytes(copy))
            texts.append((part + 1, "".join(f"{place} 3\n" for place in places)))
        same(f"bad places {number}, one try", programs, copies, "1")
        differ(f"bad places {number}: a search of one try mends them", promised.pop(), False)
        same(f"bad places {number}", programs, copies, "1", bad=texts[::-1] if number % 3 else texts)
        same(f"bad places {number}, of one copy", programs, copies, bad=texts[1:])
        same(f"bad places {number}, one copy", programs, copies[:1], bad=texts[:1])
        promised.pop()
    differ("what lists mend is promised", all(promised[before:]), True)
    with open(os.path.join(folder, "plain-first.jls"), "rb") as file:
        whole = [file.read()]
    mapfile = "# Mapfile. Created by GNU ddrescue version 1.27\n0x10 ? 1\n0x0 0x40 +\n0x40 0x8 -\n0x48 0x1000 +\n"
    for what, bad in {
        "a mapfile": [(1, mapfile)],
        "two lists of one copy": [(1, "60 8\n"), (1, "# none\n")],
        "a list behind the end": [(1, "100000000 9\n")],
        "a list that is none": [(1, "# none\n"), (1, "60 8\nat 70\n")],
        "a partial picture as a list": [(1, "JLSP 1\n")],
        "a list with a large number": [(1, "18446744073709551616 1\n")],
    }.items():
        same(what, programs, whole, bad=bad)


def main() -> int:
    mending, program, folder = (os.path.abspath(word) for word in sys.argv[1:])
    groups((mending, program))
    examples((mending, program), folder)
    lists((mending, program), folder)
    return 1 if differing else 0


if __name__ == "__main__":
    sys.exit(main())
