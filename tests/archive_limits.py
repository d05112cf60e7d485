"""Checks of tests/commands_archive at the limits of a disk: names that are too long or no UTF-8, folders of many files, and no room."""
from __future__ import annotations

import csv
import os
import shutil
import subprocess
from typing import Dict, Iterator, List, Tuple

import archive_cases as cases
from archive_cases import ARCHIVE, PROGRAMS, get, put

Check = Tuple[str, bool]
LONGEST = 4095  # bytes of a path that the system takes
ROOMS = (24, 96, 200, 350, 2000)  # KB: in the last one there is room for all


def put_deep(folder: str, length: int, data: bytes) -> str:
    """A file in a folder whose whole path has so many bytes, which can be more than the system takes at once. Answers its path there."""
    here, names, left = os.getcwd(), [], length - len(os.fsencode(folder)) - 1
    os.makedirs(folder, exist_ok=True)
    os.chdir(folder)
    try:
        while left > 251:
            names.append("d" * 200)
            os.makedirs(names[-1], exist_ok=True)
            os.chdir(names[-1])
            left -= 201
        names.append("f" * (left - 4) + ".jls")
        with open(names[-1], "wb") as file:
            file.write(data)
    finally:
        os.chdir(here)
    return "/".join(names)


def rows_of(report: str) -> Dict[str, Dict[str, str]]:
    with open(f"{report}/pictures.csv", newline="", encoding="utf-8", errors="surrogateescape") as file:
        return {row["path"]: row for row in csv.DictReader(file)}


def kept(root: str) -> List[int]:
    """How long the names of the files below a folder are, in bytes."""
    return sorted(len(os.fsencode(name)) for _, _, names in os.walk(root) for name in names)


def checks_of_names(work: str) -> Iterator[Check]:
    """Paths as long as the system takes them, and longer; names without room for an ending; names that are no UTF-8."""
    work = f"{work}/n"
    files: List[bytes] = cases.files_of(work, [cases.rows_of(cases.random_of(5))])
    true, scan = files[0], cases.scan_of(files[0])
    odd, of_tree, paths = "\udcff\udcfe/\udc80,\"'\n.jls", {}, {}
    for tree, place in (("a", 4), ("b", 90)):
        mended, lost = cases.spoilt(true, (scan + place, 6)), cases.spoilt(true, (scan + 60, 6), (scan + place, 3))
        of_tree[tree] = mended
        for name, length, data in (("whole", LONGEST, true), ("mended", LONGEST - 9, mended), ("lost", LONGEST - 15, lost)):
            paths[name] = put_deep(f"{work}/{tree}", length, data)
        put_deep(f"{work}/{tree}", LONGEST + 400, true)
        for path, data in (("m" * 251 + ".jls", mended), ("n" * 251 + ".jls", lost), (odd, mended)):
            put(f"{work}/{tree}/{path}", data)
    for out in ("o", "out-with-a-longer-name"):
        done = subprocess.run([ARCHIVE, "--quiet", f"{work}/{out}", f"{work}/a", f"{work}/b"], env=PROGRAMS, capture_output=True, text=True)
        rows = rows_of(f"{work}/{out}.report")
        said = {name: rows.get(path, {}).get("result") for name, path in paths.items()}
        results = ("reads", "mended") if out == "o" else ("name too long", "name too long")
        yield f"names, {out}: the run comes to its end", (done.returncode, done.stderr, len(rows)) == (1, "", 7)
        yield f"names, {out}: long paths {said}", said == dict(zip(("whole", "mended", "lost"), (*results, "lines missing")))
        unread = [row["note"] for row in rows.values() if row["result"] == "cannot be read"]
        yield f"names, {out}: what is longer is told", len(unread) == 1 and "File name too long" in unread[0]
        yield f"names, {out}: long names are mended", rows["m" * 251 + ".jls"]["result"] == "mended" == rows[odd]["result"]
        yield f"names, {out}: a name that is no UTF-8 stays as it is", get(f"{work}/{out}/{odd}") == true
        yield f"names, {out}: where an ending has no room a sum stands for the name", {44, 45} <= set(kept(f"{work}/{out}.partial"))
        again = subprocess.run([ARCHIVE, "--quiet", f"{work}/{out}", f"{work}/a", f"{work}/b"], env={**PROGRAMS, "JLS_SPLICE": "/nowhere"})
        yield f"names, {out}: made again nothing is done anew", again.returncode == 1 and rows_of(f"{work}/{out}.report") == rows
    subprocess.run(["rm", "-rf", work], check=True)


def checks_of_many(work: str, count: int = 600) -> Iterator[Check]:
    """Many files in one folder, more than are sorted at once."""
    work = f"{work}/many"
    for tree in "ab":
        put(f"{work}/{tree}/base", b"a note")
        os.mkdir(f"{work}/{tree}/in")
        for number in range(count):
            os.link(f"{work}/{tree}/base", f"{work}/{tree}/in/{number * 7919 % count}")
    sums = "".join(f"{'0' * 64}  in/{number}\n" for number in range(0, count, 2))
    words = [ARCHIVE, "--quiet", "--sums", put(f"{work}/sums", sums.encode()), f"{work}/out", f"{work}/a", f"{work}/b"]
    statuses = [subprocess.run(words, env=PROGRAMS).returncode for _ in range(2)]
    rows = rows_of(f"{work}/out.report")
    yield "many: each has its row, in order", list(rows) == sorted(rows, key=os.fsencode) and len(rows) == count + 1
    yield "many: each has its sum", [row["sum"] for row in rows.values()].count("differs") == count // 2 and statuses == [1, 1]
    yield "many: a second run adds no line", len(get(f"{work}/out.report/rows/1-of-1.rows").splitlines()) == count + 1
    shutil.rmtree(work)


def checks_of_full_disk(work: str) -> Iterator[Check]:
    """A disk that is full sooner or later: the run stops with 4, no file is half written, and with more room it comes to the same."""
    work = f"{work}/full"
    made = cases.cases(cases.random_of(7), 12, work)
    cases.write_trees(made, [f"{work}/a", f"{work}/b"])
    for number, tree in enumerate("ab"):
        put(f"{work}/{tree}/large", bytes([number]) * 40000)
    os.makedirs(f"{work}/disk")
    subprocess.run([ARCHIVE, "--quiet", f"{work}/out", f"{work}/a", f"{work}/b"], env=PROGRAMS)
    whole = cases.results_of(f"{work}/out")
    if not shutil.which("unshare") or in_room(work, "4", "true")[0]:
        print("left out: a full disk, as there is no unshare that may mount one")
        return
    statuses = set()
    for room in ROOMS:
        words = f"'{ARCHIVE}' --quiet --jobs 2 '{work}/disk/out' '{work}/a' '{work}/b'"
        text = f"""
            {words}; echo $? > '{work}/first.status'; cp -a '{work}/disk' '{work}/first'
            mount -o remount,size=64m '{work}/disk'
            {words}; echo $? > '{work}/second.status'; cp -a '{work}/disk' '{work}/second'"""
        status, faults = in_room(work, str(room), text)
        first, second = (int(get(f"{work}/{name}.status")) for name in ("first", "second"))
        statuses.add(first)
        yield f"full disk, {room}: {first}, {faults}", first in (1, 4) and "Traceback" not in faults and status == 0
        halves = {path for path, found in cases.state_of(f"{work}/first/out").items() if whole[0]["", path] != found}
        yield f"full disk, {room}: no file of OUT is half written {halves}", not halves
        yield f"full disk, {room}: with more room the same comes of it", second == 1 and cases.results_of(f"{work}/second/out") == whole
        left = [name for _, _, names in os.walk(f"{work}/second") for name in names if name.startswith((".part", ".work"))]
        yield f"full disk, {room}: nothing of the work stays {left}", not left
        for name in ("first", "second"):
            shutil.rmtree(f"{work}/{name}")
    yield f"full disk: some were full {statuses}", statuses == {1, 4}


def in_room(work: str, room: str, text: str) -> Tuple[int, str]:
    """(status, fault lines) of commands that have a disk of so many KB."""
    words = ["unshare", "--map-root-user", "--mount", "sh", "-c", f"mount -t tmpfs -o size={room}k none '{work}/disk' || exit 9; {text}"]
    done = subprocess.run(words, env=PROGRAMS, capture_output=True, text=True)
    return done.returncode, done.stderr


CHECKS = (checks_of_names, checks_of_many, checks_of_full_disk)
