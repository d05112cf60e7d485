"""Checks of tests/commands_archive on what stands beside the folders of `jls-archive --folders`."""
from __future__ import annotations

import csv
import os
import subprocess
from typing import Dict, Iterator, Tuple

import archive_cases as cases
from archive_cases import ARCHIVE, PROGRAMS, get, put

Check = Tuple[str, bool]


def archive(*words: str) -> Tuple[int, str]:
    """(status, fault lines)"""
    done = subprocess.run([ARCHIVE, "--quiet", *words], env=PROGRAMS, capture_output=True, text=True)
    return done.returncode, done.stderr


def told(out: str) -> Dict[str, Tuple[str, ...]]:
    """{path: (kind, result, status)} of the rows of a run."""
    with open(f"{out}/pictures.csv", newline="", encoding="utf-8", errors="surrogateescape") as file:
        return {row["path"]: (row["kind"], row["result"], row["status"]) for row in csv.DictReader(file)}


def note_of(out: str, path: str) -> str:
    with open(f"{out}/pictures.csv", newline="", encoding="utf-8", errors="surrogateescape") as file:
        return next((row["note"] for row in csv.DictReader(file) if row["path"] == path), "")


def checks_of_beside(work: str) -> Iterator[Check]:
    """Each file, link and pipe beside the folders has a row, until it stands there no more."""
    work = f"{work}/beside"
    (true,) = cases.files_of(work, [cases.rows_of(cases.random_of(5))])
    source, out, long = f"{work}/in", f"{work}/out", "l" * 250 + ".jls"
    put(f"{source}/one/copy.jls", true)
    put(f"{source}/one/note", b"a note")
    whole = {"one": ("jls", "joined", "0")}
    yield "beside: folders alone are whole", (archive("--folders", source, out), told(out)) == ((0, ""), whole)
    yield "beside: one other file of a folder is one", note_of(out, "one").endswith("; 1 other file")
    for name in ("one", "late.jls", "line\nfeed", "not \udcff", long):
        put(f"{source}/{name}" if name != "one" else f"{source}/one.row", true)
    os.symlink("one", f"{source}/link")
    os.mkfifo(f"{source}/pipe")
    beside = {f"./{name}": ("other", "in no folder", "1") for name in ("one.row", "late.jls", "line\nfeed", "not \udcff", long)}
    wanted = {**whole, **beside, "./link": ("link", "in no folder", "1"), "./pipe": ("special", "no file", "1")}
    yield "beside: each has a row, and the status is 1", (archive("--folders", source, out), told(out)) == ((1, ""), wanted)
    yield "beside: the note of a link names where it leads", "a symbolic link to one is not followed" in note_of(out, "./link")
    rows = {name: os.stat(f"{out}/{name}").st_ino for name in os.listdir(out) if name.endswith(".row")}
    again = archive("--folders", source, out), {name: os.stat(f"{out}/{name}").st_ino for name in rows}
    yield "beside: the next call does nothing anew", again == ((1, ""), rows) and len(rows) == len(wanted)
    yield "beside: --report tells them too", (archive("--report", out), told(out)) == ((1, ""), wanted)
    for part in ("1/3", "2/3", "3/3"):
        archive("--folders", "--part", part, source, f"{work}/parts")
    yield "beside: parts have all of them", told(f"{work}/parts") == wanted
    os.makedirs(f"{source}/two")
    os.rename(f"{source}/late.jls", f"{source}/two/copy.jls")
    for name in ("one.row", "line\nfeed", "not \udcff", long, "link", "pipe"):
        os.unlink(f"{source}/{name}")
    status = archive("--folders", source, out)
    yield "beside: what stands there no more has no row", (status, told(out)) == ((0, ""), {**whole, "two": whole["one"]})
    yield "beside: nothing else is lost", get(f"{out}/two.jls") == true == get(f"{out}/one.jls")


CHECKS = (checks_of_beside,)
