"""Checks of tests/commands_archive on copies that can't be read at one call, and perhaps at the next one."""
from __future__ import annotations

import csv
import os
import subprocess
import sys
from typing import Dict, Iterator, List, Tuple

from archive_cases import PROGRAMS, TOP, get, put

Check = Tuple[str, bool]
# jls-archive where reading some files fails as on a disk with bad sectors: they are named before its own words, and a word -- follows them
FAILING = """
import errno, io, os, sys
sys.path.insert(0, sys.argv[1])
from jls_tools.archive import main

end = sys.argv.index("--")
bad = set(sys.argv[2:end])
opened, opened_by_number = io.open, os.open

def refuse(path):
    if path in bad:
        raise OSError(errno.EIO, os.strerror(errno.EIO), path)

def open_unless_bad(path, *words, **more):
    refuse(path)
    return opened(path, *words, **more)

def number_unless_bad(path, *words, **more):
    refuse(path)
    return opened_by_number(path, *words, **more)

__builtins__.open, os.open = open_unless_bad, number_unless_bad
sys.argv[1:] = sys.argv[end + 1:]
sys.exit(main.main())
"""


def archive(work: str, *bad: str) -> Tuple[int, Dict[str, Dict[str, str]]]:
    """(status, rows) of a run over two trees, in which these files can't be read."""
    paths = [os.path.join(work, path) for path in bad]
    words = ["--quiet", f"{work}/out", f"{work}/a", f"{work}/b"]
    commands = os.path.join(TOP, "commands")
    done = subprocess.run([sys.executable, "-c", FAILING, commands, *paths, "--", *words], env=PROGRAMS, capture_output=True, text=True)
    if done.stderr:
        return done.returncode, {}
    with open(f"{work}/out.report/pictures.csv", newline="", encoding="utf-8") as file:
        return done.returncode, {row["path"]: row for row in csv.DictReader(file)}


def said(rows: Dict[str, Dict[str, str]], path: str) -> List[str]:
    return [rows.get(path, {}).get(name, "") for name in ("result", "status", "copies", "note")]


def checks_of_unread(work: str) -> Iterator[Check]:
    """A path of which a copy can't be read isn't done: the next call tries it again. What came of the others stays until then."""
    work = f"{work}/unread"
    for tree in "ab":
        put(f"{work}/{tree}/note", b"a note")
        put(f"{work}/{tree}/late", b"late " + tree.encode())
    status, rows = archive(work, "b/note", "a/late", "b/late")
    why = "cannot be read: Input/output error"
    yield "unread: the row names the copy", (status, said(rows, "note")) == (1, ["copied", "4", "1", f"b {why}"])
    yield "unread: so it does if there is no other", said(rows, "late") == ["cannot be read", "4", "0", f"a {why}; b {why}"]
    before = os.stat(f"{work}/out/note").st_ino
    status, rows = archive(work, "b/note", "a/note", "b/late")
    yield "unread: what was written stays if less can be read", said(rows, "note") == ["copied", "4", "1", f"b {why}"]
    yield "unread: its file is the one of before", get(f"{work}/out/note") == b"a note" and os.stat(f"{work}/out/note").st_ino == before
    yield "unread: a copy that is read now is taken", said(rows, "late") == ["copied", "4", "1", f"b {why}"]
    yield "unread: it stands in OUT", os.path.exists(f"{work}/out/late") and get(f"{work}/out/late") == b"late a"
    status, rows = archive(work)
    yield "unread: the next call does it anew", (status, said(rows, "note")) == (1, ["copied", "0", "2", ""])
    yield "unread: what it says follows from all copies", said(rows, "late") == ["differs", "1", "2", ""]
    yield "unread: what was written before is gone", not os.path.exists(f"{work}/out/late")
    written = get(f"{work}/out.report/rows/1-of-1.rows")
    status, rows = archive(work)
    yield "unread: then it is done", status == 1 and get(f"{work}/out.report/rows/1-of-1.rows") == written


CHECKS = (checks_of_unread,)
