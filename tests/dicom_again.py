"""Checks of further runs with one OUT: the frames and the log of an earlier run are made anew, and what is the user's stays."""
from __future__ import annotations

import os
from collections.abc import Iterator

from dicom_files import Bench, File, called, changed, element, get
from jls_tools.dicom.told_values import ToldValues

Check = tuple[str, bool]


def checks_of_again(bench: Bench, made: File) -> Iterator[Check]:
    true, first, second = made.bytes, made.items[0], made.items[1]
    both = [changed(true, (first + 70, bytes(40))), changed(true, (first + 75, bytes(30)))]
    status, out, printed, _, name = bench.mend(both)
    frames, log = f"{name}.frames", f"{name}.log"
    listed = set(os.listdir(frames))
    told = printed.endswith(f"\nOUT is not written: frame 0 is not whole\nframes are in {frames}\n")
    yield f"it is said that OUT is not written ({printed})", told
    yield f"two damaged copies: frames and a log ({status}, {listed})", (status, out) == (1, None) and "frame-0001.jls" in listed
    before = get(log)
    yield "the log has what was printed", before is not None and b"frame 1 whole" in before and b"copy " in before
    third = f"{bench.folder}/third.dcm"
    with open(third, "wb") as file:
        file.write(changed(true, (second + 70, bytes(8))))
    copies = [f"{bench.folder}/{bench.count}-{at}.dcm" for at in range(2)]
    status, printed, faults = called("mend", name, *copies)
    yield f"the same again ({status}, {faults})", status == 1 and set(os.listdir(frames)) == listed and get(log) == before
    with open(f"{frames}/mine", "w", encoding="ascii") as file:
        file.write("notes")
    status, printed, faults = called("mend", name, *copies, third)
    kept = (status, get(name), get(f"{frames}/mine"), get(log)) == (4, None, b"notes", before)
    yield f"a file of the user's in the folder: refused, and all stays ({status}, {faults})", kept and "not as jls-dicom made it" in faults
    os.remove(f"{frames}/mine")
    with open(f"{frames}/frame-0001.jls", "ab") as file:
        file.write(b"x")
    yield "a frame that the user changed: refused", called("mend", name, *copies, third)[0] == 4 and not os.path.exists(name)
    with open(f"{frames}/frame-0001.jls", "r+b") as file:
        file.truncate(len(made.frames[1]))
    os.rename(frames, f"{frames}.moved")
    os.symlink(f"{frames}.moved", frames)
    yield "a link in its place: refused", called("mend", name, *copies, third)[0] == 4
    os.remove(frames)
    os.rename(f"{frames}.moved", frames)
    status, printed, faults = called("mend", name, *copies, third)
    is_gone = not os.path.lexists(frames)
    yield f"a third copy: whole, and no frames beside it ({status}, {faults})", (status, get(name), is_gone) == (0, true, True)
    yield "the log is made anew", b"each byte in its place" in (get(log) or b"")
    yield "OUT is never replaced", called("mend", name, *copies, third)[0] == 4 and get(name) == true
    os.remove(name)
    with open(log, "wb") as file:
        file.write(b"my notes\n")
    status, _, faults = called("mend", name, *copies, third)
    yield f"a log of the user's: refused ({status}, {faults})", (status, get(name), get(log)) == (4, None, b"my notes\n")
    left = [each for each in os.listdir(bench.folder) if each.startswith(".jls-dicom") or ".part-" in each]
    yield f"nothing of the work stays: {left}", not left
    lost = bench.mend([changed(each, (second + 70, bytes(40))) for each in both])[2]
    yield f"it is said how many frames are not whole ({lost})", "\nOUT is not written: 2 frames are not whole\n" in lost


def checks_of_names(bench: Bench, made: File) -> Iterator[Check]:
    """--no-names leaves out what can have a name, of lines and of the log."""
    true = made.bytes
    copies = [changed(true, (made.name_at, b"E")), changed(true, (true.index(b"PRIVATE"), b"Q"), (true.index(b"20200131"), b"1"))]
    for words, is_named in (((), True), (("--no-names",), False)):
        _, _, printed, _, name = bench.mend(copies, *words)
        log = (get(f"{name}.log") or b"").decode("ascii")
        for text in ("'D'", "'E'", "'P'", "'Q'"):
            yield f"{words}, {text}: {is_named} ({printed})", (text in printed, text in log) == (is_named, is_named)
        yield f"{words}: a date is told", "'1'" in printed and "'1'" in log


def checks_of_foreign_names(bench: Bench, made: File) -> Iterator[Check]:
    """--no-names leaves out letters where none belong, as foreign bytes over a date have them, and known terms stay."""
    true, foreign = made.bytes, b"Smith^Adam Q\\Smith^Eve, 12 Main St. " * 12
    date, term, rows = (true.index(text) for text in (b"20200131", b"MONOCHROME2", b"\x28\0\x10\0US"))
    kanji = b"\x1b$B;3?9:2^;3"
    for name, at, new, told in (
        ("a date", date, foreign[:8], "'20200131'"),
        ("a number", rows + 8, foreign[:2], "14 00"),
        ("a known term", term, foreign[:11], "'MONOCHROME2'"),
        ("a name in ISO 2022", term, kanji[:11], "'MONOCHROME2'"),
        ("a name in UTF-8", term, "Æøå^Üñ".encode()[:11], "'MONOCHROME2'"),
        ("from a date to beyond a name", date, foreign[: made.name_at + 10 - date], None),
        ("from a number on", rows + 8, foreign[:30], None),
    ):
        copies = [changed(true, (at, new)), changed(true, (made.items[0] + 70, bytes(8)))]
        _, _, printed, _, out = bench.mend(copies, "--no-names")
        log = (get(f"{out}.log") or b"").decode("ascii")
        for text in (printed, log):
            differs = [line for line in text.splitlines() if line.startswith("differ ")]
            parts = [new[:2], new[:2].hex(" ").encode(), b"Doe", b"44 6f 65", b"Smith", b"53 6d 69"]
            named = [part for part in parts if part.decode("latin-1") in "".join(differs)]
            yield f"{name}: no letter of it is told {named} ({differs})", bool(differs) and not named and " bytes" in text
        yield f"{name}: what is no name is told ({printed})", told is None or told in printed


def checks_of_told_values(bench: Bench, made: File) -> Iterator[Check]:
    """Lines show where values differ: UIDs whole and without padding, names in their character set, long values near the difference."""
    one, two, three = (f"1.2.276.0.7230010.3.1.4.8323329.1.{number}" for number in ("12345.67", "12345.68", "7"))
    frames = made.frames
    other, another = (File(frames, 12, 24, 20, uid=uid, stored=16).bytes for uid in (two, three))
    copies = [File(frames, 12, 24, 20, uid=one, stored=16).bytes, another, other]
    _, _, printed, _, out = bench.mend(copies, "--same")
    log = (get(f"{out}.log") or b"").decode("utf-8")
    for name, text in (("the lines", printed), ("OUT.log", log)):
        is_told = all(f"'{uid}'" in text for uid in (one, two, three))
        yield f"{name}: UIDs whole ({text})", is_told and "31 2e" not in text
    for characters, encoding in (("ISO_IR 100", "latin-1"), ("ISO_IR 192", "utf-8"), ("", "")):
        names = ["Müller^Jürgen", "Muller^Jürgen Ä"]
        values = [name.encode(encoding or "latin-1") for name in names]
        at, old = made.bytes.index(element(0x80008, "CS", "ORIGINAL\\PRIMARY")), element(0x100010, "PN", "Doe^Jane")
        true = made.bytes[:at] + (element(0x80005, "CS", characters) if characters else b"") + made.bytes[at:]
        copies = [true.replace(old, element(0x100010, "PN", value)) for value in values]
        _, _, printed, _, out = bench.mend(copies)
        log = (get(f"{out}.log") or b"").decode("utf-8")
        counts = [text.count("'Müller^Jürgen") + text.count("'Muller^Jürgen Ä") for text in (printed, log)]
        yield f"names in {characters or 'no character set'} ({printed})", counts == ([2, 2] if characters else [0, 0])
    told = ToldValues(True, "ISO_IR 192")
    long = ["Ä" * 60 + "one" + "x" * 60, "Ä" * 60 + "two" + "x" * 60, "Ä" * 200 + "y"]
    shown = told.told("(0008,103e)", [each.encode() for each in long])
    is_near = all(part in text for part, text in zip(("Äone", "Ätwo", "Ä"), shown))
    yield f"long texts are shown where they differ ({shown})", is_near and max(map(len, shown)) < 40
    shown = told.told("(0009,1001)", [bytes(5000) + b"\1" + bytes(50), bytes(5051), bytes(5052)])
    yield f"long numbers too ({shown})", shown[0] == ".. 00 00 00 00 00 00 00 00 01 00 00 00 00 00 00 00 .." and len(set(shown)) == 3
    shown = told.told("(0008,0018)", [b"1.2.3\0", b"1.2.3", None, b"1.2.34"])
    yield f"padding alone ({shown})", len(set(shown)) == 4
    shown = told.told("(0010,0010)", ["ü".encode()[1:] + b"x", "ä".encode()[1:] + b"x"])
    yield f"parts of letters ({shown})", shown == ["bc 78", "a4 78"]
    shown = told.told("(0008,0008)", [b"ORIGINAL\\PRIMARY", b"DERIVED\\PRIMARY "])
    yield f"several values ({shown})", shown == ["'ORIGINAL\\\\PRIMARY'", "'DERIVED\\\\PRIMARY '"]
    shown = told.told("(0008,0020)", [b"2020\n131", b"2020\xe4131"])
    yield f"what is no text ({shown})", shown == ["32 30 32 30 0a 31 33 31", "32 30 32 30 e4 31 33 31"]


AGAIN = [checks_of_again, checks_of_names, checks_of_told_values, checks_of_foreign_names]
