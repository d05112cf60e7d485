"""Checks of tests/commands_archive on what is kept of a mended file, with names and without; and on files that read, by the library."""
from __future__ import annotations

import csv
import os
import struct
import subprocess
import sys
from typing import Any, Dict, Iterator, List, Tuple

import archive_cases as cases
from archive_cases import ARCHIVE, PROGRAM, PROGRAMS, SPLICE, get, put
from dicom_files import CLASS, File, element

sys.path.insert(0, os.path.join(cases.TOP, "commands"))

from jls_tools.archive import plain_walk
from jls_tools.dicom import info
from jls_tools.library import SONAME
from jls_tools.programs import Programs

Check = Tuple[str, bool]
NAME, OTHER = b"Doe^Jane", b"Xyz/Bcdf"


def rows_of(report: str) -> Dict[str, Dict[str, str]]:
    with open(f"{report}/pictures.csv", newline="", encoding="utf-8", errors="surrogateescape") as file:
        return {row["path"]: row for row in csv.DictReader(file)}


def texts_of(folder: str) -> List[bytes]:
    return [get(os.path.join(inside, name)) for inside, _, names in os.walk(folder) for name in names]


def called(words: List[str], **variables: str) -> Tuple[int, str]:
    done = subprocess.run([ARCHIVE, "--quiet", *words], env={**PROGRAMS, **variables}, capture_output=True, text=True)
    return done.returncode, done.stderr


def three_copies(work: str) -> Tuple[bytes, List[str]]:
    """A DICOM file, and trees with three copies of it: one has another name, and two a damaged frame each."""
    (stream,) = cases.files_of(work, [cases.rows_of(cases.random_of(21))])
    made = File([stream], 8, cases.WIDTH, cases.HEIGHT)
    place = made.items[0] + 8 + cases.scan_of(stream)
    copies = [made.bytes, cases.spoilt(made.bytes, (place + 20, 5)), cases.spoilt(made.bytes, (place + 90, 5))]
    copies[1] = copies[1].replace(NAME, OTHER)
    for tree, copy in zip("abc", copies):
        put(f"{work}/{tree}/scan.dcm", copy)
        put(f"{work}/{tree}/lost.dcm", cases.spoilt(made.bytes, (place + 40, 6), (place + 100 + 20 * ord(tree) % 60, 4)))
    return made.bytes, [f"{work}/{tree}" for tree in "abc"]


def checks_of_decisions(work: str) -> Iterator[Check]:
    """The log and the columns of a mended file, and no name of a patient where none is wanted."""
    work = f"{work}/decisions"
    true, trees = three_copies(work)
    ended = called([f"{work}/out", *trees])
    row, log = rows_of(f"{work}/out.report")["scan.dcm"], f"{work}/out.report/logs/scan.dcm.log"
    yield f"decisions: it is mended {ended}", ended == (1, "") and row["result"] == "mended" and get(f"{work}/out/scan.dcm") == true
    counts = [row[name] for name in ("decided", "one copy", "versions")]
    yield f"decisions: the table counts them {counts}", counts == ["1", "0", "1"]
    text = get(log) if os.path.exists(log) else b""
    yield "decisions: the log has the copies, what each has, and what was taken", text.count(b"copy ") == 3 and b"b/scan.dcm: 'Xyz/" in text
    yield "decisions: it names the element", b"(0010,0010), taken: 'Doe" in text
    page = get(f"{work}/out.report/report.html")
    yield "decisions: the page has the patient and a link to the log", NAME in page and b"logs/scan.dcm.log" in page
    yield "decisions: what isn't whole has its log beside its parts", b"copy " in get(f"{work}/out.partial/lost.dcm.log")
    again = called([f"{work}/out", *trees], JLS_SPLICE="/nowhere")
    yield "decisions: made again nothing is done anew", again == (1, "")
    ended = called(["--no-names", f"{work}/out", *trees])
    yield "no names: rows that told them are done anew", ended == (1, "") and rows_of(f"{work}/out.report")["scan.dcm"]["decided"] == "1"
    texts = [*texts_of(f"{work}/out.report/logs"), *texts_of(f"{work}/out.partial"), page_of(work)]
    yield "no names: none is in logs, the table and the page", not any(part in text for text in texts for part in (b"Doe", b"Jane", b"Xyz"))
    text = get(log)
    yield "no names: what was taken is told by its length", b"(0010,0010), taken: " in text and b" bytes (most copies have it)" in text
    latest = get(f"{work}/out.report/rows/1-of-1.rows").splitlines()[-2:]
    yield "no names: nor in rows", not any(b"Doe" in line for line in latest)
    again = called(["--no-names", f"{work}/out", *trees], JLS_SPLICE="/nowhere")
    yield "no names: made again nothing is done anew", again == (1, "")


def ends_of(work: str, places: List[Tuple[int, int]]) -> List[bytes]:
    """Two copies of a DICOM file, which have other bytes at these places."""
    (stream,) = cases.files_of(work, [cases.rows_of(cases.random_of(21))], "--ri", "4")
    made = File([stream], 8, cases.WIDTH, cases.HEIGHT)
    begin = made.items[0] + 8 + cases.scan_of(stream)
    return [cases.spoilt(made.bytes, (begin + at, size)) for at, size in places]


def checks_of_own_names(work: str) -> Iterator[Check]:
    """Folders of a tree that are named as a log, or a folder of frames, of another picture is: each picture keeps what is its own."""
    work = f"{work}/own"
    mended, lost = ends_of(work, [(20, 5), (90, 5)]), ends_of(work, [(40, 20), (40, 24)])
    kinds = {"scan.dcm": mended, "lost.dcm": lost}
    paths = [path for name in kinds for path in (name, f"{name}.log/{name}", f"{name}.frames/{name}", f"{name}.log/deep/{name}")]
    for path in paths:
        for tree, copy in zip("ab", kinds[os.path.basename(path)]):
            put(f"{work}/{tree}/{path}", copy)
    words = ["--jobs", "1", f"{work}/out", f"{work}/a", f"{work}/b"]
    ended, rows = called(words), rows_of(f"{work}/out.report")
    said = [rows[path]["result"] for path in paths if path in rows]
    yield f"own names: {ended} {said}", ended == (1, "") and said == ["mended"] * 4 + ["lines missing"] * 4
    logs = [*texts_of(f"{work}/out.report/logs"), *(text for text in texts_of(f"{work}/out.partial") if text.startswith(b"copy "))]
    told = sorted(text.partition(b"\n")[0] for text in logs)
    yield f"own names: a log for each {told}", told == sorted(f"copy {work}/a/{path}".encode() for path in paths)
    parts = [text for text in texts_of(f"{work}/out.partial") if text.startswith(b"JLSP")]
    yield f"own names: lines for each {len(parts)}", len(parts) == 4 and len(set(parts)) == 1
    again = called(words, JLS_SPLICE="/nowhere")
    yield f"own names: made again nothing is done anew {again}", again == (1, "") and rows_of(f"{work}/out.report") == rows


def checks_of_other_headers(work: str) -> Iterator[Check]:
    """Two headers of other lengths that read whole, as an archive makes them: a result of its own, with a table by tag."""
    work = f"{work}/headers"
    pair = ends_of(work, [(20, 5), (90, 5)])
    for name, copies in (("same.dcm", pair), ("lost.dcm", ends_of(work, [(40, 20), (40, 24)]))):
        longer = element(0x100010, "PN", "Doe^Jane Mary") + element(0x100020, "LO", "4711")
        put(f"{work}/a/{name}", copies[0])
        put(f"{work}/b/{name}", copies[1].replace(element(0x100010, "PN", NAME), longer))
    ended, rows = called([f"{work}/out", f"{work}/a", f"{work}/b"]), rows_of(f"{work}/out.report")
    row = rows["same.dcm"]
    told = [row[name] for name in ("result", "status", "settled", "missing", "versions")]
    yield f"other headers: {told} {ended}", told == ["same pixels, other header", "1", str(cases.HEIGHT), "0", "2"]
    lines = get(f"{work}/out.partial/same.dcm.log").decode().splitlines()
    versions = [line for line in lines if line.startswith("version")]
    wanted = [f"versions, undecided; A: 1 copy, {work}/a/same.dcm; B: 1 copy, {work}/b/same.dcm"]
    wanted += ["version (0010,0010), A: 'Doe^Jane'; B: 'Doe^Jane Mary '", "version (0010,0020), A: no element; B: '4711'"]
    yield f"other headers: the log has a table by tag {versions}", versions == wanted
    yield "other headers: no file is in OUT, and both stand beside it", not os.path.exists(f"{work}/out/same.dcm")
    yield "other headers: so they do", all(os.path.exists(f"{work}/out.differ/{tree}/same.dcm") for tree in "ab")
    yield f"other headers: lost lines come first {rows['lost.dcm']['result']}", rows["lost.dcm"]["result"] == "lines missing"
    page = get(f"{work}/out.report/report.html")
    yield "other headers: the page filters by it", b'data-result="same pixels, other header"' in page
    called(["--no-names", f"{work}/out", f"{work}/a", f"{work}/b"])
    text = get(f"{work}/out.partial/same.dcm.log")
    yield "other headers: without names the table has lengths", b"version (0010,0010), A: 8 bytes; B: 14 bytes" in text


def page_of(work: str) -> bytes:
    return get(f"{work}/out.report/report.html") + get(f"{work}/out.report/pictures.csv")


def without_vr(tag: int, value: bytes) -> bytes:
    return struct.pack("<HHI", tag >> 16, tag & 0xFFFF, len(value)) + value


def checks_of_syntaxes(work: str) -> Iterator[Check]:
    """Equal files of other transfer syntaxes are told as by the walk that goes on where bytes are damaged, and take no time."""
    work = f"{work}/syntaxes"
    pixels = bytes(range(256)) * 800
    items = b"\xfe\xff\0\xe0\xff\xff\xff\xff" + without_vr(0x100020, b"12") + b"\xfe\xff\x0d\xe0\0\0\0\0"
    sequence = struct.pack("<HHI", 8, 0x1140, 0xFFFFFFFF) + items + b"\xfe\xff\xdd\xe0\0\0\0\0"
    plain = without_vr(0x80016, b"1.2.840.10008.5.1.4.1.1.7\0") + sequence + without_vr(0x100010, b"Doe^Jane")
    plain += without_vr(0x7FE00010, pixels)
    coded = element(0x80016, "UI", CLASS) + element(0x100010, "PN", "Doe^Jane") + element(0x7FE00010, "OB", pixels)
    files: Dict[str, bytes] = {}
    for uid, data in (("", plain), (".1", coded), (".4.50", coded), (".1.99", coded), (".2", coded), (".1", coded[:-1]), ("", plain[:-1])):
        meta = element(0x20010, "UI", f"1.2.840.10008.1.2{uid}")
        files[f"{len(files)}.dcm"] = bytes(128) + b"DICM" + element(0x20000, "UL", struct.pack("<I", len(meta))) + meta + data
    for name, data in files.items():
        for tree in "ab":
            put(f"{work}/{tree}/{name}", data)
    called([f"{work}/out", f"{work}/a", f"{work}/b"])
    for name, row in rows_of(f"{work}/out.report").items():
        one: Any = info.OneFile
        refusal: Any = info.refusal_of
        wanted = refusal("it", one(f"{work}/a/{name}"))
        yield f"syntaxes: {name} {row['result']}, {row['note'][:60]}", row["note"] == wanted
    read = [bool(plain_walk.other_syntax(data)) for data in files.values()]
    yield f"syntaxes: those that read are walked plainly {read}", read == [True, True, True, False, False, False, False]


def counting(work: str, name: str, program: str) -> str:
    """A program that notes that it was called."""
    path = put(f"{work}/{name}", f"#!/bin/sh\necho {name} >> '{work}/calls'\nexec '{program}' \"$@\"\n".encode())
    os.chmod(path, 0o755)
    return path


def checks_of_library(work: str) -> Iterator[Check]:
    """Equal files that read start no program where the library is; without it the same comes of them, and of damaged ones too."""
    library = os.path.join(os.path.dirname(PROGRAM), SONAME)
    if not os.path.exists(library):
        print("left out: files that read, as there is no libjls_salvage beside jls-salvage")
        return
    work = f"{work}/library"
    streams = cases.files_of(work, [cases.rows_of(cases.random_of(31 + number)) for number in range(3)], "--ri", "4")
    whole: Dict[str, bytes] = {f"{number}.jls": stream for number, stream in enumerate(streams)}
    whole["one.dcm"] = File(streams[:1], 8, cases.WIDTH, cases.HEIGHT).bytes
    whole["three.dcm"] = File(streams, 8, cases.WIDTH, cases.HEIGHT).bytes
    first, second = streams[:2]
    odd = {"tail.jls": first + b"tail", "cut.jls": first[:-9], "bad.jls": cases.spoilt(first, (cases.scan_of(first) + 30, 5))}
    odd["bad.dcm"] = whole["three.dcm"].replace(second, cases.spoilt(second, (cases.scan_of(second) + 30, 5)))
    one = whole["one.dcm"]
    odd.update({"cut.dcm": one[:-40], "tail.dcm": one + bytes(64), "head.dcm": bytes(140) + one[140:]})
    odd["unsorted.dcm"] = one.replace(b"\x28\0\x02\0US", b"\x28\0\x99\0US")
    for tree in "ab":
        for folder, files in (("whole", whole), ("odd", odd)):
            for name, data in files.items():
                put(f"{work}/{folder}-{tree}/{name}", data)
    counted = {"JLS_SALVAGE": counting(work, "salvage", PROGRAM), "JLS_SPLICE": counting(work, "splice", SPLICE)}
    ended = called([f"{work}/out", f"{work}/whole-a", f"{work}/whole-b"], JLS_SALVAGE_LIBRARY=library, **counted)
    yield f"library: equal files that read start no program {ended}", ended == (0, "") and not os.path.exists(f"{work}/calls")
    called([f"{work}/without", f"{work}/whole-a", f"{work}/whole-b"], JLS_SALVAGE_LIBRARY="")
    yield "library: the same comes of them without it", cases.results_of(f"{work}/without") == cases.results_of(f"{work}/out")
    programs = Programs()
    for name, stream in {**whole, **odd}.items():
        place = put(f"{work}/one", stream)
        told, said = programs.check(place), programs.run([PROGRAM, "check", place])
        is_same = (told.status, told.printed, told.faults) == (said.status, said.printed, said.faults)
        yield f"library: of {name} it says what the program does", is_same
    words = [f"{work}/odd-a", f"{work}/odd-b"]
    called(["--jobs", "1", f"{work}/odd", *words], JLS_SALVAGE_LIBRARY=library, **counted)
    calls = get(f"{work}/calls").split()
    yield f"library: what doesn't read plainly goes to the programs {len(calls)}", calls.count(b"salvage") >= len(odd) - 1
    yield "library: jls-splice is asked once what it has", calls.count(b"splice") <= 1
    called([f"{work}/odd-without", *words], JLS_SALVAGE_LIBRARY="")
    yield "library: the same comes of damaged files without it", cases.results_of(f"{work}/odd-without") == cases.results_of(f"{work}/odd")


CHECKS = (checks_of_decisions, checks_of_own_names, checks_of_other_headers, checks_of_syntaxes, checks_of_library)
