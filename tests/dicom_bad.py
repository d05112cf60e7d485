"""Checks of bytes that are known to be bad: sectors that a disk or ddrescue filled, and lists of `--bad`."""
from __future__ import annotations

import os
import random
import re
import struct
import subprocess
import sys
from collections.abc import Iterator, Sequence

from dicom_files import CLASS, HERE, PROGRAMS, SYNTAX, Bench, File, called, changed, element, frame, get, with_value

sys.path.append(os.path.join(HERE, "commands"))
from jls_tools import partial_picture  # noqa: E402
from jls_tools.dicom.axis import bad_places  # noqa: E402
from jls_tools.dicom.axis.align import Copy  # noqa: E402
from jls_tools.dicom.evidence import doubtful  # noqa: E402

Check = tuple[str, bool]
Lines = dict[int, list[bytes]]  # the readings of each line
Changes = Sequence[tuple[int, bytes]]  # where a copy has other bytes, and which
SIDE, SECTOR, INTERVAL = 80, 512, 8
PLACE = b"\n# position 0x00000800 sector 0x00000004 status - "
FILLS = {
    "zeros": bytes(SECTOR),
    "one byte": b"\x55" * SECTOR,
    "a text": (b"BAD-SECTOR " * 60)[:SECTOR],
    "a text and a line feed": (b"this sector was not read\n" * 60)[:SECTOR],
    "a text that began before": (b"BAD-SECTOR " * 60)[5 : SECTOR + 5],
    "its place, and zeros": PLACE + bytes(SECTOR - len(PLACE)),
}


def file_of(rng: random.Random, folder: str, interval: int = 0) -> File:
    """A file of one frame, with a restart marker after so many lines."""
    stream = frame(rng, 8, SIDE, SIDE, folder)
    if interval:
        words = [PROGRAMS["JLS_SALVAGE"], "write", "--as", "jls", "--ri", str(interval), f"{folder}/frame.jls", f"{folder}/frame.jlsp"]
        subprocess.run(words, check=True)
        stream = get(f"{folder}/frame.jls") or b""
    return File([stream], 8, SIDE, SIDE)


def head_of(stream: bytes, size: int, folder: str) -> Lines:
    """The lines of the beginning of a codestream, as `jls-salvage join` takes them: {line: its readings}."""
    with open(f"{folder}/head.jls", "wb") as file:
        file.write(stream[:size])
    subprocess.run([PROGRAMS["JLS_SALVAGE"], "join", f"{folder}/head.jlsp", f"{folder}/head.jls"], capture_output=True)
    return lines_in(f"{folder}/head.jlsp")


def lines_in(path: str) -> Lines:
    readings = partial_picture.read(path).readings if os.path.exists(path) else {}
    return {line: [reading.samples for reading in several] for (_, line), several in readings.items()}


def border_in(made: File) -> tuple[int, int]:
    """A border of sectors in the middle of the frame, as an offset in the file and in the frame."""
    at = (made.items[0] + 8 + len(made.frames[0]) // 2) // SECTOR * SECTOR
    return at, at - made.items[0] - 8


def put(path: str, text: str) -> str:
    with open(path, "w", encoding="ascii") as file:
        file.write(text)
    return path


def checks_of_bad_sectors(bench: Bench, folder: str, rng: random.Random) -> Iterator[Check]:
    """Of one copy, and of equal ones, the lines before a bad sector come back."""
    made = file_of(rng, folder)
    true, stream = made.bytes, made.frames[0]
    at, inside = border_in(made)
    head, whole = head_of(stream, inside, folder), head_of(stream, len(stream), folder)
    yield f"the head has {len(head)} lines of {len(whole)}", 8 < len(head) < len(whole) == SIDE and head.items() <= whole.items()
    for name, fill in FILLS.items():
        copy = changed(true, (at, fill))
        for many in (1, 2):
            status, out, printed, _, path = bench.mend([copy] * many)
            found = lines_in(f"{path}.frames/frame-0000.jlsp")
            told = f"cut before bad bytes at {at}\n" in printed
            yield f"{name}, copies {many}: its head ({status}, {printed})", (status, out, found == head, told) == (1, None, True, True)
    status, printed, _ = called("info", f"{bench.folder}/{bench.count}-0.dcm")
    yield f"info: the head ({printed})", status == 1 and f"frame 0 lines, settled {len(head)}, missing {SIDE - len(head)}," in printed
    for name, copy in (
        ("zeros that are no sector", changed(true, (at + 1, bytes(SECTOR)))),
        ("a sector of noise", changed(true, (at, rng.randbytes(SECTOR)))),
        ("a text but for one byte", changed(true, (at, FILLS["a text"][:-1] + b"!"))),
    ):
        status, _, printed, _, path = bench.mend([copy])
        yield f"{name}: no line ({status}, {printed})", status == 1 and not lines_in(f"{path}.frames/frame-0000.jlsp")
    ended = true[:at] + bytes(len(true) - at)
    for many in (1, 2):
        _, _, printed, _, path = bench.mend([ended] * many)
        ends = [lines_in(f"{path}.frames/{name}") for name in os.listdir(f"{path}.frames") if name.endswith("jlsp")]
        yield f"zeros to the end, copies {many}: its head ({printed})", head in ends
    other = changed(true, (at, FILLS["zeros"]), (made.items[0] + 200, bytes(8)))
    _, _, printed, _, path = bench.mend([changed(true, (at, FILLS["a text"]), (made.items[0] + 300, bytes(8))), other])
    yield f"two copies that differ before it: its head ({printed})", lines_in(f"{path}.frames/frame-0000.jlsp") == head
    both = [changed(true, (at, bytes(SECTOR))), changed(true, (at + SECTOR, bytes(SECTOR)))]
    yield "a sector in each: the same file", bench.mend(both)[:2] == (0, true)


def checks_of_seen(rng: random.Random) -> Iterator[Check]:
    """Which sectors of a file look bad: by hand, with what stands beside them and behind the last border."""
    noise = rng.randbytes(SECTOR)
    text = FILLS["a text"]
    cases = {
        "nothing": (b"", []),
        "noise": (noise * 3, []),
        "a sector": (noise + bytes(SECTOR) + noise, [(512, 1024)]),
        "two, of another kind each": (noise + text + bytes(SECTOR), [(512, 1536)]),
        "a rest behind a bad sector": (noise + bytes(SECTOR + 3), [(512, 1027)]),
        "a rest of a text behind it": (noise + (b"BAD-SECTOR " * 60)[: SECTOR + 25], [(512, 1049)]),
        "another rest": (noise + bytes(SECTOR) + b"\xff\xd9", [(512, 1024)]),
        "a short rest behind noise": (noise + bytes(63), []),
        "a long one": (noise + bytes(64), [(512, 576)]),
        "a text of 128 letters": (noise + (bytes(range(32, 127)) + bytes(range(64, 97))) * 4, [(512, 1024)]),
        "a text that comes twice": (noise + (bytes(range(32, 127)) + bytes(range(126, 31, -1)) + bytes(range(61, 127))) * 2, []),
        "bytes again and again": (noise + b"\xff\x7f" * 256, []),
    }
    for name, (data, wanted) in cases.items():
        yield f"{name}: {wanted} ({bad_places.seen(data)})", bad_places.seen(data) == wanted


def checks_of_bad_intervals(bench: Bench, folder: str, rng: random.Random) -> Iterator[Check]:
    """With restart intervals, of each that has a bad sector the lines before it come back, and the others."""
    made = file_of(rng, folder, INTERVAL)
    stream, at = made.frames[0], border_in(made)[0]
    whole = head_of(stream, len(stream), folder)
    borders = [0, *(found.start() for found in re.finditer(b"\xff[\xd0-\xd7]", stream)), len(stream)]
    yield f"{len(borders) - 1} intervals", len(borders) == SIDE // INTERVAL + 1
    for bad in ([at], [at - SECTOR, at + SECTOR], [at, at + SECTOR], [at, at + 2 * SECTOR]):
        inside = [place - made.items[0] - 8 for place in bad]
        wanted = set()
        for number, (begin, end) in enumerate(zip(borders, borders[1:])):
            lines = set(range(number * INTERVAL, (number + 1) * INTERVAL))
            first = min((place for place in inside if begin < place + SECTOR and place < end), default=None)
            wanted |= lines if first is None else lines & set(head_of(stream, first, folder)) if first >= begin + 2 else set()
        status, _, printed, _, path = bench.mend([changed(made.bytes, *((place, bytes(SECTOR)) for place in bad))])
        found = lines_in(f"{path}.frames/frame-0000.jlsp")
        is_true = found.items() <= whole.items()
        yield f"intervals, bad {bad}: {len(wanted)} lines ({status}, {printed})", status == 1 and is_true and wanted == set(found)
    yield from checks_of_strange_intervals(bench, folder, rng)


def checks_of_strange_intervals(bench: Bench, folder: str, rng: random.Random) -> Iterator[Check]:
    """Bad bytes that are restart markers and an interval of another place are not read; nor is what follows bad bytes without a marker."""
    made = file_of(rng, folder, 4)
    stream, begin = made.frames[0], made.items[0] + 8
    whole, borders = head_of(stream, len(stream), folder), [found.start() for found in re.finditer(b"\xff[\xd0-\xd7]", stream)]
    strange = stream[borders[1] : borders[2] + 2]  # the third interval, between markers as the eleventh has them
    bad = (borders[9] - 20, borders[9] - 20 + len(strange) + 120)
    copy = changed(made.bytes, (begin + bad[0], bytes(bad[1] - bad[0])), (begin + bad[0] + 30, strange))
    words = ("--bad", f"1:{put(f'{folder}/strange', f'{begin + bad[0]} {bad[1] - bad[0]}')}")
    _, _, printed, _, path = bench.mend([copy], *words)
    found = lines_in(f"{path}.frames/frame-0000.jlsp")
    yield f"an interval of another place: nothing of it ({printed})", found.items() <= whole.items() and len(found) > SIDE // 2
    plain = file_of(rng, folder)
    at, inside = border_in(plain)
    places, inside = (at - 2 * SECTOR, at), inside - 2 * SECTOR
    _, _, printed, _, path = bench.mend([changed(plain.bytes, *((place, bytes(SECTOR)) for place in places))])
    is_head = lines_in(f"{path}.frames/frame-0000.jlsp") == head_of(plain.frames[0], inside, folder)
    yield f"two bad sectors without a marker between them: the head ({printed})", is_head and "and in another place" in printed


def checks_of_bad_beginnings(bench: Bench, folder: str, rng: random.Random) -> Iterator[Check]:
    """A foreign file over the beginning of one copy, and a sector that is bad in both."""
    made = file_of(rng, folder)
    true, (at, inside) = made.bytes, border_in(made)
    meta = element(0x20002, "UI", CLASS) + element(0x20003, "UI", "1.2.3.9.9") + element(0x20010, "UI", SYNTAX)
    data = element(0x20000, "UL", struct.pack("<I", len(meta))) + meta
    data += element(0x80016, "UI", CLASS) + element(0x80018, "UI", "1.2.3.9.9")
    foreign = (bytes(128) + b"DICM" + data + element(0x91001, "OB", rng.randbytes(1 << 12)))[:SECTOR]
    copies = [changed(true, (at, bytes(SECTOR)), (len(true) - 20, b"x")), changed(foreign + true[SECTOR:], (at, bytes(SECTOR)))]
    _, _, printed, _, path = bench.mend(copies)
    is_head = lines_in(f"{path}.frames/frame-0000.jlsp") == head_of(made.frames[0], inside, folder)
    yield f"a foreign beginning, and a sector bad in both: the head ({printed})", is_head and "has overwritten its beginning" in printed


def checks_of_one_copy(bench: Bench, made: File, folder: str, rng: random.Random) -> Iterator[Check]:
    """One copy alone gives frames, and a file where --header takes its header."""
    true = made.bytes
    status, out, printed, _, name = bench.mend([true])
    is_there = get(f"{name}.frames/frame-0000.jls") == made.frames[0]
    told = "nothing confirms its header; --header COPY takes it\n" in printed and "differ" not in printed
    yield f"one copy that reads: its frames ({status}, {printed})", (status, out, is_there, told) == (1, None, True, True)
    status, out, printed, _, _ = bench.mend([true], "--header", "COPY0")
    yield f"one copy, --header: the same file ({status}, {printed})", (status, out == true) == (0, True)
    large = file_of(rng, folder)
    bad = changed(large.bytes, (border_in(large)[0], bytes(SECTOR)))
    status, out, printed, _, _ = bench.mend([bad], "--header", "COPY0", "--with-gaps", "0")
    yield f"one copy, --with-gaps: a derived file ({status}, {printed})", status == 1 and out is not None and b"DERIVED" in out


def checks_of_lists(bench: Bench, folder: str, rng: random.Random) -> Iterator[Check]:
    """What a list names as bad in a copy is taken from another one, and doesn't count."""
    made = file_of(rng, folder)
    true, stream = made.bytes, made.frames[0]
    at, inside = border_in(made)
    name, first = made.name_at, at - SECTOR
    noise = [changed(true, (first, rng.randbytes(SECTOR))), changed(true, (at, rng.randbytes(SECTOR)))]
    forms = {
        "lines": (f"{first} {SECTOR}\n", f"# of the tape\n\n0x{at:X} 0x200 # twice\n{at} 20\n{at + 10} 20\n"),
        "mapfiles": (
            f"# Mapfile. Created by GNU ddrescue\n0x0 + 1\n0x0 0x{first:X} +\n"
            f"0x{first:X} 0x100 *\n0x{first + 256:X} 0x100 /\n0x{at:X} 9999 +\n",
            f"0x{at:X} ?\n0x{at:X} 0x80 -\n0x{at + 128:X} 0x180 ?\n",
        ),
    }
    for form, texts in forms.items():
        lists = [put(f"{folder}/{form}-{number}", text) for number, text in enumerate(texts, 1)]
        status, out, printed, faults, _ = bench.mend(noise, "--bad", f"1:{lists[0]}", "--bad", f"2:{lists[1]}")
        yield f"{form}: the same file ({status}, {printed}, {faults})", (status, out == true) == (0, True)
    listed = put(f"{folder}/place", f"{at} {SECTOR}\n")
    for many in (1, 2):
        words = [word for number in range(1, many + 1) for word in ("--bad", f"{number}:{listed}")]
        _, _, printed, _, path = bench.mend([noise[1]] * many, *words)
        is_head = lines_in(f"{path}.frames/frame-0000.jlsp") == head_of(stream, inside, folder)
        yield f"a list, copies {many}: its head ({printed})", is_head
        status, out, printed, _, path = bench.mend([true] * many, *words)
        is_head = lines_in(f"{path}.frames/frame-0000.jlsp") == head_of(stream, inside, folder)
        yield f"a list of a place that decodes, copies {many}: its head ({status}, {printed})", (status, out, is_head) == (1, None, True)
    named = put(f"{folder}/name", f"{name} 8\n")
    other = changed(true, (name, b"Eoe^"), (made.items[0] + 200, bytes(8)))
    status, out, printed, _, _ = bench.mend([true, other], "--bad", f"2:{named}")
    told = f"8 bytes outside of frames, the first at {name}, rest on " in printed
    yield f"a list of a place in the header: the same file ({status}, {printed})", (status, out == true, told) == (0, True, True)
    status, out, printed, _, _ = bench.mend([true, true], "--bad", f"1:{named}", "--bad", f"2:{named}")
    told = f"a list names what stands at {name} as bad in each copy" in printed
    yield f"in the header of each: no OUT ({status}, {printed})", (status, out, told) == (1, None, True)
    three = [true, changed(true, (name, b"E"), (made.items[0] + 200, bytes(8))), changed(true, (made.items[0] + 400, bytes(8)))]
    yield "two of three: the same file", bench.mend(three)[:2] == (0, true)
    status, out, printed, _, _ = bench.mend(three, "--bad", f"3:{named}")
    yield f"what a list names does not count ({status}, {printed})", (status, out) == (1, None) and "(0010,0010), undecided" in printed
    sent = [true.replace(b"\n", b"\r\n"), changed(true, (made.items[0] + 200, bytes(8)))]
    moved = put(f"{folder}/sent", f"{len(true[:name].replace(chr(10).encode(), bytes(2)))} 8\n")
    sent[0] = sent[0].replace(b"Doe^Jane", b"Eoe^Jane")
    status, out, printed, _, _ = bench.mend(sent, "--bad", f"1:{moved}")
    is_undone = "carriage return before each line feed" in printed
    yield f"a copy sent as text: its own offsets ({status}, {printed})", (is_undone, status, out == true) == (True, 0, True)
    yield from checks_of_lists_and_rules(bench, made, folder)


def checks_of_lists_and_rules(bench: Bench, made: File, folder: str) -> Iterator[Check]:
    """A list against what every copy has, and where copies have other headers."""
    true, at = made.bytes, border_in(made)[0]
    wrong = changed(true, (140, b"\x01"))  # the group length
    status, out, printed, _, _ = bench.mend([wrong, changed(wrong, (made.items[0] + 200, bytes(8)))])
    yield f"a group length that all have: it is the writer's ({status}, {printed})", (status, out == wrong) == (0, True)
    listed = put(f"{folder}/group", "132 12\n")
    status, out, printed, _, _ = bench.mend([wrong, changed(wrong, (made.items[0] + 200, bytes(8)))], "--bad", f"1:{listed}")
    yield f"one that rests on one copy: it isn't ({status}, {printed})", (status, out) == (1, None)
    other = with_value(made, bytes(range(100)))[0]
    places = [(f"{folder}/of-{number}", place) for number, place in enumerate((at, at + len(other) - len(true)), 1)]
    words = [word for number, (name, place) in enumerate(places, 1) for word in ("--bad", f"{number}:{put(name, f'{place} {SECTOR}')}")]
    for copies in ([true, other], [true, other, other]):
        words += ["--bad", words[-1].replace("2:", "3:")] if len(copies) == 3 else []
        _, _, printed, _, path = bench.mend(copies, *words)
        found = lines_in(f"{path}.frames/frame-0000.jlsp")
        is_head = found == head_of(made.frames[0], at - made.items[0] - 8, folder)
        yield f"two headers, {len(copies)} copies: the head of the frame ({printed})", is_head and "versions, " in printed


def checks_of_bad_lists(bench: Bench, made: File, folder: str) -> Iterator[Check]:
    """A list that is none is refused by its name, and nothing is written."""
    copies = [made.bytes, changed(made.bytes, (made.items[0] + 70, bytes(8)))]
    good = put(f"{folder}/good", f"{made.items[0] + 70} 8\n")
    cases = {
        "a number of no copy": (2, f"3:{good}", f"--bad 3:{good}: 2 copies"),
        "no number": (2, good, "is not the number of a copy"),
        "number 0": (2, f"0:{good}", "is not the number of a copy"),
        "no list": (2, "1:", "is not the number of a copy"),
        "not there": (4, f"1:{folder}/none", f"{folder}/none: No such file"),
        "a folder": (4, f"1:{folder}", f"{folder}: Is a directory"),
    }
    texts = {
        "a DICOM file": (made.bytes[128:], "line 1 has not an offset and a length"),
        "words": (b"12 34\nbad sectors\n", "line 2 has not an offset and a length: bad sectors"),
        "a length that is missing": (b"# a\n\n77\n", "line 3 has not"),
        "a negative offset": (b"-5 12\n", "line 1 has not"),
        "too long a number": (b"5 99999999999999999999999\n", "line 1 has not"),
        "a status that ddrescue hasn't": (b"0 + 1\n0 512 x\n", "line 2 has not an offset, a length and a status of ddrescue"),
        "a mapfile that is cut": (b"0 + 1\n0 512 +\n0x20", "line 3 has not"),
    }
    for name, (text, why) in texts.items():
        with open(f"{folder}/{name}", "wb") as file:
            file.write(text)
        cases[name] = (3, f"1:{folder}/{name}", f"{folder}/{name}: {why}")
    with open(f"{folder}/large", "wb") as file:
        file.truncate(1 << 30)
    cases["a gigabyte"] = (3, f"2:{folder}/large", f"{folder}/large: it has more than 32 MB")
    for name, (wanted, word, why) in cases.items():
        status, out, printed, faults, path = bench.mend(copies, "--bad", word)
        left = [each for each in os.listdir(folder) if each.startswith((".jls-dicom", os.path.basename(path)))]
        is_told = why in faults and "Traceback" not in faults
        yield f"{name}: refused ({status}, {faults})", (status, out, printed, left, is_told) == (wanted, None, "", [], True)
    overlaps = f"{made.items[0] + 70} 8\n{made.items[0] + 60} 40\n0 0\n"
    for name, lines in {"empty": "", "comments": "# none\n\n", "overlaps": overlaps}.items():
        status, out, _, faults, _ = bench.mend(copies, "--bad", f"2:{put(f'{folder}/{name}', lines)}")
        yield f"{name}: the same file ({status}, {faults})", (status, out == made.bytes) == (0, True)
    size = len(made.bytes)
    behind = put(f"{folder}/behind", f"{size} 512\n{size + 9000} 1\n{size - 2} 9\n{1 << 60} 5\n")
    status, out, printed, faults, _ = bench.mend(copies, "--bad", f"2:{behind}")
    told = f"{behind} names 2 places behind the end of " in printed or f"{behind} names 3 places behind the end of " in printed
    yield f"behind the end: told ({status}, {printed}, {faults})", (status, out == made.bytes, told) == (0, True, True)


def checks_of_doubtful(bench: Bench, made: File, rng: random.Random) -> Iterator[Check]:
    """Sectors of the header that look lost in each copy, and a hole in a text that one copy alone has: no OUT, unless --header says so."""
    text = bytes(rng.choice(b"abcdefgh ijklm.nop=") for _ in range(3000))
    true, _ = with_value(made, text)
    frames = [at + len(true) - len(made.bytes) + 70 for at in made.items]
    begin = true.index(text) // SECTOR * SECTOR + 2 * SECTOR

    def told(name: str, file: bytes, places: Sequence[Changes], wanted: int, why: str = "") -> Iterator[Check]:
        copies = [changed(file, *each) for each in places]
        status, out, printed, _, _ = bench.mend(copies)
        yield f"{name}: {wanted} ({status}, {printed})", (status, out == file) == (wanted, not wanted) and why in printed
        if wanted:
            yield f"{name}: --header takes it", bench.mend(copies, "--header", "COPY0")[0] == 0

    both = [[(frames[0], bytes(8))], [(frames[1], bytes(8))]]
    for name, fill, before in (("zeros", bytes(SECTOR), bytes(6)), ("a text", FILLS["a text"], b"ECTOR ")):
        lost = changed(true, (begin, fill))
        yield from told(f"a sector of {name} in each copy", lost, both, 1, f"a sector at {begin} looks lost in each copy")
        lost = changed(true, (begin - 6, before + fill))
        yield from told(f"{name} that don't begin at a border", lost, both, 0)
        lost = changed(true, (begin, fill + fill[: SECTOR // 2][SECTOR % 11 :]))
        yield from told(f"{name} that don't end at one", lost, both, 0)
    wide = changed(true, (begin - 20, bytes(SECTOR + 40)))
    strange = [[(begin - 40, rng.randbytes(40)), (begin + SECTOR, rng.randbytes(40))], [(frames[1], bytes(8))], [(frames[2], bytes(8))]]
    yield from told("zeros beside damage of one of three", wide, strange, 0)
    hole, noise = changed(true, (begin + 100, bytes(64))), rng.randbytes(SECTOR)
    yield from told("a hole in a text, and noise there", hole, [[], [(begin, noise)]], 1, f"a text has a hole at {begin + 100}")
    yield from told("a hole that both have", hole, both, 0)
    for size in (16, 64, 256):
        places = [[(begin + 100, bytes(size))], [(begin, bytes(SECTOR))]]
        yield from told(f"a hole of {size} bytes, and the sector lost in the other", true, places, 1, f"a text has a hole at {begin + 100}")
    yield from told("a hole that two of three have", hole, [[], [(frames[0], bytes(8))], [(begin, noise)]], 0)
    short = changed(true, (begin + 100, bytes(15)))
    yield from told("a short one, and noise there", short, [[], [(begin, noise)]], 0)
    beside = changed(true, (begin + 100, bytes(64)), (begin + 170, b"\0\1"))
    yield from told("zeros with other bytes behind them, and noise there", beside, [[], [(begin, noise)]], 0)


def checks_of_touching(bench: Bench, made: File, rng: random.Random) -> Iterator[Check]:
    """Damage of two copies that touches in the header: no OUT, unless it does so at a border of sectors."""
    true, at = made.bytes, made.bytes.index(b"ORIGINAL") + 2
    noise = bytes(rng.choice(b"\x01\x02\x03\x04\x05") for _ in range(40))
    head = true.index(struct.pack("<HH", 8, 8) + b"CS")
    border = true[:head] + element(0x80005, "CS", "\\".join(["ISO_IR 100"] * 40)) + true[head:]
    for name, file, places, size, wanted in (
        ("one byte between", true, (at, at + 21), 20, 1),
        ("seven bytes between", true, (at, at + 27), 20, 1),
        ("eight bytes between", true, (at, at + 28), 20, 0),
        ("a short one", true, (at, at + 16), 15, 0),
        ("at a border", border, (SECTOR - 20, SECTOR), 20, 0),
        ("beside a border", border, (SECTOR - 30, SECTOR - 9), 20, 1),
    ):
        copies = [changed(file, (place, noise[number : number + size])) for number, place in enumerate(places)]
        status, out, printed, _, _ = bench.mend(copies)
        told = not wanted or f"has to touch at {places[1]}, inside of a sector" in printed
        yield f"{name}: {wanted} ({status}, {printed})", (status, out == file, told) == (wanted, not wanted, True)


def checks_of_moved(bench: Bench, made: File, rng: random.Random) -> Iterator[Check]:
    """A longer header of a foreign file with the same UID over one copy: two others don't seem to have lost bytes."""
    true, size = made.bytes, struct.unpack_from("<I", made.bytes, 140)[0]
    longer = changed(true, (140, struct.pack("<I", size + 2)))
    for tag in (0x20002, 0x80016):
        longer = longer.replace(element(tag, "UI", CLASS), element(tag, "UI", f"{CLASS}.4"))
    foreign = changed(longer[:SECTOR] + true[SECTOR:], (SECTOR + 70, rng.randbytes(16)))
    others = [changed(true, (made.items[0] + 70, bytes(8))), changed(true, (SECTOR, bytes(SECTOR)))]
    status, out, printed, _, _ = bench.mend([foreign, *others])
    is_safe = out in (None, true) and (status == 0) == (out is not None)
    yield f"a longer header over one of three: nothing false ({status}, {printed})", is_safe
    data, inner, cut = bytes(1000), [(100, 102)], [(500, 1000)]
    cases: list[tuple[str, list[list[bad_places.Range]], list[bad_places.Range], int | None]] = [
        ("two of three lack the same bytes", [inner, inner, []], [], 100),
        ("two of four", [inner, inner, [], []], [], None),
        ("one of two", [inner, []], [], None),
        ("two that lack others", [inner, [(100, 103)], []], [], None),
        ("two that are cut", [cut, cut, []], [], None),
        ("three of five, by lists", [inner, inner, inner, [], []], inner, None),
    ]
    for name, absent, bad, wanted in cases:
        found = doubtful.lost_in_most([Copy("", data, own, b"", bad if own else []) for own in absent])
        yield f"{name}: {wanted} ({found})", found == wanted


def checks_of_rests(bench: Bench, made: File) -> Iterator[Check]:
    """A line says how many places nothing but one copy tells."""
    true, lost = made.bytes, changed(made.bytes, (made.bytes.index(b"ORIGINAL"), b"\1\2\3"))
    both = changed(lost, (made.bytes.index(b"20200131"), b"\1\2\3"))
    line = "on one copy: only a checksum can tell if it is true\n"
    for name, copies, told in (
        ("one place", [true, lost], f"\na place rests {line}"),
        ("two places", [true, both], f"\n2 places rest {line}"),
        ("three copies", [true, changed(true, (made.items[0] + 70, bytes(8))), lost], ""),
        ("equal copies", [true, true], ""),
    ):
        status, out, printed, _, _ = bench.mend(copies)
        is_told = told in printed and (bool(told) or line not in printed)
        yield f"{name} ({status}, {printed})", (status, out == true, is_told) == (0, True, True)


BAD = [checks_of_bad_sectors, checks_of_seen, checks_of_bad_beginnings, checks_of_bad_intervals, checks_of_one_copy]
BAD += [checks_of_lists, checks_of_bad_lists, checks_of_doubtful, checks_of_touching, checks_of_moved, checks_of_rests]
