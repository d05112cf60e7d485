"""Checks of what decides between damaged copies: CSA headers, known terms, sectors of frames, offset tables, UIDs, one picture."""
from __future__ import annotations

import hashlib
import random
import struct
from collections.abc import Iterator
from typing import Protocol

from dicom_files import CLASS, UID, Bench, File, changed, element, frame, with_value

Check = tuple[str, bool]


class Random(Protocol):
    """What gives the bytes that stood in memory before."""

    def randbytes(self, n: int, /) -> bytes:
        """So many bytes."""


def csa_header(rng: Random) -> bytes:
    """A Siemens CSA header ("SV10"), as NiBabel's documentation of that format has it: tags of a name, a VR and items."""
    tags: list[tuple[str, str, list[str]]] = [("EchoLinePosition", "IS", ["64"]), ("B_value", "IS", ["1000", ""])]
    tags += [("ImaAbsTablePosition", "SL", [])]
    tags += [(f"Field{at}", "DS", [f"{at}.{at * 7 % 100:02}", "", ""]) for at in range(12)]
    tags += [("MrProtocol", "UT", ["".join(f"sSlice[{at}].dTra = -{at * 7}.5\n" for at in range(90))])]
    found = b"SV10\4\3\2\1" + struct.pack("<II", len(tags), 77)
    for name, vr, items in tags:
        behind = rng.randbytes(62 - len(name))  # bytes that were there before
        found += name.encode() + b"\0\1" + behind + struct.pack("<I4sIII", 1, vr.encode(), 6, len(items), 205)
        for text in items:
            value = text.encode() + b"\0" if text else b""
            found += struct.pack("<4I", len(value), len(value), 77, len(value)) + value + bytes(-len(value) % 4)
    return found + bytes(4)


def checks_of_csa_headers(bench: Bench, made: File, rng: random.Random) -> Iterator[Check]:
    """The tags and items of a CSA header tell damage, whatever it is; a letter of a text they don't tell."""
    true, begin = with_value(made, csa_header(rng))
    field, text = true.index(b"Field5\0"), true.index(b"sSlice[30]")
    header = b"".join(element(0x180050 + at, "DS", str(at % 9)) for at in range(12))
    cases = {
        "zeros over tags": ((field + 8, bytes(200)), True),
        "zeros in the last tag before a text": ((text - 900, bytes(100)), True),
        "elements of a header over tags": ((field + 3, header), True),
        "another length of an item": ((true.index(b"64\0", begin) - 16, b"\x0b"), True),
        "a control character in a text": ((text, b"\x13"), True),
        "another letter in a text": ((text, b"r"), False),
        "another byte behind a name": ((field + 20, bytes([true[field + 20] ^ 1])), False),
    }
    for name, (change, is_decided) in cases.items():
        for copies in ([changed(true, change), true], [true, changed(true, change)]):
            status, out, printed, faults, _ = bench.mend(copies)
            wanted, words = ((0, True), "the same file") if is_decided else ((1, False), "undecided")
            yield f"CSA header, {name}: {words} ({status}, {printed}, {faults})", (status, out == true) == wanted
    both = [changed(true, (field + 8, bytes(150))), changed(true, (field + 250, header), (text, b"\0\0"))]
    status, out, printed, _, _ = bench.mend(both)
    yield f"CSA header, damage of both: the same file ({status}, {printed})", (status, out == true) == (0, True)


def checks_of_terms(bench: Bench, made: File) -> Iterator[Check]:
    """A known term is told from a text that is none. Of two known ones, and of two others, nothing is."""
    true = made.bytes
    sex = changed(true, (true.index(b"PRIVATE "), b"ACUSON  "))
    usual, more = (element(0x80008, "CS", "ORIGINAL\\PRIMARY" + rest) for rest in ("", "\\MY OWN"))
    own = true.replace(usual, more)
    for name, data, old, new, is_decided in (
        ("an image type beside a value that is not known", own, b"\\PRIMARY", b"\\PRIMARQ", True),
        ("a value that is not known", own, b"MY OWN", b"MY OWM", False),
        ("a photometric interpretation", true, b"MONOCHROME2", b"MONOCHROME3", True),
        ("an image type", true, b"ORIGINAL\\PRIMARY", b"ORIGINAL\\PRIMARQ", True),
        ("a private creator", sex, b"ACUSON", b"ACUSOJ", True),
        ("a private creator that is not known", true, b"PRIVATE ", b"PRIVATD ", False),
        ("two photometric interpretations", true, b"MONOCHROME2", b"MONOCHROME1", False),
    ):
        status, out, printed, _, _ = bench.mend([changed(data, (data.index(old), new)), data])
        wanted = (0, True) if is_decided else (1, False)
        yield f"{name}: {'known' if is_decided else 'undecided'} ({status}, {printed})", (status, out == data) == wanted
    odd = changed(true, (true.index(b"20200131"), b"Anon    "))
    status, out, printed, _, _ = bench.mend([odd, bytes(512) + odd[512:]])
    yield f"a text that a VR forbids, and no damage makes ({status}, {printed})", (status, out == odd) == (0, True)


def checks_of_lost_sectors(bench: Bench, folder: str, rng: random.Random) -> Iterator[Check]:
    """A sector of frames of which one copy has no header of an item: what it has there is no reading of a frame."""
    small = File([frame(rng, 8, 16, 12, folder) for _ in range(24)], 8, 16, 12)
    true = small.bytes
    for seed in range(6):
        noise, at = random.Random(seed), (small.items[3] // 512 + 1 + seed) * 512
        lost = changed(true, (at, noise.randbytes(512)))
        other = changed(true, (small.items[1] + 60, bytes(8)))
        status, out, printed, _, _ = bench.mend([lost, other][:: seed % 2 * 2 - 1])
        yield f"a sector of noise in frames, {seed}: the same file ({status}, {printed})", (status, out == true) == (0, True)
    first, second = small.items[4] + 8, small.items[5]
    swapped = changed(true, (first, small.frames[7][: second - first]))
    status, out, printed, _, _ = bench.mend([true, swapped])
    yield f"another frame in one copy: nothing false ({status}, {printed})", (status, out) == (1, None) or out == true
    flipped = [changed(true, (small.items[6] + 60 + at, bytes([true[small.items[6] + 60 + at] ^ 4]))) for at in (0, 9, 20)]
    status, out, printed, _, _ = bench.mend(flipped)
    yield f"three copies with a flipped bit each: the same file ({status}, {printed})", (status, out == true) == (0, True)
    status, out, printed, _, _ = bench.mend([flipped[0], flipped[0], flipped[1]])
    yield f"two copies of one damaged copy: nothing false ({status}, {printed})", (status, out) == (1, None) or out == true


def checks_of_tables(bench: Bench, made: File) -> Iterator[Check]:
    """Damage of both copies side by side at the offset table, of which neither has each byte."""
    true, table = made.bytes, made.table_at
    copies = [changed(true, (table - 8, b"\x93\x1e\x77\x41")), changed(true, (table, b"\x6a\xef\x2c\x55"))]
    status, out, printed, _, _ = bench.mend(copies)
    yield f"the offset table, damage side by side: the same file ({status}, {printed})", (status, out == true) == (0, True)


def checks_of_halves(bench: Bench, folder: str) -> Iterator[Check]:
    """A foreign file over the end of one copy and the beginning of the other: only one joint lets the elements go on to the end."""
    rng = random.Random(10)
    big, other = (File([frame(rng, 8, 64, 60, folder)], 8, 64, 60, uid=uid) for uid in (UID, "1.2.3.9.9"))
    size = len(big.bytes)
    foreign = (bytes(128) + b"DICM" + other.bytes[132 : other.name_at] + rng.randbytes(size))[:size]
    at = (big.items[0] // 512 + 3) * 512
    halves = [big.bytes[:at] + foreign[at:], foreign[:at] + big.bytes[at:]]
    for number, copies in enumerate((halves, halves[::-1])):
        status, out, printed, faults, _ = bench.mend(copies)
        yield f"two halves: undecided ({status}, {printed}, {faults})", (status, out) == (1, None) and "each of two instances" in printed
        status, out, printed, faults, _ = bench.mend(copies, "--header", f"COPY{number}")
        yield f"two halves, and --header: the same file ({status}, {printed}, {faults})", (status, out == big.bytes) == (0, True)
    status, out, _, faults, _ = bench.mend([big.bytes, other.bytes])
    yield f"two whole files: refused ({status}, {faults})", (status, out) == (3, None)
    status, out, _, faults, _ = bench.mend([big.bytes[:at] + foreign[at:], other.bytes[:-200] + bytes(200)])
    yield f"two damaged files of two instances: refused ({status}, {faults})", (status, out) == (3, None)


# 64 lines of 64 samples 0 of 16 bits, as CharLS writes them: with the preset parameters that T.87, C.2.4.1.1, has for 65535
BLANK = bytes.fromhex(
    "ffd8fff7000b100040004001011100fff8000d01ffff0012004301140040ffda0008010100000000ff7fff7fff7fff7fff7fff00ffd9"
)


def checks_of_one_picture(bench: Bench) -> Iterator[Check]:
    """Files that differ, of one picture: that with the usual parameters is taken."""
    true = File([BLANK], 16, 64, 64).bytes
    at = true.index(b"\xff\xf8\0\x0d\1") + 5
    for name, change in (("MAXVAL", (at, b"\x7f")), ("T1", (at + 3, b"\x10")), ("RESET", (at + 9, b"\x41"))):
        status, out, printed, _, _ = bench.mend([changed(true, change), true])
        yield f"a bit of {name} in an empty picture: the same file ({status}, {printed})", (status, out == true) == (0, True)
        status, out, printed, faults, _ = bench.mend([changed(true, change), true], "--sha256", hashlib.sha256(true).hexdigest())
        yield f"the same with its checksum ({status}, {printed}, {faults})", (status, out == true) == (0, True)
    scan = true.index(b"\xff\xda")
    status, out, printed, faults, _ = bench.mend([changed(true, (scan + 8, b"\2")), changed(true, (scan + 1, b"\xdb"))])
    yield f"a bit that says by sample, in one copy: the same file ({status}, {printed}, {faults})", (status, out == true) == (0, True)


def checks_of_one_uid(bench: Bench, made: File) -> Iterator[Check]:
    """A copy with one UID that reads is of the instance, though no frame of it fits."""
    true, name = made.bytes, made.name_at
    zeros = [(begin + 8, bytes(len(stream))) for begin, stream in zip(made.items, made.frames)]
    lost = changed(true, (true.index(UID.encode()), bytes(10)), *zeros)
    status, out, printed, _, _ = bench.mend([lost, changed(true, (name - 8, bytes(12)))])
    yield f"a copy with one UID: the same file ({status}, {printed})", (status, out == true) == (0, True)
    last = len(CLASS) - 1
    in_meta, in_data = true.index(CLASS.encode()) + last, true.rindex(CLASS.encode(), 0, name) + last
    other = [changed(true, (in_data, b"4")), changed(true, (in_meta, b"4"), (in_data, b"2"))]
    status, out, printed, faults, _ = bench.mend(other)
    yield f"of four SOP Class UIDs two are equal, and not the file's: undecided ({status}, {printed}, {faults})", (status, out) == (1, None)


def exchanged(data: bytes, begin: int) -> bytes:
    """A copy with the two bytes of each pair of a sector exchanged."""
    copy = bytearray(data)
    copy[begin : begin + 512 : 2], copy[begin + 1 : begin + 512 : 2] = data[begin + 1 : begin + 512 : 2], data[begin : begin + 512 : 2]
    return bytes(copy)


def checks_of_exchanged_bytes(bench: Bench, made: File, rng: random.Random) -> Iterator[Check]:
    """A sector in another order of bytes is seen where a place of it was decided so, or where the other copy follows what stands around."""
    kinds = [range(0x21 + 31 * kind, 0x40 + 31 * kind) for kind in range(3)]  # each of three letters is of another kind
    text, begin = with_value(made, bytes(rng.choice(kinds[at % 3]) for at in range(8000)))
    noise, at = with_value(made, rng.randbytes(3000))
    behind = 4096  # the sector in which the value ends and other elements begin
    few, _ = with_value(made, ((bytes(76) + rng.randbytes(4)) * 60)[: behind + 400 - begin])
    first = -(-begin // 512) * 512 + 2048
    for name, true, places, is_back in (
        ("a text", text, [first], True),
        ("two sectors of a text side by side", text, [first, first + 512], True),
        ("noise", noise, [at // 512 * 512 + 1024], False),
        ("few places, and elements behind them", few, [behind], True),
    ):
        hurt = changed(true, (true.index(made.frames[0]) + 70, bytes(8)))
        lost = true
        for place in places:
            lost = exchanged(lost, place)
        for copies in ([lost, hurt], [hurt, lost]):
            status, out, printed, faults, _ = bench.mend(copies)
            wanted = (0, true) if is_back else (1, None)
            yield f"bytes exchanged in {name}: {wanted[0]} ({status}, {printed}, {faults})", (status, out) == wanted
    yield from checks_of_exchanged_lengths(bench, made)


def checks_of_exchanged_lengths(bench: Bench, made: File) -> Iterator[Check]:
    """A length with its two bytes exchanged leads over other elements of the sector, and is no less strange than these."""
    values: dict[str, bytes | str | int] = {"SS": 0, "US": 0, "SL": bytes(4), "DS": "1.50"}
    lines = b"".join(b"line %d of a text\n" % (number * 7919 % 1000) for number in range(40))
    for seed in (1, 15, 16, 17, 22):
        rng = random.Random(seed)
        text, begin = with_value(made, lines[: 300 + 2 * rng.randrange(40)])
        at, names = text.index(element(0x100010, "PN", "Doe^Jane")), rng.choices(["SS", "SS", "SS", "US", "SL", "DS"], k=300)
        true = text[:at] + b"".join(element(0x91002 + number, vr, values[vr]) for number, vr in enumerate(names)) + text[at:]
        hurt = changed(true, (true.index(made.frames[0]) + 70, bytes(8)))
        lost = true[: begin + 100] + true[begin + 150 :]
        for name, copy in (("elements", exchanged(true, 1536)), ("elements of a copy that lost others", exchanged(lost, 1536))):
            status, out, printed, faults, _ = bench.mend([copy, hurt])
            yield f"{seed}: bytes exchanged in {name}: the same file ({status}, {printed}, {faults})", (status, out == true) == (0, True)


def checks_of_series(bench: Bench, made: File) -> Iterator[Check]:
    """A UID that differs in its last digits alone can be another file's of the series, unless two copies have the other one twice."""
    true, other = made.bytes, UID[:-1] + chr(ord(UID[-1]) ^ 1)
    in_meta, in_data = true.index(UID.encode()), true.rindex(UID.encode(), 0, made.name_at)
    hurt = [(item + 70, bytes(8)) for item in made.items]
    foreign = [changed(true, (in_data, other.encode()), hurt[0]), changed(true, (in_meta, other.encode()), (in_data, other.encode()))]
    one = changed(true, (in_data, other.encode()))
    before = changed(true, (in_data + 4, bytes([true[in_data + 4] ^ 1])))
    twice, number = [(at, other.encode()) for at in (in_meta, in_data)], (true.index(b"20200131") + 7, b"7")
    assert UID[4].isdigit() and "." in UID[5:] and in_meta // 512 == in_data // 512
    for name, copies, is_back in (
        ("of three UIDs two are another file's", foreign, False),
        ("of four UIDs one differs in the last digit", [one, changed(true, hurt[0])], False),
        ("of six UIDs one does", [one, changed(true, hurt[0]), changed(true, hurt[1])], True),
        ("a flip in another number", [before, changed(true, hurt[0])], True),
        ("of six UIDs one is the file's", [*[changed(true, *twice, number, hurt[0])] * 2, changed(true, twice[0])], False),
        ("of six UIDs one differs, and a number beside it", [changed(one, number), changed(true, hurt[0]), true], False),
        ("of eight UIDs one does", [changed(one, number), changed(true, hurt[0]), changed(true, hurt[1]), true], True),
    ):
        status, out, printed, faults, _ = bench.mend(copies)
        yield f"{name}: {is_back} ({status}, {printed}, {faults})", (status, out) == ((0, true) if is_back else (1, None))


def checks_of_votes_of_series(bench: Bench, made: File) -> Iterator[Check]:
    """A copy with the UID of another file of the series, or with a number of it, has no vote on numbers, which that file has otherwise."""
    true = put_before(made.bytes, 0x280002, element(0x180050, "DS", "1.5 "), element(0x181150, "IS", "7425"))
    number, name = true.index(b"1.5 "), true.index(b"Doe^Jane")
    near = (true.index(b"7425") + 2, b"8")
    hurt = [(true.index(stream) + 70, bytes(8)) for stream in made.frames]
    other = (true.rindex(UID.encode(), 0, name), (UID[:-1] + chr(ord(UID[-1]) ^ 1)).encode())
    for what, change, uid, is_back in (
        ("a number, and another UID", (number + 2, b"6"), other, False),
        ("a number", (number + 2, b"6"), hurt[2], True),
        ("a letter, and another UID", (name, b"E"), other, True),
        ("a number, and one near by", (number + 2, b"6"), near, False),
        ("a bit of a number, and one near by", (number + 2, b"4"), near, True),
        ("a letter, and a number near by", (name, b"E"), near, True),
    ):
        copies = [changed(true, uid, hurt[0]), changed(true, hurt[1]), changed(true, change)]
        status, out, printed, faults, _ = bench.mend(copies)
        yield f"{what}: {is_back} ({status}, {printed}, {faults})", (status, out) == ((0, true) if is_back else (1, None))


def checks_of_lost_votes(bench: Bench, made: File) -> Iterator[Check]:
    """Sectors of zeros that a copy lost, and a few zeros of another copy, don't outvote what a third one has."""
    true, begin = with_value(made, b"of a slice " * 300)
    first, hurt = (begin // 512 + 2) * 512, (true.index(made.frames[0]) + 70, bytes(8))
    for size in (2, 9):
        copies = [changed(true, (first + 1100, bytes(size))), changed(true, (first, bytes(1536))), changed(true, hurt)]
        status, out, printed, faults, _ = bench.mend(copies)
        yield f"{size} zeros, and sectors of them: nothing false ({status}, {printed}, {faults})", out == (None if status else true)


def put_before(data: bytes, tag: int, *elements: bytes) -> bytes:
    """A file with these elements before one of the top level that has the VR US or LO."""
    at = next(at for vr in (b"US", b"LO") if (at := data.find(struct.pack("<HH", tag >> 16, tag & 0xFFFF) + vr, 132)) >= 0)
    return data[:at] + b"".join(elements) + data[at:]


def false_readings(made: File) -> Iterator[tuple[str, bytes, bytes, bytes]]:
    """(name, the true file, a part of it, what another copy has there): one flipped bit or a neighbour's text, and each could be true."""
    true = made.bytes
    table = (made.items[0], *made.items[1:])
    for name, tag, new, old, other in (
        ("a tag, by a bit that of a known one", 0x280002, element(0x181138, "DS", "12.5"), b"\x18\0\x38\x11", b"\x18\0\x30\x11"),
        ("a tag that few files have, and one of many", 0x280002, element(0x180028, "DS", "12.5"), b"\x18\0\x28\0", b"\x18\0\x50\0"),
        ("a modality of old, by a bit another one", 0x90010, element(0x80060, "CS", "EC"), b"EC", b"ES"),
        ("a sex, by a bit another one", 0x280002, element(0x100040, "CS", "N"), b"CS\2\0N", b"CS\2\0O"),
        ("a set of characters", 0x280002, element(0x181400, "LO", "x") + element(0x190010, "LO", "SPI-P Release 1;3"), b"1;3", b"1;1"),
        ("a text of zeros", 0x280002, element(0x204000, "LT", bytes(24)), b"LT\x18\0" + bytes(24), b"LT\x18\0" + b"slice " * 4),
        ("a text with junk behind its end", 0x280002, element(0x191001, "LO", b"ab\0\1\2\3cd"), b"ab\0\1\2\3", b"ab\0abc"),
        ("control characters, and a neighbour's text", 0x280002, element(0x191001, "LO", b"\1b\2\3\4efg"), b"\1b\2\3\4", b"abcde"),
        ("Bits Allocated of a neighbour", 0x280002, b"", element(0x280100, "US", 16), element(0x280100, "US", 8)),
    ):
        data = put_before(true, tag, new)
        data = data.replace(element(0x280100, "US", 8), element(0x280100, "US", 16))
        yield name, data, old, other
    latin = true.replace(b"Doe^Jane", b"Do\xff^Jane")
    yield "a letter of 255", latin, b"Do\xff", b"Do\xfe"
    image = true.replace(b"ORIGINAL\\PRIMARY", b"ORIGINAL\\PHASE  ")
    yield "an image type of a neighbour", image, b"PHASE  ", b"PRIMARY"
    at = made.table_at
    odd = changed(true, *((at + 4 * number, struct.pack("<I", place - table[0] + 12)) for number, place in enumerate(table)))
    yield "a table that counts from elsewhere", odd, odd[at - 4 : at + 8], odd[at - 4 : at] + bytes(4) + odd[at + 4 : at + 8]
    text = b"".join(b"<Step.%d> sSlice[%d]\n" % (line % 7, line % 40) for line in range(60))
    total = bytes(range(3, 255, 8))
    yield "a sum in a text", with_value(made, text + total + text)[0], total, b"none" * 8


def checks_of_false_readings(bench: Bench, made: File, rng: random.Random) -> Iterator[Check]:
    """What could be true in each of two copies stays undecided."""
    for name, true, old, other in false_readings(made):
        copy = changed(true, (true.index(old), other))
        status, out, printed, _, _ = bench.mend([copy, true])
        yield f"{name}: nothing false ({status}, {printed})", copy != true and ((status, out) == (1, None) or out == true)
    yield from checks_of_two_damages(bench, made, rng)


def checks_of_true_zeros(bench: Bench, made: File, rng: random.Random) -> Iterator[Check]:
    """Zeros that are true: of an empty text, over which another copy has noise; and a sector of them, in which a third copy has a byte.

    Where the third copy has a sector of its own, the zeros of the others look lost, and outvote nothing.
    """
    true = put_before(made.bytes, 0x90010, element(0x80050, "SH", bytes(2)))
    at, hurt = true.index(element(0x80050, "SH", bytes(2))) + 8, (true.index(made.frames[0]) + 70, bytes(8))
    for noise, is_back in ((b"\xee\xe4", True), (b"P1", False)):
        lost = changed(true, (0, rng.randbytes(512)), (at, noise))
        status, out, printed, faults, _ = bench.mend([lost, changed(true, hurt)])
        wanted = (0, true) if is_back else (1, None)
        yield f"zeros of an empty text, and noise {noise!r}: {wanted[0]} ({status}, {printed}, {faults})", (status, out) == wanted
    true, begin = with_value(made, b"of a slice " * 30 + bytes(2000) + b"of a slice " * 30)
    first, hurt = (begin // 512 + 2) * 512, (true.index(made.frames[0]) + 70, bytes(8))
    for size, is_back in ((1, True), (64, False)):
        other = changed(true, (first + 100, b"\xf7" * size))
        status, out, printed, faults, _ = bench.mend([true, other, changed(true, hurt)])
        yield f"{size} bytes of a third copy in zeros ({status}, {printed}, {faults})", ((status, out) == (0, true)) == is_back
        changed_too = [changed(copy, (begin + 3, letter)) for copy, letter in ((true, b"?"), (other, b"!"), (changed(true, hurt), b"a"))]
        status, out, printed, faults, _ = bench.mend(changed_too)
        is_taken = f"differ {first + 100} {size} (0009,1001), taken: 00" in printed
        yield f"the same, and no header of most ({status}, {printed}, {faults})", is_taken == is_back


def checks_of_two_damages(bench: Bench, made: File, rng: random.Random) -> Iterator[Check]:
    """Damage of one copy speaks for no other place of it that does not lie within that damage."""
    true, name = made.bytes, made.name_at
    heads = [true.index(struct.pack("<HH", tag >> 16, tag & 0xFFFF) + vr, 132) + 4 for tag, vr in ((0x80020, b"DA"), (0x280002, b"US"))]
    heads.append(true.index(b"IS\2\0"))
    flips = changed(true, *((at, b"Z") for at in heads))
    parts = b"".join(element(0x190000 + 0x1010 + at, "LO", f"value {at} of it") for at in range(60))
    zeros = put_before(true, 0x280002, element(0x190010, "LO", "MINE"), parts, element(0x191090, "OB", bytes(200)))
    begin = zeros.index(bytes(200))
    text, at = with_value(made, b"of a slice " * 50 + bytes(2000))
    first = at // 512 * 512 + 1024
    text = with_value(made, b"x" * (first - at) + bytes(1600) + b"of a slice " * 50)[0]
    other = UID[:-1].encode() + b"8"
    foreign = changed(true, (true.index(UID.encode()), other), (true.rindex(UID.encode(), 0, name), other))
    for what, whole, copies in (
        ("flips around a flip of the other copy", true, [flips, changed(true, (name, b"E"))]),
        ("zeros before true zeros", zeros, [changed(zeros, (begin - 1100, bytes(1100))), changed(zeros, (begin + 30, b"\x10"))]),
        ("true zeros from a border on", text, [text, changed(text, (first, b"of a slice " * 27))]),
        ("a neighbour's beginning, and noise behind it", true, [foreign[:512] + true[512:], changed(true, (512, rng.randbytes(512)))]),
    ):
        status, out, printed, faults, _ = bench.mend(copies)
        yield f"{what}: nothing false ({status}, {printed}, {faults})", out in (None, whole) and (out is None) == (status != 0)


RULES = [checks_of_csa_headers, checks_of_terms, checks_of_lost_sectors, checks_of_tables, checks_of_one_uid, checks_of_halves]
RULES += [checks_of_one_picture, checks_of_false_readings, checks_of_true_zeros, checks_of_series, checks_of_votes_of_series,
          checks_of_lost_votes]
RULES += [checks_of_exchanged_bytes]
