"""Checks of tables, losses, foreign files and sectors in two copies, each with a case in which the same rule would be wrong."""
from __future__ import annotations

import os
import random
import struct
from collections.abc import Iterator, Sequence

from dicom_files import UID, Bench, File, changed, element, frame, get, with_value
from dicom_rules import csa_header, put_before

Check = tuple[str, bool]
NEIGHBOUR = UID[:-1] + "8"


def told(bench: Bench, name: str, copies: Sequence[bytes], true: bytes, is_back: bool = True, status: int | None = None) -> Check:
    """A check: the file comes back to the byte; or else nothing false does, and if it is given the status is this one."""
    got, out, printed, faults, _ = bench.mend(copies)
    if is_back:
        return f"{name}: the same file ({got}, {printed}, {faults})", (got, out == true) == (0, True)
    is_refused = out in (None, true) and (out is None) == (got != 0)
    return f"{name}: nothing false ({got}, {printed}, {faults})", is_refused and status in (None, got)


def told_by_header(bench: Bench, name: str, copies: Sequence[bytes], true: bytes, number: int) -> Iterator[Check]:
    """Checks of copies that have two UIDs twice, and no third copy: undecided, unless --header names the copy of this number."""
    got, out, printed, faults, _ = bench.mend(copies)
    yield f"{name}: undecided ({got}, {printed}, {faults})", (got, out) == (1, None) and "each of two instances can be the file" in printed
    got, out, printed, faults, _ = bench.mend(copies, "--header", f"COPY{number}")
    yield f"{name}, and --header: the same file ({got}, {printed}, {faults})", (got, out == true) == (0, True)


def checks_of_entries(bench: Bench, single: File) -> Iterator[Check]:
    """The one entry of a table of one frame is 0, whatever a copy has there that leads nowhere; but some writers count from elsewhere."""
    true, at = single.bytes, single.table_at
    pairs = {
        "an entry beyond the file": [(at, b"\xe2\xaa\xa5\x6c")],
        "an entry from nowhere": [(at - 3, b"\x14\x9e\xe6\x7c")],
    }
    for name, changes in pairs.items():
        copies = [changed(true, *changes), changed(true, (at - 8 if changes[0][0] < at else at - 4, bytes(4)))]
        yield told(bench, name, copies, true)
    for name, entry in (("an entry that counts from the table", 12), ("one that counts from elsewhere", 100)):
        odd = changed(true, (at, struct.pack("<I", entry)))
        yield told(bench, name, [odd, changed(odd, (at - 4, bytes(8)))], odd, False)


def checks_of_losses(bench: Bench, made: File) -> Iterator[Check]:
    """A loss stands where fewest bytes differ. One byte that differs beside it can be a flipped bit of the other copy."""
    blank, lines = b" " * 400, b"".join(b"asSlice[%d].dFlow = %d.5\n" % (at % 30, at % 4) for at in range(300))
    true, at = with_value(made, blank[:200] + b"Lv2" + blank + b"end")
    yield told(bench, "a loss in blanks", [true[: at + 195] + true[at + 211 :], true], true)
    noted, at = with_value(made, blank + b"end.")
    copies = [noted[: at + 220] + noted[at + 236 :], changed(noted, (at + 200, b"!"))]
    yield told(bench, "a flipped bit in blanks beside a loss", copies, noted, False)
    empty, at = with_value(made, bytes(400) + b"end.")
    copies = [empty[: at + 220] + empty[at + 236 :], changed(empty, (at + 200, b"\x91\x1e\x07\xd2"))]
    yield told(bench, "noise in zeros beside a loss", copies, empty, False)
    text, at = with_value(made, lines)
    yield told(bench, "a loss in lines that repeat", [text[: at + 2013] + text[at + 2525 :], text], text)
    both = [text[: at + 1013] + text[at + 1029 :], text[: at + 3000] + text[at + 3016 :]]
    yield told(bench, "a loss of each copy in one value", both, text)
    noise = random.Random(5)
    twice = [changed(text, (at + place, noise.randbytes(40))) for place in (1000, 3000)]
    yield told(bench, "noise in each copy, no loss", twice, text, False)


def checks_of_foreign_files(bench: Bench, folder: str, rng: random.Random) -> Iterator[Check]:
    """A whole foreign file in the place of a copy, and a neighbour's beginning whose elements lead nowhere."""
    true = File([frame(rng, 8, 40, 30, folder)], 8, 40, 30).bytes
    true += b"\0\0" if len(true) % 512 == 0 else b""
    large = File([frame(rng, 12, 90, 60, folder)], 12, 90, 60, uid="1.2.3.9.9").bytes
    foreign = large[: len(true)]
    for number, copies in ((1, [foreign, true]), (0, [true, foreign])):
        yield from told_by_header(bench, "a foreign file in the place of a copy", copies, true, number)
    third = changed(true, (true.index(b"Doe^Jane"), b"E"), (true.index(b"OB\0\0\2\0\0\0\0\1") + 8, b"\1"))
    yield told(bench, "the same, and a third copy", [foreign, true, third], true, False, 1)
    third = changed(true, (true.index(b"\xff\xd8\xff\xf7\0\x0b") + 60, bytes(8)))
    yield told(bench, "the same, and a third copy with a whole header", [foreign, true, third], true)
    broken = changed(true, (true.index(b"\xe0\x7f\x10\x00OB\0\0\xff\xff\xff\xff"), bytes(24)))
    yield told(bench, "the same, and the other copy is broken", [foreign, broken], true, False, 3)
    pad = -(len(true) + 12) % 512
    even = true[:-42] + element(0xFFFCFFFC, "OB", bytes(30 + 12 + pad + len(true) % 2))
    even += bytes(-len(even) % 512)
    yield told(bench, "the same at a border of sectors", [large[: len(even)], even], even, False, 3)
    slice_ = changed(true.replace(UID.encode(), NEIGHBOUR.encode()), (160, bytes(4)), (len(true) - 60, bytes(60)))
    yield told(bench, "a damaged slice of the series", [slice_, true], true, False, 3)


def checks_of_shorter_copies(bench: Bench, made: File) -> Iterator[Check]:
    """A copy that is cut or lost bytes, and whose beginning a foreign file has overwritten: what follows in it counts."""
    other = File(made.frames, 12, 24, 20, uid="1.2.3.9.9").bytes
    head = (other[: other.index(bytes(range(64))) - 12] + element(0x91001, "OB", bytes(range(256)) * 256))[:512]
    true = made.bytes
    damaged = changed(true, (true.index(made.frames[1]) + 80, bytes(8)))
    for name, rest in (("is cut", true[512:-200]), ("lost bytes", true[512:-400] + true[-384:])):
        yield from told_by_header(bench, f"a foreign beginning of a copy that {name}", [head + rest, damaged], true, 1)
    lines = b"".join(b"asSlice[%d].dFlow = %d.5\n" % (line % 30, line % 4) for line in range(300))
    text, at = with_value(made, lines)
    flipped = changed(text, (at + 2600, b"Z"), (at + 2700, b"Z"))
    noisy = changed(text, ((at // 512 + 4) * 512, random.Random(6).randbytes(1024)))
    copies = [head + text[512:-200], flipped, noisy]
    yield told(bench, "two letters of a copy where another one has noise", copies, text, False, 1)


def place_of(data: bytes, tag: int) -> int:
    """Where the value of an element of the top level begins that has the VR US."""
    return data.index(struct.pack("<HH", tag >> 16, tag & 0xFFFF) + b"US", 132) + 8


def checks_of_one_copy_alone(bench: Bench, made: File) -> Iterator[Check]:
    """A flipped bit in what one copy alone has, which PS3.5 or PS3.10 forbids: the other copy is cut, lost bytes or has zeros there."""
    true, rest = made.bytes, made.bytes[: made.name_at + 4]
    for name, tag in (("Bits Stored", 0x280101), ("High Bit", 0x280102), ("Pixel Representation", 0x280103)):
        flipped = changed(true, (place_of(true, tag), bytes([true[place_of(true, tag)] ^ 4])))
        yield told(bench, f"a bit of {name} in one copy alone", [flipped, rest], true, False, 1)
    at = true.index(b"OB\0\0\2\0\0\0\0\1") + 9
    flipped, lost = changed(true, (at, b"\x21")), true[: at - 11] + true[at + 5 :]
    yield told(bench, "a bit of the version in one copy alone", [flipped, lost], true, False, 1)
    yield told(bench, "a bit of the version", [flipped, changed(true, (made.items[0] + 60, bytes(8)))], true)
    sex = put_before(true, 0x280002, element(0x100040, "CS", "F"))
    flipped = changed(sex, (sex.index(b"\x10\0\x40\0CS") + 2, b"\x48"))
    yield told(bench, "a bit of a tag in one copy alone, which PS3.6 has not", [flipped, rest], sex, False, 1)
    yield told(bench, "the same element, whole", [sex, rest], sex)
    for name, parts, is_back in (
        ("without a character set", (), False),
        ("in ASCII alone", (element(0x80005, "CS", "ISO_IR 6"),), False),
        ("in Latin", (element(0x80005, "CS", "ISO_IR 100"),), True),
    ):
        latin = put_before(true, 0x280002, element(0x104000, "LT", b"d\x8d\xd0z\xa4_\xcft\xcd\xf3"))
        latin = latin.replace(element(0x80008, "CS", "ORIGINAL\\PRIMARY"), b"".join(parts) + element(0x80008, "CS", "ORIGINAL\\PRIMARY"))
        cut = latin[: latin.index(b"Doe^Jane") + 4]
        yield told(bench, f"letters beyond ASCII in one copy alone, {name}", [latin, cut], latin, is_back, None if is_back else 1)
    begin, middle, end = made.items[0] + 40, made.items[1] + 60, made.items[1] + 61
    parts_of_three = [true[:middle], true[middle:], true[begin:]]
    yield told(bench, "the header of a cut copy, and a third one goes across where both others end", parts_of_three, true)
    yield told(bench, "the same, and the third does not", [true[:middle], true[middle:], true[end:]], true, False, 1)
    text = put_before(true, 0x280002, element(0x190010, "LO", "MINE"), element(0x191010, "LT", "of a slice " * 80))
    at = place_of(text, 0x280102)
    zeros = changed(text, (at // 512 * 512, bytes(512)))
    yield told(bench, "a sector of zeros over High Bit", [text, zeros], text)
    yield told(bench, "the same, and a bit of it", [changed(text, (at, bytes([text[at] ^ 4]))), zeros], text, False, 1)


def checks_of_foreign_frames(bench: Bench, made: File, folder: str, rng: random.Random) -> Iterator[Check]:
    """No frame of a foreign beginning is taken, also where no header leads to Pixel Data and frames are searched for."""
    small = File([frame(rng, 8, 9, 7, folder)], 8, 9, 7, uid="1.2.3.9.9").bytes
    begun = small[:-42] + element(0xFFFCFFFC, "OB", bytes(range(1, 256)) * 256)
    true = with_value(made, b"of a slice " * 300)[0]
    broken = changed(true, (true.index(b"\xe0\x7f\x10\x00OB\0\0\xff\xff\xff\xff"), bytes(30)))
    status, _, printed, _, name = bench.mend([begun[:2048] + broken[2048:], broken])
    found = {(get(f"{name}.frames/{each}") or b"").rstrip(b"\0") for each in os.listdir(f"{name}.frames") if each.endswith(".jls")}
    yield f"frames of a foreign beginning ({status}, {printed})", (status, found) == (1, set(made.frames))


def series(made: File, value: bytes, name: str) -> bytes:
    """A file with a private value of a slice, and a name before it."""
    data = put_before(with_value(made, value)[0], 0x90010, element(0x80060, "CS", "MR"))
    return data.replace(element(0x80060, "CS", "MR"), element(0x80060, "CS", "MR") + element(0x80070, "LO", name))


def checks_of_beginnings(bench: Bench, made: File) -> Iterator[Check]:
    """A neighbour's beginning whose elements lead nowhere is left out, and only --header takes the other header; or nothing does."""
    value = csa_header(random.Random(4))
    true = series(made, value, "ACME")
    longer, alike = (series(made, value, name).replace(UID.encode(), NEIGHBOUR.encode()) for name in ("ACME Works", "EMCA"))
    damaged = changed(true, (true.index(made.frames[1]) + 80, bytes(8)))
    yield from told_by_header(bench, "a neighbour's beginning", [longer[:3072] + true[3072:], damaged], true, 1)
    yield told(bench, "that of one with the same places", [alike[:3072] + true[3072:], damaged], true, False, 3)


def described(made: File, bits: tuple[int, int, int], *more: int) -> bytes:
    """A file that says so of its samples: Bits Allocated, Bits Stored, High Bit, Pixel Representation and others."""
    at = made.bytes.index(struct.pack("<HH", 0x28, 0x100) + b"US", 132)
    end = made.bytes.index(struct.pack("<HH", 0x88, 0x200) + b"SQ")
    tags = (0x280100, 0x280101, 0x280102, 0x280103, 0x280106, 0x280107)
    return made.bytes[:at] + b"".join(element(tag, "US", value) for tag, value in zip(tags, (*bits, *more))) + made.bytes[end:]


def checks_of_samples(bench: Bench, small: File) -> Iterator[Check]:
    """Bits Allocated goes with Bits Stored and High Bit; no sample of a frame of 8 bits is larger than 255."""
    true = described(small, (8, 8, 7), 0, 3, 255)
    for name, other, is_back in (
        ("what another file says of samples", described(small, (16, 16, 15), 0, 3, 65535), True),
        ("Bits Allocated alone", described(small, (16, 8, 7), 0, 3, 255), False),
        ("two of three", described(small, (16, 16, 7), 0, 3, 255), False),
        ("another largest sample that can be", described(small, (8, 8, 7), 0, 3, 191), False),
    ):
        yield told(bench, name, [other, true], true, is_back)
    odd = [described(small, (8, stored, 65535), 0, 3, 255) for stored in (8, 7)]
    yield told(bench, "High Bit 65535, and two Bits Stored", odd, odd[0], False, 1)
    signed = described(small, (8, 8, 7), 1, 3, 65535)
    yield told(bench, "a largest sample, with signs", [signed, described(small, (8, 8, 7), 1, 3, 255)], signed, False)


def sectored(made: File) -> tuple[bytes, int]:
    """A file with a sector of elements and then zeros in a value, of which one byte is none; where the sector is."""
    at = made.bytes.index(struct.pack("<HH", 0x28, 2) + b"US", 132)
    head = made.bytes[:at] + element(0x190010, "LO", "MINE")
    border = (len(head) // 512 + 1) * 512
    parts = [element(0x191010 + number, "LO", f"value {number} of it") for number in range(60)]
    while len(head) < border + 300:
        head += parts.pop(0)
    value = bytes(border + 512 - 6 - len(head) - 12) + b"\3" + bytes(5) + b"abcdef" * 20
    return head + element(0x1910FF, "OB", value) + made.bytes[at:], border


def checks_of_whole_sectors(bench: Bench, made: File) -> Iterator[Check]:
    """Places in a sector that was lost from border to border go together; in another range they don't."""
    true, border = sectored(made)
    yield told(bench, "zeros in a sector", [changed(true, (border, bytes(512))), true], true)
    yield told(bench, "zeros from elsewhere on", [changed(true, (border + 37, bytes(475))), true], true, False, 1)
    parts = [element(0x191010 + at, "LO", f"value {at} of it") for at in range(60)]
    true = put_before(made.bytes, 0x280002, element(0x190010, "LO", "MINE"), *parts)
    middle = true[border + 44 : border + 460].replace(b"of it", b"OF IT")
    sector = b"x" * 44 + middle + b"y" * 52
    yield told(bench, "another file's sector", [changed(true, (border, sector)), true], true)
    inner = changed(true, (border + 44, middle), (border + 20, b"x" * 24), (border + 460, b"y" * 30))
    yield told(bench, "the same, not from border to border", [inner, true], true, False, 1)


def checks_of_zeros(bench: Bench, made: File) -> Iterator[Check]:
    """Zeros of two damages that meet: one way goes on there, and has zeros for a text. Zeros that end within a text are dropped."""
    parts = [element(0x200011 + at, "IS", str(at)) for at in range(3)]
    true = put_before(made.bytes, 0x280002, *parts)
    begin = true.index(parts[0])
    end = begin + len(parts[0]) + len(parts[1])
    for name, until, is_back in (("zeros of two damages that meet", end, False), ("zeros that end within a text", end - 1, True)):
        copies = [changed(true, (begin, bytes(until - begin))), changed(true, (end, bytes(9)))]
        for order in (copies, copies[::-1]):
            yield told(bench, name, order, true, is_back, 1)


def checks_of_no_copy(bench: Bench, made: File, folder: str, rng: random.Random) -> Iterator[Check]:
    """What no copy has is not taken from one of them: a UID, a value that its VR forbids, noise in a text, a frame of another shape."""
    true, uid = made.bytes, made.bytes.rindex(UID.encode(), 0, made.name_at)
    noise = random.Random(8)
    date = true.index(b"20200131")
    for name, place, wrong in (
        ("another UID", uid, UID[:-1].encode() + b"8"),
        ("no UID", uid, b"1.2\x81\x82.4"),
        ("no date", date, b"20\x8d00\x0431"),
    ):
        lost = changed(true, (place - 8, noise.randbytes(20)))
        yield told(bench, f"{name}, where the other copy has noise", [lost, changed(true, (place, wrong))], true, False, 1)
    status, out, printed, _, _ = bench.mend([lost, changed(true, (date, wrong))], "--header", "COPY1")
    yield f"--header names the copy with no date: as it has it ({status}, {printed})", (status, out) == (0, changed(true, (date, wrong)))
    text, at = with_value(made, b"".join(b"<Step.%d> sSlice[%d]\n" % (line % 7, line % 40) for line in range(600)))
    border = (at // 512 + 2) * 512
    both = [changed(text, (border, bytes(4096))), changed(text, (border + 1024, noise.randbytes(512)))]
    yield told(bench, "zeros in a text, and noise in the midst of them", both, text, False, 1)
    alone = [text[: border + 300], changed(text, (border + 1024, noise.randbytes(512)))]
    yield told(bench, "a cut copy, and noise in the text of the other", alone, text, False, 1)
    small = File([frame(rng, 8, 16, 12, folder) for _ in range(3)], 8, 16, 12)
    begin, size = small.items[1] + 8, len(small.frames[1])
    other = frame(rng, 8, 9, 7, folder)
    other = other + bytes(size - len(other))
    copies = [changed(small.bytes, (begin, other)), changed(small.bytes, (begin, bytes(size)))]
    status, out, printed, _, _ = bench.mend(copies)
    yield f"a frame of another shape: not whole ({status}, {printed})", (status, out) == (1, None) and "frame 1 whole" not in printed


def checks_of_one_run(bench: Bench, made: File) -> Iterator[Check]:
    """Zeros that were written over three places and more in one run were written over those between them too."""
    inner = bytes(24) + b"\x7a\x3b\x11" + bytes(37)
    before = [element(0x191000 + at, "OB", bytes(20)) for at in range(4)]
    more = [element(0x191020 + at, "OB", bytes(20)) for at in range(4)]
    for pad in range(2, 514, 2):
        head = [element(0x190010, "LO", "MINE"), element(0x190011, "OB", b"x" * pad), *before]
        true = put_before(made.bytes, 0x280002, *head, element(0x191010, "OB", inner), *more)
        place = true.index(inner) + 24
        if place % 512 == 12:
            break
    other = changed(true, (true.index(made.frames[0]) + 70, bytes(8)))
    zeros = changed(true, (place - 140, bytes(280)))
    for order in ([zeros, other], [other, zeros]):
        yield told(bench, "a run of zeros over a place in a private value", order, true)


PAIRS = [checks_of_entries, checks_of_losses, checks_of_foreign_files, checks_of_shorter_copies, checks_of_foreign_frames]
PAIRS += [checks_of_one_copy_alone, checks_of_beginnings, checks_of_samples, checks_of_whole_sectors, checks_of_zeros, checks_of_no_copy]
PAIRS += [checks_of_one_run]
