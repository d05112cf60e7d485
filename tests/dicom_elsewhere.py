"""Checks of one byte that stands elsewhere in the file with the bytes around it, and of bytes that were sent with seven bits."""
from __future__ import annotations

import random
import struct
from collections.abc import Iterator

from dicom_files import Bench, File, changed, element, with_value
from dicom_pairs import told
from dicom_rules import put_before

Check = tuple[str, bool]


def lines_of(count: int, more: bytes = b"") -> bytes:
    return b"".join(b"asSlice[%03d].sNormal.dTra = 0.99986%s ;\n" % (at * 37 % 1000, more) for at in range(count))


def hurt_in(data: bytes, made: File, number: int) -> bytes:
    """A copy with damage in a frame."""
    return changed(data, (data.index(made.frames[number]) + 70, b"\x5a" * 8))


def checks_of_bytes_elsewhere(bench: Bench, made: File) -> Iterator[Check]:
    """A byte is decided where another one never stands with the bytes around it; digits, and what fills a gap, stand so more often."""
    for name, count, old, new, is_back in (
        ("a letter", 20, b"Normal", b"Nosmal", True),
        ("a letter that stands so twice more", 3, b"Normal", b"Nosmal", False),
        ("a digit", 40, b"0.99986", b"0.99987", True),
        ("a digit that stands so fourteen times more", 15, b"0.99986", b"0.99987", False),
        ("a number of each line", 40, b"[555]", b"[557]", False),
    ):
        true, begin = with_value(made, lines_of(count))
        at = true.index(old, begin + min(500, count * 20))
        hurt = changed(true, (true.index(made.frames[0]) + 70, bytes(8)))
        other = changed(true, (at, new))
        for copies in ([other, hurt], [hurt, other]):
            yield told(bench, f"{name} of {count} lines (elsewhere)", copies, true, is_back, None if is_back else 1)
    true, begin = with_value(made, lines_of(40))
    at = true.index(b"Normal", begin + 700)
    near = [changed(true, (at + 2, b"s")), changed(true, (true.index(b"Normal", at + 6) + 2, b"s"))]
    yield told(bench, "another byte of the sector differs too (elsewhere)", near, true, False, 1)
    yield "neither of both is decided (elsewhere)", bench.mend(near)[2].count("undecided;") == 2
    three = [changed(true, (at + 2, b"s")), hurt_in(true, made, 0), changed(true, (at // 512 * 512, (b"BAD-SECTOR " * 50)[:512]))]
    yield told(bench, "a letter, and a text over its sector in a third copy (elsewhere)", three, true)
    three[2] = changed(true, (at + 5, b"t"))
    yield told(bench, "a letter, and another one of its sector in a third copy (elsewhere)", three, true)
    values = [element(0x200011 + at, "LO", "sNormal.dTra") for at in range(8)]
    data = put_before(made.bytes, 0x280002, *[element(0x190010, "LO", "MINE"), element(0x191010, "UT", "")][:1], *values)
    hurt = changed(data, (data.index(made.frames[0]) + 70, bytes(8)))
    place = data.index(b"sNormal", data.index(b"sNormal") + 40)
    yield told(bench, "the value of an element (elsewhere)", [changed(data, (place + 3, b"s")), hurt], data, False)
    filled, begin = with_value(made, lines_of(40, b" " * 60))
    gap = changed(filled, (filled.index(b" " * 60, begin + 1000) + 3, b"7"))
    yield told(bench, "a digit in blanks, where the other copy has blanks (elsewhere)", [gap, filled], filled, True)
    fewer, begin = with_value(made, lines_of(12, b" " * 60))
    gap = changed(fewer, (fewer.index(b" " * 60, begin + 200) + 3, b"7"))
    yield told(bench, "the same, and not often (elsewhere)", [gap, fewer], fewer, False, 1)


def sent(data: bytes, begin: int, size: int) -> bytes:
    """A copy of which some bytes were sent with seven bits."""
    return changed(data, (begin, bytes(byte & 0x7F for byte in data[begin : begin + size])))


def checks_of_seven_bits(bench: Bench, made: File, rng: random.Random) -> Iterator[Check]:
    """Several bytes that lack their highest bit alone, and none that has it between them."""
    words = b"".join(bytes([rng.randrange(0x20, 0x7F) for _ in range(rng.randrange(3, 9))]) + b"\xcd" for _ in range(300))
    true, begin = with_value(made, words)
    hurt = changed(true, (true.index(made.frames[0]) + 70, bytes(8)))
    lost = sent(true, begin + 700, 256)
    for copies in ([lost, hurt], [hurt, lost]):
        yield told(bench, "sent with seven bits", copies, true)
    yield f"it is told ({bench.mend([lost, hurt])[2]})", "others were sent with seven bits" in bench.mend([lost, hurt])[2]
    inside = true.index(made.frames[1]) + 60
    both = [sent(true, inside, 200), changed(true, (inside + 240, bytes(8)))]
    yield told(bench, "a part of a frame sent with seven bits, and zeros behind it", both, true)
    lost = [sent(true, inside, 200), changed(sent(true, inside, 200), (inside + 240, bytes(8)))]
    yield told(bench, "a part of a frame of both", lost, true, False, 1)
    lost = sent(true, begin + 700, 256)
    high = [at for at in range(begin + 700, begin + 956) if true[at] > 0x7F]
    between = changed(lost, (high[2], b"\xcd"))
    parts = changed(true, *((at, b"\x4d") for at in high[:3]))
    yield told(bench, "three bytes with seven bits", [parts, hurt], true, False, 1)
    yield told(bench, "another place of both", [between, changed(hurt, (high[2] + 300, b"\x11"))], true, False, 1)
    flip = changed(true, (high[5], b"\x4d"))
    yield told(bench, "a flip of one copy where another was sent with seven bits", [hurt, flip, lost], true, False, 1)
    yield told(bench, "a flip elsewhere", [hurt, changed(true, (begin + 300, b"\x11")), lost], true)
    first, code = true.index(made.frames[1]), made.frames[1]
    for at in [at for at in range(60, 200) if code[at] > 0x7F][:12]:
        copies = [changed(true, (first + at, bytes([code[at] & 0x7F]))), sent(true, first + at - 20, 60), hurt]
        yield told(bench, f"a flip of a frame at {at} where another copy was sent with seven bits", copies, true, False)
    plain, at = with_value(made, lines_of(60))
    for step in (8, 64):
        places = [(at + 300 + step * number, plain[at + 300 + step * number]) for number in range(9)]
        raised = changed(plain, *((place, bytes([byte | 0x80])) for place, byte in places))
        yield told(bench, f"the highest bit of each byte of {step} is set", [plain, raised], plain, False)


def checks_of_misplaced_sectors(bench: Bench, made: File, rng: random.Random) -> Iterator[Check]:
    """A sector that stands elsewhere in the file, where all copies have it, is at a wrong place, if the other copy looks well there."""
    lines = b"".join(b"<Step.%d> sSlice[%d].dTra = -%d.%03d\n" % (at % 7, at % 40, at % 91, at * 7 % 1000) for at in range(200))
    true, begin = with_value(made, lines)
    at, place = -(-begin // 512) * 512 + 1024, -(-begin // 512) * 512 + 3072
    hurt = changed(true, (true.index(made.frames[0]) + 70, bytes(8)))
    moved = changed(true, (at, true[place : place + 512]))
    others = {
        "": (hurt, True),
        ", and noise in the other copy": (changed(hurt, (at, rng.randbytes(512))), False),
        ", and zeros in the other copy": (changed(hurt, (at, bytes(512))), False),
        ", and another one in the other copy": (changed(hurt, (at, true[place - 1024 : place - 512])), False),
        ", and damage where it stands": (changed(hurt, (place + 100, b"Zz")), False),
    }
    for name, (other, is_back) in others.items():
        for copies in ([moved, other], [other, moved]):
            yield told(bench, f"a sector of another place{name} (misplaced)", copies, true, is_back, None if is_back else 1)
    printed = bench.mend([moved, others[", and damage where it stands"][0]])[2]
    yield "neither the damage nor the sector is decided (misplaced)", printed.count("undecided;") > 1


def checks_of_joints(bench: Bench, made: File, rng: random.Random) -> Iterator[Check]:
    """Two sectors that changed their places: the text goes on over their borders in the other copy. Numbers, and noise, say nothing."""
    lines = b"".join(b"asCoilSelectMeas[%d].asList[%d].lRxChannel = %d\n" % (at % 3, at, at % 4) for at in range(120))
    lines += b"".join(b"sGroupArray.anMember[%d].flFactor%d = %d\n" % (at, at % 2, at * 7919 % 1000) for at in range(120))
    true, begin = with_value(made, lines)
    one, two = -(-begin // 512) * 512 + 1024, -(-begin // 512) * 512 + 6144
    first, second = true[one : one + 512], true[two : two + 512]
    for name, other, moved, is_back in (
        ("two sectors", hurt_in(true, made, 0), changed(true, (one, second), (two, first)), True),
        ("two sectors, and one of them is noise", hurt_in(true, made, 0), changed(true, (one, second), (two, rng.randbytes(512))), True),
        ("two sectors, and damage before one", changed(true, (one - 20, b"Zz")), changed(true, (one, second), (two, first)), False),
    ):
        for copies in ([moved, other], [other, moved]):
            yield told(bench, f"{name} (joints)", copies, true, is_back, None if is_back else 1)
    copies = [changed(true, (one, second), (two, first)), changed(true, (one - 20, b"Zz"), (two - 20, b"Zz"))]
    yield "neither damage nor the sectors behind it are decided (joints)", bench.mend(copies)[2].count("undecided;") == 4
    digits = b"".join(b"%03d." % (at * 7919 % 1000) for at in range(2000))
    true, begin = with_value(made, digits)
    swapped = changed(true, (one, true[two : two + 512]), (two, true[one : one + 512]))
    yield told(bench, "two sectors of numbers (joints)", [swapped, hurt_in(true, made, 0)], true, False, 1)


def checks_of_bits_in_zeros(bench: Bench, made: File, rng: random.Random) -> Iterator[Check]:
    """A bit alone in a long run of zeros is a flip where a copy has others, unless the other copy has zeros that were written somewhere."""
    flip = 129, b"H"
    for name, size, value, is_back in (
        ("a bit", 3000, b"\x10", True),
        ("a bit in fewer zeros", 900, b"\x10", False),
        ("several bits", 3000, b"\x8c", False),
    ):
        true, begin = with_value(made, rng.randbytes(64) + bytes(size) + rng.randbytes(64))
        hurt = changed(true, (true.index(made.frames[0]) + 70, b"\x5a" * 8))
        odd = changed(true, flip, (begin + 400, value))
        for copies in ([odd, hurt], [hurt, odd]):
            yield told(bench, f"{name} (in zeros)", copies, true, is_back, None if is_back else 1)
    true, begin = with_value(made, rng.randbytes(64) + bytes(3000) + rng.randbytes(64))
    lone, table = changed(true, (begin + 400, b"\x10")), hurt_in(true, made, 0)
    yield told(bench, "a bit of a copy that has no other flip (in zeros)", [lone, table], true, False, 1)
    yield told(bench, "a bit, and a flip of the other copy (in zeros)", [lone, changed(table, flip)], true, False, 1)
    odd, hurt = changed(true, flip, (begin + 400, b"\x10")), changed(true, (true.index(made.frames[0]) + 70, bytes(8)))
    yield told(bench, "a bit, and zeros in a frame of the other copy (in zeros)", [odd, hurt], true, False, 1)
    near = changed(odd, (begin + 420, b"\x01"))
    yield told(bench, "two bits in a sector (in zeros)", [near, changed(hurt, (hurt.index(made.frames[1]) + 60, b"ab"))], true, False, 1)
    true, begin = with_value(made, rng.randbytes(64) + bytes(1900) + rng.randbytes(64))
    bits = [changed(true, flip, *((begin + 64 + at, b"\x10") for at in (300, 900, 1500))), hurt_in(true, made, 0)]
    for copies in (bits, bits[::-1]):
        yield told(bench, "three bits, of which none has zeros enough around it (in zeros)", copies, true, False, 1)
    true, begin = with_value(made, rng.randbytes(64) + bytes(3000) + rng.randbytes(64))
    edge = [changed(true, flip, (begin + 80, b"\x10")), changed(true, (true.index(made.frames[0]) + 70, b"\x5a"))]
    yield told(bench, "a bit where the zeros begin (in zeros)", edge, true, False, 1)
    border = -(-(begin + 1200) // 512) * 512
    near = [changed(true, flip, (border + 4, b"\x10")), changed(true, (border - 40, b"\x03"))]
    yield "a bit, and a byte of the other copy before it in the sector before (in zeros)", bench.mend(near)[2].count("undecided;") == 2


def checks_of_version_names(bench: Bench, made: File) -> Iterator[Check]:
    """The Implementation Class UID of DCMTK ends with the version that its name has."""
    for name, version, is_back in (("DCMTK", "OFFIS_DCMTK_367", True), ("another version", "OFFIS_DCMTK_368", False)):
        uid = "1.2.276.0.7230010.3.0.3.6.7"
        meta = element(0x20012, "UI", uid) + element(0x20013, "SH", version)
        begin = made.bytes.index(element(0x80008, "CS", "ORIGINAL\\PRIMARY"))
        size = struct.pack("<I", struct.unpack_from("<I", made.bytes, 140)[0] + len(meta))
        true = changed(made.bytes[:begin] + meta + made.bytes[begin:], (140, size))
        at = true.index(uid.encode()) + len(uid) - 1
        copies = [changed(true, (at, b"3")), changed(true, (true.index(made.frames[0]) + 70, bytes(8)))]
        for order in (copies, copies[::-1]):
            yield told(bench, f"a flip in the UID of {name}", order, true, is_back, None if is_back else 1)


ELSEWHERE = [checks_of_version_names, checks_of_bits_in_zeros, checks_of_bytes_elsewhere, checks_of_seven_bits, checks_of_misplaced_sectors]
ELSEWHERE += [checks_of_joints]
