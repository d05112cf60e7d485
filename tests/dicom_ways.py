"""Checks of lengths that swallow elements, and of words that stand a second time where copies lie to each other."""
from __future__ import annotations

import random
import struct
import types
from collections.abc import Iterator
from typing import Any

from dicom_files import Bench, File, changed, element, with_value
from dicom_pairs import told
from dicom_rules import csa_header
from dicom_rules import put_before as put
from dicom_truth import case
from jls_tools.dicom.axis.pieces import meet_again
from jls_tools.dicom.axis.leads import leads
from jls_tools.dicom.copies.instance import shares_pieces
from jls_tools.dicom.copies.witness import Witness
from jls_tools.dicom.evidence.doubtful import hole_in_text
from jls_tools.dicom.read.elements import DELIMITER
from jls_tools.dicom.read.tags import ALLOCATED, SIGN, STORED
from jls_tools.dicom.result import Place
from jls_tools.frames.codings import PIECE, PIECES

Check = tuple[str, bool]
# 200 lines of 8 samples 0 of 12 bits: with the header of its item it has 64 bytes, so that all sectors of such frames are equal
BLANK = bytes.fromhex("ffd8fff7000b0c00c8000801011100ffda0008010100000000ff7fff7fff7fff7fff7fff7fff7fff7fff7fff7fff7fff7fff7fff7effd9")


def checks_of_swallowed(bench: Bench, made: File) -> Iterator[Check]:
    """A length that takes in the elements that follow is damaged, though the file reads on behind them."""
    numbers = [element(0x191001 + at, "FD", struct.pack("<d", 1.5 * at)) for at in range(5)]
    true = put(made.bytes, 0x280002, element(0x190010, "LO", "MINE"), *numbers)
    at = true.index(numbers[1]) + 6
    copies = [changed(true, (at, b"\x28")), changed(true, (made.name_at - 2, b"\x09"))]
    for order in (copies, copies[::-1]):
        yield told(bench, "a length that takes in two elements", order, true)
    text = element(0x191001, "LO", b"any" + bytes(5))
    true = put(made.bytes, 0x280002, element(0x190010, "LO", "MINE"), text, element(0x191002, "OB", bytes(6)), *numbers[2:])
    place = true.index(text) + 6
    longer = changed(true, (place, bytes([8 + 12 + 6])))
    yield told(bench, "a length that takes in an element of zeros", [longer, changed(true, (made.name_at - 2, b"\x09"))], true)
    inner = element(0x80060, "CS", "MR") + element(0x80070, "LO", "ANY ")
    true = put(made.bytes, 0x280002, element(0x190010, "LO", "MINE"), element(0x191001, "OB", bytes(20) + inner), *numbers[2:])
    place = true.index(inner) - 24
    shorter = changed(true, (place, struct.pack("<I", 20)))
    yield told(bench, "a value that has elements of its own", [shorter, changed(true, (made.name_at - 2, b"\x09"))], true)


def open_sequence(*items: bytes) -> bytes:
    """A sequence that says no length, of items that say none."""
    bare = b"\xff\xff\xff\xff"
    parts = [b"\xfe\xff\x00\xe0" + bare + each + b"\xfe\xff\x0d\xe0" + bytes(4) for each in items]
    return struct.pack("<HH", 8, 0x1140) + b"SQ\0\0" + bare + b"".join(parts) + DELIMITER


def checks_of_open_sequences(bench: Bench, made: File) -> Iterator[Check]:
    """Sequences and items without lengths, in each other too, and damage of what begins and ends them and of what is in them."""
    inner = open_sequence(element(0x81150, "UI", "1.2.840"), element(0x81155, "UI", "1.2.3"))
    outer = open_sequence(element(0x80060, "CS", "MR") + inner, element(0x80060, "CS", "CT"))
    true = put(made.bytes, 0x90010, outer)
    begin, end = true.index(outer), true.index(outer) + len(outer)
    second = true.index(b"\xfe\xff\x00\xe0", begin + 20)
    frame = (true.index(made.frames[0]) + 70, bytes(8))
    for name, one, other in (
        ("its header, and a frame", (begin, bytes(8)), frame),
        ("its length, and its end", (begin + 8, b"\x20\0\0\0"), (end - 8, bytes(8))),
        ("an item's header, and another one's", (begin + 12, bytes(8)), (second, b"\xfe\xff\x0d\xe0\x09")),
        ("an element in it, and the end of an item", (begin + 20, bytes(9)), (end - 16, bytes(8))),
        ("elements in it", (begin + 24, b"??\7"), (end - 24, b"\1\2\3")),
    ):
        for order in ([one, other], [other, one]):
            yield told(bench, f"a sequence without a length: {name}", [changed(true, each) for each in order], true)
    yield from of_unknown_sequences(bench, made)


def of_unknown_sequences(bench: Bench, made: File) -> Iterator[Check]:
    """A sequence of VR UN without a length has elements without VRs (PS3.5, 6.2.2)."""
    bare = b"\xff\xff\xff\xff"
    inner = b"".join(struct.pack("<HHI", 0x27, 0x1011 + at, 6) + b"MINE %d" % at for at in range(3))
    items = b"\xfe\xff\x00\xe0" + bare + inner + b"\xfe\xff\x0d\xe0" + bytes(4) + DELIMITER
    unknown = struct.pack("<HH", 0x27, 0x1002) + b"UN\0\0" + bare + items
    true = put(made.bytes, 0x280002, element(0x270010, "LO", "MINE"), unknown)
    begin = true.index(unknown)
    for name, one, other in (
        ("its header, and an element", (begin, bytes(8)), (begin + 34, bytes(8))),
        ("its item, and the end of it", (begin + 12, bytes(8)), (begin + len(unknown) - 16, bytes(8))),
    ):
        for order in ([one, other], [other, one]):
            yield told(bench, f"a sequence of VR UN: {name}", [changed(true, each) for each in order], true)


def checks_of_words_again(bench: Bench, made: File) -> Iterator[Check]:
    """Words beside damage can stand a second time elsewhere: copies go on where they are equal for long."""
    rng = random.Random(12)
    names = [b"sCoil[%d].dGain" % at for at in range(12)]
    block = b"".join(b"<%s> { %d }\n" % (rng.choice(names), at * at) for at in range(36))
    lines = b"".join(block + b"".join(b"<Own.%d> { %d }\n" % (at, rng.randrange(1 << 30)) for _ in range(4)) for at in range(12))
    true = with_value(made, lines)[0]
    frame = true.index(made.frames[0])
    for place in (2048, 4096, 6144):
        lost = true[: frame + 70] + true[frame + 71 :]
        noise = changed(true, (place, rng.randbytes(512)))
        yield told(bench, f"a sector of noise at {place}, and a byte that the other copy lost", [lost, noise], true)
    own = [b"".join(b"<Own.%d> { %d }\n" % (at, rng.randrange(1 << 30)) for at in range(60)) for _ in range(3)]
    word = b"sCoil[3].dGain = 0.70710678 and sCoil[4].dGain = 0.70710678\n"
    whole, begin = own[0] + own[1][:300] + word + own[1][300:] + word + own[2], len(own[0])
    end = whole.rindex(word)
    returned = own[0] + b"\r" + own[1][:130] + b"\r" + own[2]
    yield "bytes put in near each other", meet_again(own[0] + own[1][:130] + own[2], returned, begin, begin) == (begin, begin + 1)
    yield "a loss that has in it the words behind it", meet_again(own[0] + word + own[2], whole, begin, begin) == (begin, end)


def checks_of_own_codings(bench: Bench, single: File, made: File) -> Iterator[Check]:
    """A mode of interleaving that no scan has is no coding, and codestreams beside the items of a copy don't say its coding."""
    true, stream = single.bytes, single.frames[0]
    begin = single.items[0] + 8
    scan = begin + stream.index(b"\xff\xda")
    until = scan + (len(stream) - stream.index(b"\xff\xda")) // 3
    flipped = changed(true, (scan + 8, bytes([true[scan + 8] ^ 0x5A])))
    rest = changed(true, (until, bytes(begin + len(stream) - until)))
    for order in ([flipped, rest], [rest, flipped]):
        yield told(bench, "a mode of interleaving that no scan has", order, true)
    foreign = b"".join(made.frames[:2])
    zeros = changed(true, (single.items[0], bytes(8)), (scan + 40, bytes(range(1, 90))))
    yield told(bench, "codestreams behind the end of one copy", [true + foreign, zeros], true)


def checks_of_letters(bench: Bench, made: File, rng: random.Random) -> Iterator[Check]:
    """In a long text of a CSA header bytes beyond ASCII are damage, unless they are few among letters, or UTF-8."""
    true = with_value(made, csa_header(rng))[0]
    at = true.index(b"sSlice[60]")
    own = changed(true, (at, "Prüfung".encode()))
    pairs: dict[str, tuple[bytes, bytes, bool]] = {
        "a byte": (true, changed(true, (at, b"\xcd")), True),
        "noise": (true, changed(true, (at, b"\xf9\x93\x96T\xc5\x92Y\xa5")), True),
        "a letter of UTF-8": (changed(true, (at, "ü".encode())), true, False),
        "a name in UTF-8": (own, changed(own, (at, b"Another1")), False),
        "a line with a letter": (changed(true, (at - 9, b"of the Pr\xfcfung")), changed(true, (at - 9, b"a sector again!!")), False),
        "a byte near the begin of a text": (true, changed(true, (true.index(b"sSlice[3]"), b"\xcd")), False),
        "a true byte near the begin of a text": (changed(true, (true.index(b"sSlice[3]"), b"\xcd")), true, False),
    }
    for name, (whole, other, is_back) in pairs.items():
        for order in ([whole, other], [other, whole]):
            yield told(bench, f"{name} in a CSA header", order, whole, is_back)
    sector = -(-true.index(b"sSlice[20]") // 512) * 512
    begins = [true.index(b"sSlice[%d]" % line) for line in (1, 7, 13, 55, 61, 67, 73, 79)]
    many = changed(true, *((place, b"\1") for place in begins), (sector, rng.randbytes(512)))
    yield told(bench, "a CSA header with control characters and a sector of noise", [many, true], true)


def checks_of_sectors_of_text(bench: Bench, made: File, rng: random.Random) -> Iterator[Check]:
    """A sector of one text again and again was lost, from border to border; elsewhere, or if it goes on, it can be true."""
    lines = b"".join(b"<Step.%d> sSlice[%d].dTra = -%d.%03d\n" % (at % 7, at % 40, at % 91, at * 7 % 1000) for at in range(200))
    true, fill = with_value(made, lines)[0], (b"BAD-SECTOR \n" * 43)[:512]
    text = b"BAD-SECTOR \n" * 90
    goes_on = changed(true, (2048 - 36, text[: 512 + 36]))
    anew = changed(true, (2048 - 36, text[:36] + fill + fill + fill))
    flip, other = (true.index(lines[-400:-390]), b"Q"), changed(true, (true.index(made.frames[0]) + 70, bytes(8)))
    both = changed(true, (2048, fill), (1024, fill))
    csa, noise = with_value(made, csa_header(rng))[0], rng.randbytes(512)
    strange = b"".join(element(0x180050 + at, "DS", str(at * 7919)) for at in range(60))[:512]
    words = (b"sSlice[7].dTra = -7.7\n" * 24)[:512]
    begin = -(-csa.index(b"sSlice[10]") // 512) * 512
    for name, wanted, copies, is_back in (
        ("a sector", true, [changed(true, (2048, fill)), other], True),
        ("two sectors", true, [both, other], True),
        ("two sectors side by side, each with a whole text first", true, [changed(true, (2048, fill * 2)), other], True),
        ("a text that begins anew in a true sector", anew, [anew, changed(anew, (2560, lines[:512]))], False),
        ("a sector in each", true, [changed(true, (2048, fill)), changed(true, (4096, fill))], True),
        ("a sector in each side by side", true, [changed(true, (2048, fill)), changed(true, (2560, fill))], True),
        ("a sector, and ones beside it in the other copy", true, [changed(true, (2048, fill)), changed(true, (2560, b"\xff" * 512))], True),
        ("a sector, and noise beside it in the other copy", true, [changed(true, (2048, fill)), changed(true, (2560, noise))], False),
        ("a range that is no sector", true, [changed(true, (2100, fill)), other], False),
        ("a text that goes on before a sector", goes_on, [goes_on, changed(goes_on, (2048, lines[:512]))], False),
        ("a sector, and zeros in the other copy", true, [changed(true, (2048, fill)), changed(true, (2048, bytes(512)))], False),
        ("a sector, and noise in the other copy", true, [changed(true, (2048, fill)), changed(true, (2048, noise))], False),
        ("a sector, and elements in the other copy", true, [changed(true, (2048, fill)), changed(true, (2048, strange))], False),
        ("words of the value, and elements", true, [changed(true, (2048, words)), changed(true, (2048, strange))], False),
        ("noise, and elements in the other copy", true, [changed(true, (2048, noise)), changed(true, (2048, strange))], False),
        ("zeros, and elements in the other copy", true, [changed(true, (2048, bytes(512))), changed(true, (2048, strange))], False),
        ("a sector, and damage behind it in a CSA header", csa, [changed(csa, (begin, fill)), changed(csa, (begin + 640, b"\1"))], True),
        ("a sector, and a letter", true, [changed(true, (2048, fill)), changed(true, flip)], False),
    ):
        for order in (copies, copies[::-1]):
            yield told(bench, f"{name} (sectors of one text)", order, wanted, is_back)
    printed = bench.mend([changed(true, (2048, fill * 2)), other])[2]
    yield f"each sector begins anew: it is one text ({printed})", "others are one text again and again" in printed


def checks_of_even_frames(bench: Bench) -> Iterator[Check]:
    """Sectors of even frames stand in the file again and again. That of one copy is at its place where most of it is in another one too."""
    true = File([BLANK] * 40, 12, 8, 200)
    for size, status in ((40, 0), (400, 1)):
        begin = true.items[20] - true.items[20] % 512 + 60
        other = changed(true.bytes, (begin, random.Random(6).randbytes(size)))
        words = "" if status == 0 else "stands elsewhere in the file too"
        yield case(bench, f"even frames, and {size} bytes of noise", [true.bytes, other], status, b"" if status else true.bytes, words)


def checks_of_likeness(made: File) -> Iterator[Check]:
    """Where a copy begins, whether files share pieces of scans, and whether a hole stands beside what one copy alone has."""
    rng, model = random.Random(13), made.bytes
    yield "a beginning in another file is no begin of it", leads([bytes(2048) + model[:700] + rng.randbytes(len(model)), model]) == {}
    yield "bytes before the preamble", leads([bytes(2048) + model, model]) == {0: 2048}
    scan, other = (bytes(rng.randrange(0x80) for _ in range(PIECE * PIECES * 3)) for _ in range(2))
    yield "scans that share nothing", not shares_pieces(scan, other, 0)
    yield "one piece at its place", shares_pieces(scan, other[:PIECE] + scan[PIECE : 2 * PIECE] + other[2 * PIECE :], 0)
    yield "an even scan says nothing", shares_pieces(bytes(1000), other, 0)
    data = b"a" * 100 + bytes(20) + b"b" * 100
    for begin, end, found in ((90, 100, 100), (120, 130, 100), (88, 99, None), (121, 130, None)):
        place = Place(begin, end - begin, "", [(["one"], b"a"), (["other"], b"b")], 0)
        yield f"a hole beside {begin} to {end}", hole_in_text([place], data) == found


def checks_of_signed_samples() -> Iterator[Check]:
    """Samples below zero of a copy that is not compressed: other bits above them are no samples."""
    sizes = {ALLOCATED: 16, STORED: 12, SIGN: 1}
    copy: Any = types.SimpleNamespace(number=sizes.__getitem__)
    for samples, precision, found in (
        ([5, 0xFFFF], 12, [5, 0xFFF]),
        ([5, 0xFFFF], 16, [5, 0xFFFF]),
        ([5, 0x0FFF], 12, [5, 0xFFF]),
        ([5, 0x1005], 12, None),
        ([5, 0xFFFF], 14, None),
    ):
        yield f"{samples} in {precision} bits", Witness.in_bits(copy, samples, precision) == found


WAYS = [checks_of_swallowed, checks_of_open_sequences, checks_of_words_again, checks_of_own_codings, checks_of_letters]
WAYS += [checks_of_sectors_of_text, checks_of_even_frames, checks_of_likeness, checks_of_signed_samples]
