"""Checks of bytes that were put into a copy, and of a bit that is stuck in a page, each with cases in which the rule would be wrong."""
from __future__ import annotations

import random
import struct
from collections.abc import Callable, Iterator, Sequence

from dicom_files import Bench, File, changed, element, frame, item, with_value
from dicom_pairs import told
from dicom_rules import csa_header, put_before
from jls_tools.dicom.axis.align import Copy, on_one_axis
from jls_tools.dicom.axis.inserted import without
from jls_tools.dicom.layout import Layout, is_out_of_chain

Check = tuple[str, bool]
PAGE, LANE = 4096, 64


def put(data: bytes, at: int, new: bytes) -> bytes:
    return data[:at] + new + data[at:]


def twice(data: bytes, at: int, size: int) -> bytes:
    return put(data, at, data[at : at + size])


def checks_of_bytes_put_in(bench: Bench, made: File, rng: random.Random) -> Iterator[Check]:
    """One copy has bytes too many: elements and items go on only without them."""
    true, first, second, third = made.bytes, *made.items[:3]
    text, begin = with_value(made, b"".join(b"sSlice[%d].dTra = %d\n" % (at, at * 7) for at in range(200)))
    zeros, broken = (first + 70, bytes(8)), (made.name_at - 3, b"\7")
    sector = (-(-(begin + 1000) // 512) * 512, bytes(512))
    more, hurt = put(true[: second + 60] + true[second + 90 :], third + 60, b"\x91\x77\x13"), (text.index(made.frames[0]) + 70, bytes(8))
    cases = {
        "two bytes in a frame": (true, [put(true, second + 70, b"\x91\x3c"), changed(true, zeros)]),
        "a block of a frame twice": (true, [changed(true, zeros), twice(true, second + 60, 100)]),
        "in a frame of each": (true, [put(true, first + 70, b"\x91"), put(true, third + 60, rng.randbytes(9))]),
        "as many in a frame of each": (true, [put(true, first + 70, b"\x91\x3c"), put(true, third + 60, b"\x17\x21")]),
        "in three copies": (true, [put(true, at + 60, rng.randbytes(5 + size)) for size, at in enumerate((first, second, third))]),
        "a loss and more bytes": (true, [more, changed(true, zeros)]),
        "in the offset table": (true, [put(true, made.table_at + 4, rng.randbytes(64)), changed(true, zeros)]),
        "two bytes in a header": (true, [put(true, made.name_at + 3, b"\x91\x3c"), changed(true, zeros)]),
        "elements twice": (true, [twice(true, true.index(b"\x08\0\x08\0CS"), 80), changed(true, zeros)]),
        "a block of a private text twice": (text, [twice(text, begin + 300, 512), changed(text, hurt)]),
        "noise in a private text": (text, [put(text, begin + 300, rng.randbytes(64)), changed(text, hurt)]),
        "two bytes in a text of which another copy lost a part": (text, [put(text, begin + 300, b"\x91\x3c"), changed(text, sector, hurt)]),
    }
    for name, (wanted, copies) in cases.items():
        yield told(bench, name, copies, wanted)
    printed = bench.mend(cases["two bytes in a frame"][1])[2]
    yield f"they are told ({printed})", f"2 bytes at {second + 70} of " in printed and "no part of the file" in printed
    # The element before goes on with the bytes of this one, if as many were lost
    size = len(element(0x100010, "PN", "Doe^Jane"))
    lost = true[: true.index(bytes(range(64))) + 50] + true[true.index(bytes(range(64))) + 50 + size :]
    for name, copy in (("damage of its length", changed(true, broken)), ("of its VR", changed(true, (made.name_at - 4, b"\x91\x3c")))):
        yield told(bench, f"an element's bytes lost, and {name}", [lost, copy], true, False)
    noise = changed(true, (made.name_at - 8, rng.randbytes(size)))
    yield told(bench, "an element's bytes lost, and noise over that element", [lost, noise], true, False, 1)
    yield from checks_of_elements_lost(bench, made, rng)
    yield from checks_of_sequences_put_into(bench, made, rng)
    inner = true.index(b"Doe^Jane")
    yield told(bench, "a text of ten letters more", [put(true, inner + 3, b"anna^maria"), changed(true, zeros)], true, False)
    begin = text.index(b"sSlice[0]")
    lost = changed(text[: begin + 300] + text[begin + 302 :], (begin - 4, b"\x91\x3c\x77\x05"))
    fewer = changed(text, (begin - 4, struct.pack("<I", struct.unpack_from("<I", text, begin - 4)[0] - 2)))
    yield told(bench, "two bytes lost, and a length of each damaged, one so that it fits", [lost, fewer], text, False, 1)
    fewer = changed(true, (second + 4, struct.pack("<I", struct.unpack_from("<I", true, second + 4)[0] - 2)))
    lost = changed(true[: second + 60] + true[second + 62 :], (second, b"\x91\x3c\x77\x05"))
    printed = bench.mend([lost, fewer])[2]
    yield f"the same in a frame: not told ({printed})", "no part of the file" not in printed
    # The value takes the next element in, which has as many bytes, and whose header no copy has
    block = b"again and again "
    both, at = with_value(made, b"a" * 100 + block * 2 + b"e" * 100)
    both = changed(both, (both.index(b"Doe^Jane") - 8, bytes(8)))
    yield told(bench, "a block lost, and a header zeroed in both", [both[: at + 100] + both[at + 100 + len(block) :], both], true, False, 1)
    tail = [put(true, second + 70, b"\x91\x3c"), true + bytes(2)]
    yield told(bench, "two bytes in a frame, and two zeros behind the other copy", tail, true, False)
    yield told(bench, "these, and zeros behind a third", [*tail, changed(true, zeros) + bytes(2)], true, False)


def checks_of_zeros_behind(bench: Bench, made: File, rng: random.Random) -> Iterator[Check]:
    """Bytes put into a value that ends with zeros: an element can be hidden there, unless two other copies lack the bytes."""
    true, begin = with_value(made, b"".join(b"sSlice[%d].dTra = %d\n" % (at, at * 7) for at in range(40)) + bytes(40))
    more = put(true, begin + 300, rng.randbytes(8))
    hurt = [changed(true, (true.index(stream) + 70, bytes(8))) for stream in made.frames]
    yield told(bench, "bytes put into a value that ends with zeros", [more, hurt[0]], true, False, 1)
    yield told(bench, "the same, and two copies lack them", [hurt[1], more, hurt[0]], true)
    yield told(bench, "the same, and one of both is cut", [hurt[1][: begin + 200], more, hurt[0]], true, False, 1)
    yield from checks_of_chains_put_into(bench, made, rng)


def checks_of_chains_put_into(bench: Bench, made: File, rng: random.Random) -> Iterator[Check]:
    """Bytes put into a CSA header that ends with zeros: its items say that they are none of it, but in these zeros."""
    value = csa_header(rng) + bytes(40)
    true, begin = with_value(made, value)
    text, end = true.index(b"sSlice[30]"), begin + len(value)
    hurt = changed(true, (true.index(made.frames[0]) + 70, bytes(8)))
    yield told(bench, "bytes put into a CSA header", [put(true, text, rng.randbytes(8)), hurt], true)
    lost = put(hurt, text, b"\x91\x3c")
    lost = lost[: text + 600] + lost[text + 700 :]
    yield told(bench, "the same, and two and a loss in the other copy", [put(true, text - 300, rng.randbytes(8)), lost], true)
    wrong = true.index(b"Field5\0") - 3
    broken = [changed(copy, (wrong, b"\x91")) for copy in (put(true, text, rng.randbytes(8)), hurt)]
    yield told(bench, "a CSA header that is broken in both", broken, changed(true, (wrong, b"\x91")), False)
    # An empty element behind it, whose header is zeroed in both copies, of which one lost as many zeros
    more = put(true, end, element(0x91002, "LO", ""))
    both = [put(true, end, bytes(8)), hurt]
    yield told(bench, "zeros of a CSA header lost, and the next header zeroed in both", both, more, False, 1)
    for name, new, is_out in (("zeros put into those behind a CSA header", bytes(8), False), ("other bytes", b"\x91" * 8, True)):
        part, data = (end - 20, end - 12), put(true, end - 20, new)
        copies = [Copy("a", data), Copy("b", data, [part])]
        found = is_out_of_chain(copies, Layout(without(copies, [part])), part, [part])
        yield f"{name}: it says whether they are none of it ({found})", found == is_out


def checks_of_sequences_put_into(bench: Bench, made: File, rng: random.Random) -> Iterator[Check]:
    """A sequence that says how long it is shows that bytes are none of an element in it, but for one behind it that it takes in."""
    inner = b"".join(element(0x181000 + at, "LO", f"text {at} {at * 7919 % 1009}") for at in range(20))
    behind = element(0x7FE00001, "LO", "another text")
    true = put_before(made.bytes, 0x280002, element(0x189346, "SQ", item(inner)))
    hurt = changed(true, (true.index(made.frames[0]) + 70, b"\x5a" * 8))
    at = true.index(b"text 11 ")
    for name, place in (("a value", at + 3), ("a header", at - 5)):
        yield told(bench, f"bytes put into {name} of a sequence", [put(true, place, rng.randbytes(20)), hurt], true)
    true = put_before(made.bytes, 0x280002, element(0x189346, "SQ", item(inner)), element(0x189400, "LO", "another text"))
    at, size = true.index(b"text 11 "), len(behind)
    end = true.index(b"another text") - 8
    both = [changed(true, (end, rng.randbytes(8))), changed(true[: at - 8] + true[at - 8 + size :], (end - size, rng.randbytes(8)))]
    yield told(bench, "elements of a sequence lost, and the header behind it damaged in both", both, true, False, 1)


def checks_of_elements_lost(bench: Bench, made: File, rng: random.Random) -> Iterator[Check]:
    """Bytes of a value were lost, and it takes the next element in, which has as many bytes, and whose header no copy has."""
    text, begin = with_value(made, b"".join(b"sSlice[%d].dTra = %d\n" % (at, at * 7) for at in range(40)))
    end = text.index(b"sSlice[39].dTra = 273\n") + len(b"sSlice[39].dTra = 273\n")
    size = len(element(0x100010, "PN", "Doe^Jane"))
    assert text[end : end + size] == element(0x100010, "PN", "Doe^Jane")
    noise = [changed(text, (end - part, rng.randbytes(8 + part))) for part in (0, 0, 5)]
    inside = [noise[0], noise[1][: begin + 100] + noise[1][begin + 100 + size :]]
    yield told(bench, "bytes of a text lost, and noise of each copy over the next header", inside, text, False, 1)
    across = [noise[0], noise[1][: end - 6] + noise[1][end - 6 + size :]]
    yield told(bench, "the end of a text lost with the next header, and noise over that", across, text, False, 1)
    before = [noise[2], text[: end - 10] + text[end - 10 + size :]]
    yield told(bench, "the same, and noise over the end of the text too", before, text, False, 1)
    same = changed(text, (end, b"\xff" * 8))
    filled = [same, same[: begin + 100] + same[begin + 100 + size :]]
    yield told(bench, "bytes of a text lost, and one value over the next header in both", filled, text, False, 1)


def checks_of_put_in_beside_losses(bench: Bench, made: File, rng: random.Random) -> Iterator[Check]:
    """Bytes put into two of three copies, and what the third has there is lost, or its header is."""
    true, first, second, third = made.bytes, *made.items[:3]
    text, begin = with_value(made, b"".join(b"sSlice[%d].dTra = %d\n" % (at, at * 7) for at in range(200)))
    inside = text.index(made.frames[1])
    rest = changed(text, (inside, bytes(len(text) - inside)))
    more = [put(text, begin + 300, b"\x91\x3c"), put(text, text.index(made.frames[2]) + 60, rng.randbytes(8))]
    yield told(bench, "in two copies, and the rest of a third is zeros", [*more, rest], text)
    head = (second // 512 * 512, b"\xff" * 512)
    lost = [changed(true, head), put(true, second + 70, b"\x91\x3c"), changed(true, (first + 70, bytes(8)))]
    yield told(bench, "in one, and another one lost the length of the frame", lost, true)
    cut = [put(true, second + 70, b"\x91\x3c"), true[: second + 300], true[second + 80 :]]
    yield told(bench, "in one of three, of which one is cut behind it and one before", cut, true)
    zeros = changed(true, (first + 70, bytes(8)))
    begin = true.index(b"Doe^Jane")
    header = [put(true, begin + 3, b"anna^maria"), changed(true, (first + 70, bytes(8))), changed(true, (second + 70, bytes(8)))]
    yield told(bench, "a text of ten letters more, and two copies lack them", header, true)
    yield told(bench, "in the preamble", [put(true, 9, rng.randbytes(64)), zeros], true)
    many = put(true[: second + 60] + true[second + 90 :], third + 30, b"\x91\x13\x77")
    other = put(true[: third + 130] + true[third + 150 :], first + 70, b"\x91\x3c")
    many, other = many[: first + 20] + many[first + 37 :], other[: begin - 60] + other[begin - 49 :]
    yield told(bench, "in one frame of each of two copies, which lost bytes in two places each", [many, other], true)
    yield told(bench, "and one zero behind each copy", [twice(true, second + 60, 100) + b"\0", zeros + b"\0"], true + b"\0")


def checks_of_least_damage(bench: Bench, made: File, rng: random.Random) -> Iterator[Check]:
    """Where a value repeats, a loss or bytes put in are found in one place: several elsewhere would want more damage."""
    record = b"".join(b"dFlow%d = %d.5\n" % (at, at % 4) for at in range(60))
    text, begin = with_value(made, b"".join(record + b"nRecord = %04d\n" % (at * 7919 % 10007) for at in range(30)))
    hurt, place = (text.index(made.frames[0]) + 70, bytes(8)), begin + 9 * len(record)
    twice_and_lost = [twice(text, place, len(record) * 2 // 3), changed(text, hurt)]
    yield told(bench, "a part of a record twice", twice_and_lost, text)
    size, lone = len(record) * 2 // 3, (begin + 30, bytes([text[begin + 30] ^ 0x80]))
    both = [twice(changed(text, lone), place, size), twice(text, place + 9 * len(record) + 50, size)]
    found = [copy.absent for copy in on_one_axis([Copy(name, data) for name, data in zip("ab", both)], True)]
    sizes = [[last - first for first, last in absent] for absent in found]
    yield f"a part of a record twice in each copy ({found})", sizes == [[size], [size]]
    other = changed(text, (-(-place // 512) * 512, text[-(-begin // 512) * 512 :][:512]), hurt)
    (first, *more), rest = (copy.absent for copy in on_one_axis([Copy("a", text[:-8]), Copy("b", other)]))
    is_end = first[0] >= len(text) - 38 and first[1] - first[0] == 8 and more == rest == []
    yield f"a sector of another place, and the other copy's end is lost ({first}, {more}, {rest})", is_end


def stuck(data: bytes, begin: int, lane: int, mask: int, is_set: bool, until: int = PAGE) -> bytes:
    """A copy with a bit that is stuck in a page."""
    copy = bytearray(data)
    for at in range(begin + lane, min(begin + until, len(copy)), LANE):
        copy[at] = copy[at] | mask if is_set else copy[at] & ~mask
    return bytes(copy)


def checks_of_stuck_bits(bench: Bench, made: File, rng: random.Random) -> Iterator[Check]:
    """A bit that is stuck in a lane of a page, in texts and in frames; and what only looks so."""
    words = b"".join(b"sSlice[%d].dFlow%d = %d\n" % (at, at % 9, rng.randrange(10**9)) for at in range(500))
    true, begin = with_value(made, words)
    frame = true.index(made.frames[0])
    zeros, page = (frame + 70, bytes(8)), -(-begin // PAGE) * PAGE
    assert page + 2 * PAGE < begin + len(words)
    for name, mask, is_set in (("set", 4, True), ("not set", 2, False), ("set, the highest", 0x80, True)):
        yield told(bench, f"a bit of a text is {name}", [changed(true, zeros), stuck(true, page, 17, mask, is_set)], true)
    both = [stuck(true, page, 17, 4, True), stuck(true, page + PAGE, 40, 1, False)]
    yield told(bench, "a bit of each copy", both, true)
    yield told(bench, "of two of three copies", [*both, changed(true, zeros)], true)
    printed = bench.mend(both)[2]
    yield f"it is told ({printed})", f"is stuck in the page at {page}: " in printed
    last = frame // PAGE * PAGE
    noisy = [stuck(true, last, 5, 16, True), stuck(true, last, 9, 8, False)]
    yield told(bench, "a bit of frames of each copy", noisy, true)
    lost = stuck(true, page, 17, 4, True)
    yield told(bench, "a bit of a text, and bytes lost before it", [lost[: page - 900] + lost[page - 388 :], changed(true, zeros)], true)
    more = put(changed(true, zeros), page - 900, rng.randbytes(2))
    yield told(bench, "a bit of a text, and bytes put into the other copy before it", [lost, more], true)
    inside = put(changed(true, zeros), page + 1200, rng.randbytes(2))
    yield told(bench, "a bit of a text, and bytes put into the other copy in that page", [lost, inside], true)
    printed = bench.mend([lost, inside])[2]
    yield f"it is told once ({printed})", printed.count("is stuck in the page at") == 1
    short = changed(true, zeros)
    short = short[: page + 1200] + short[page + 1209 :]
    yield told(bench, "a bit of a text, and bytes the other copy lost in that page", [lost, short], true)
    yield told(bench, "a bit of frames, and the other copy's end is lost", [noisy[0], true[:-8]], true)
    part = stuck(true, page, 17, 0x80, True, 1024)
    yield told(bench, "the highest bit in a part of a page of text: it is not that of the other copy", [true, part], true, False)
    filled, at = with_value(made, b"\xff" * 9000)
    first = -(-at // PAGE) * PAGE
    seven = changed(filled, (first + 100, b"\x7f" * 512))
    yield told(bench, "seven bits of ones", [filled, seven], filled, False)
    table, at = with_value(made, b"".join(struct.pack("<16I", 1, *range(n, n + 15)) for n in range(150)))
    some = changed(table, *((at + 64 * n, b"\0") for n in range(70, 76)))
    yield told(bench, "ones that are true in a table", [table, some], table, False)


def checks_of_hidden_bits(bench: Bench, made: File, rng: random.Random) -> Iterator[Check]:
    """A bit that is stuck in a lane of a page, of which the other copy lost some bytes: there it hides what the file has."""
    words = b"".join(b"sSlice[%d].dFlow%d = %d\n" % (at, at % 9, rng.randrange(10**9)) for at in range(500))
    true, begin = with_value(made, words)
    page, lost = -(-begin // PAGE) * PAGE, bytes(512)
    one, other = stuck(true, page, 17, 4, True), changed(true, (page + 1024, lost))
    yield told(bench, "a bit of a text that is lost in the other copy", [one, other], true, False, 1)
    printed = bench.mend([one, other])[2]
    at = page + 1024 + 17
    is_told = "bytes there are in no other copy" in printed and f"a bit of a copy is stuck at {at}, and no" in printed
    yield f"both are told ({printed})", is_told
    third = changed(true, (begin + 40, b"\0"))
    yield told(bench, "one that a third copy has", [one, other, third], true)
    big = File([frame(rng, 8, 120, 120, bench.folder)], 8, 120, 120)
    true, page = big.bytes, big.items[0] // PAGE * PAGE
    for lane in (3, 21, 48):
        at = next(at for at in range(page + 2048 + lane, len(true), LANE) if not true[at] & 4)
        copies = [stuck(true, page, lane, 4, True), changed(true, (at - 12, b"\x5a" * 24))]
        yield told(bench, f"a bit of a frame in byte {lane} that the other copy lost: of both ways one reads", copies, true)
    deep = File([frame(rng, 16, 60, 80, bench.folder)], 16, 60, 80)
    page = deep.items[0] // PAGE * PAGE + PAGE
    for lane in range(5, 64, 7):
        copies = [stuck(deep.bytes, page, lane, 2, True), changed(deep.bytes, (page + 1024, lost))]
        yield told(bench, f"the same of 16 bits, in byte {lane}: both can read", copies, deep.bytes, False)


def checks_of_runs(bench: Bench, made: File, rng: random.Random) -> Iterator[Check]:
    """Losses and bytes put in beside each other, or near the end, show where they are by the runs that all copies share."""
    true, begin = with_value(made, rng.randbytes(9000))
    at = begin + 1000
    cut, lost = true[:at] + true[at + 512 :], true[: at + 800] + true[at + 2260 :]
    last = made.items[-1] + 8 + len(made.frames[-1]) - 30
    more = (made.items[0] + 60, rng.randbytes(64)), (made.items[1] + 60, b"\x91"), (last, b"\x77")
    cases = {
        "a block lost in each of two copies, near each other": (true, [cut, lost]),
        "bytes put into each of three copies": (made.bytes, [put(made.bytes, *each) for each in more]),
    }
    form, few = b"sSlice[%d].sPosition.dTra = %d\nsSlice[%d].sNormal.dCor = %d\n", random.Random(5)
    lines = b"".join(form % (n // 7, few.randrange(10), n // 7, few.randrange(10)) for n in range(500))
    words, at = with_value(made, lines)
    one = put(words[: at + 4692] + words[at + 6152 :], at + 2000, few.randbytes(2))
    other = put(words[: at + 19985] + words[at + 21009 :], at + 2500, few.randbytes(5))
    cases["losses and bytes put in, of a text that repeats much"] = words, [one, other]
    for name, (wanted, copies) in cases.items():
        yield told(bench, name, copies, wanted)


def checks_of_other_sectors(bench: Bench, rng: random.Random) -> Iterator[Check]:
    """Bytes put into a frame of one of three copies, where a second one has another sector over the header of the frame's item."""
    big = File([frame(rng, 12, 64, 60, bench.folder)], 12, 64, 60)
    true, sector = big.bytes, big.items[0] // 512 * 512
    more, zeros = put(true, sector + 1500, rng.randbytes(8)), changed(true, (sector + 3000, bytes(8)))
    other = changed(true, (sector, true[sector + 2048 : sector + 2560]))
    for copies in ([more, other, zeros], [other, zeros, more]):
        yield told(bench, "bytes put in, and another sector over the header of the item", copies, true)
    ones = changed(true, (sector, b"\xff" * 512))
    for name, copy in (("bytes put in", more), ("a block twice", twice(true, sector + 1500, 1024))):
        yield told(bench, f"{name}, and the other copy lost the sector with the header of the item", [copy, ones], true)
    yield from checks_of_lost_headers(bench, rng)
    lies = changed(true, (big.items[0] + 4, b"\x10\x20\x00\x00"))
    yield told(bench, "bytes put in, and another length of the item", [more, lies, zeros], true, False, 1)


def checks_of_lost_headers(bench: Bench, rng: random.Random) -> Iterator[Check]:
    """Bytes of a text were lost in a copy that lost the header of its element too, and the length that the other copy has is damaged."""
    small = File([frame(rng, 8, 16, 12, bench.folder)], 8, 16, 12)
    true, begin = with_value(small, b"".join(b"sSlice[%d].dTra = %d\n" % (at, at * 7) for at in range(200)))
    length = struct.unpack_from("<I", true, begin - 4)[0]
    fewer = changed(true, (begin - 4, struct.pack("<I", length - 2)))
    lost = changed(true[: begin + 1300] + true[begin + 1302 :], ((begin - 4) // 512 * 512, b"\xff" * 512))
    yield told(bench, "two bytes of a text lost with its header, and the other copy's length fits", [lost, fewer], true, False, 1)


def checks_of_records(bench: Bench, made: File, rng: random.Random) -> Iterator[Check]:
    """Records of 64 bytes, of which one or two have one value of a bit: another copy is damaged there."""
    begin = with_value(made, b"")[1]
    page = -(-begin // PAGE) * PAGE
    for name, count, ways in (("a page", 1, (32,)), ("a page, in two bytes", 1, (32, 44)), ("three pages", 3, (32,))):
        rows = b"".join(record(rng, ways) for _ in range(count * PAGE // LANE))
        true = with_value(made, rng.randbytes(page - begin) + rows + rng.randbytes(PAGE))[0]
        first = page + count // 2 * PAGE
        for size in (320, 2048):
            part = stuck(true, first + 1024, ways[0], 16, False, size)
            yield told(bench, f"a bit of records of {name}, and {size} bytes of the other copy", [true, part], true, False)
        places = [first + ways[0] + LANE * row for row in (3, 9, 20, 33, 50)]
        some = changed(true, *((at, bytes([true[at] ^ 16])) for at in places))
        yield told(bench, f"a bit of records of {name}, and some of the other copy", [true, some], true, False)
        if count > 1 or len(ways) > 1:
            rows = b"".join(record(rng, ways, 0x7F, 0x80) for _ in range(count * PAGE // LANE))
            true = with_value(made, rng.randbytes(page - begin) + rows + rng.randbytes(PAGE))[0]
            other = stuck(true, first, ways[0], 0x80, False)
            yield told(bench, f"the highest bit of records of {name}, stuck in the other copy", [true, other], true, False)
    words = b"".join(b"sSlice[%d].dFlow%d = %d\n" % (at, at % 9, rng.randrange(10**9)) for at in range(500))
    true = with_value(made, words)[0]
    for mask in (1, 2, 4, 32):
        both = [stuck(true, page, 17, mask, is_set) for is_set in (False, True)]
        yield told(bench, f"a bit of both copies, of value {mask}, with each value", both, true, False, 1)


def record(rng: random.Random, ways: Sequence[int], mask: int = 0xFF, first: int = 16) -> bytes:
    """64 bytes of some bits, of which the first of these has one bit and the others another one."""
    bits = {at: 16 if number else first for number, at in enumerate(ways)}
    return bytes(byte & mask | bits.get(at, 0) for at, byte in enumerate(rng.randbytes(LANE)))


PUT_IN: list[Callable[..., Iterator[Check]]] = [checks_of_bytes_put_in, checks_of_zeros_behind, checks_of_put_in_beside_losses]
PUT_IN += [checks_of_least_damage, checks_of_stuck_bits, checks_of_hidden_bits, checks_of_runs, checks_of_records, checks_of_other_sectors]
