"""Checks that nothing false comes with status 0, and that no copy blocks the others: chimeras, the finished file, most copies.

Each case says what the status has to be and what OUT; "" stands for no OUT. `words` is what has to be printed.
"""
from __future__ import annotations

import random
import struct
from collections.abc import Iterator, Sequence

from dicom_files import CLASS, UID, Bench, File, changed, element, frame, with_value
from dicom_rules import put_before
from jls_tools.dicom.write.finished import faults_of
from jls_tools.programs import Programs

Check = tuple[str, bool]
NEIGHBOUR = UID[:-1] + "8"
END = b"\xfe\xff\xdd\xe0\0\0\0\0"
EXPLICIT = "1.2.840.10008.1.2.1"


def case(
    bench: Bench, name: str, copies: Sequence[bytes], status: int, out: bytes, words: str = "", options: Sequence[str] = ()
) -> Check:
    """(name with what came of it, whether that is as it has to be)."""
    got, data, printed, faults, _ = bench.mend(copies, *options)
    said = printed + faults
    return f"{name}: {status} ({got}, {said})", (got, data if data is not None else b"") == (status, out) and words in said


def damaged(made: File, number: int = 0) -> bytes:
    """A file with eight bytes of a frame zeroed."""
    return changed(made.bytes, (made.items[number] + 70, bytes(8)))


def without(data: bytes, tag: int, vr: str, value: bytes | str | int) -> bytes:
    """A file without an element, whose group length fits."""
    gone = element(tag, vr, value)
    at = data.index(gone)
    rest = data[:at] + data[at + len(gone) :]
    if tag >> 16 != 2:
        return rest
    at = rest.index(b"UL\4\0") + 4
    (size,) = struct.unpack_from("<I", rest, at)
    return changed(rest, (at, struct.pack("<I", size - len(gone))))


# Two instances -------------------------------------------------------------------------------------


def slice_of(made: File, uid: str, letter: str) -> bytes:
    """A file with many elements before its frames: another slice of a series has them at the same places."""
    values = [element(0x190010, "LO", "MINE")]
    values += [element(0x191000 + at, "LO", f"value {at * 37 % 100:02} of {letter}") for at in range(800)]
    data = put_before(made.bytes, 0x280002, *values)
    return data.replace(UID.encode(), uid.encode()).replace(b"Doe^Jane", b"Roe^Jane" if letter == "b" else b"Doe^Jane")


def checks_of_chimeras(bench: Bench, made: File) -> Iterator[Check]:
    """Another slice's first 4,096 bytes, whole and consistent, on the true frames: of two copies either can be the file."""
    true, other = slice_of(made, UID, "a"), slice_of(made, NEIGHBOUR, "b")
    chimera, noise = other[:4096] + true[4096:], random.Random(3).randbytes(40)
    item_at = true.index(made.frames[1]) - 8
    strange, second = slice_of(made, "1.2.3.9.9", "c"), made.bytes.rindex(UID.encode(), 0, made.name_at) + len(UID) - 4
    twice = made.bytes.replace(UID.encode(), NEIGHBOUR.encode())
    for name, copies in {
        "a chimera": [true, chimera],
        "a chimera, and zeros behind its end in the other copy": [changed(true, (4096, bytes(4096))), chimera],
        "a chimera, and noise behind its end": [changed(true, (4096, noise)), chimera],
        "a chimera, and noise before its end": [changed(true, (3000, noise)), chimera],
        "a chimera without a header of an item, and noise": [changed(true, (3000, noise)), changed(chimera, (item_at, bytes(8)))],
        "a chimera, and a sector of a third file": [changed(true, (1024, strange[1024:1536])), chimera],
        "a chimera, and noise that goes on far behind it": [changed(true, (4096, random.Random(3).randbytes(8192))), chimera],
        "another UID twice, and noise over one": [changed(made.bytes, (second, b"\x81\x02\x93 ")), twice],
    }.items():
        for order in (copies, copies[::-1]):
            got, out, printed, faults, _ = bench.mend(order)
            yield f"{name}: undecided ({got}, {printed[-300:]}, {faults})", got in (1, 3) and out is None
    third = [changed(true, (5000, noise)), true, chimera]
    yield case(bench, "a chimera, and a third copy", third, 1, b"", "each of two instances can be the file")
    for number in (0, 1):
        yield case(bench, "the same, and --header", third, 0, true, "", ("--header", f"COPY{number}"))
    yield case(bench, "a chimera, and three others", [*third, true], 0, true)
    unlike = slice_of(made, "1.2.9.4.5.6.7", "b")[:4096] + true[4096:]
    yield case(bench, "a chimera of a file of another series, and a third copy", [*third[:2], unlike], 0, true)
    yield from of_two_beginnings(bench, made)


def of_two_beginnings(bench: Bench, made: File) -> Iterator[Check]:
    """Foreign bytes over the beginning of each copy: those of one break off, and those of the other lead on to its end."""
    values = [element(0x190010, "LO", "MINE"), *(element(0x191000 + at, "LO", f"value {at * 37 % 100:02} of it") for at in range(40))]
    true = put_before(made.bytes, 0x280002, *values)
    neighbour = true.replace(UID.encode(), NEIGHBOUR.encode()).replace(b"20200131", b"20200201")[:512] + true[512:]
    other = element(0x20002, "UI", CLASS) + element(0x20003, "UI", "1.2.3.9.9") + element(0x20010, "UI", "1.2.840.10008.1.2.1")
    other = element(0x20000, "UL", struct.pack("<I", len(other))) + other + element(0x80016, "UI", CLASS)
    other += element(0x80018, "UI", "1.2.3.9.9") + element(0x91001, "OB", random.Random(5).randbytes(900))
    broken = (bytes(128) + b"DICM" + other)[:512] + true[512:]
    for copies in ([broken, damaged_at(neighbour, made)], [damaged_at(neighbour, made), broken]):
        yield case(bench, "a foreign beginning that breaks off, and another one", copies, 1, b"", "each of two instances can be the file")


def damaged_at(data: bytes, made: File) -> bytes:
    """A file that has eight bytes of its first frame zeroed."""
    return changed(data, (data.index(made.frames[0]) + 70, bytes(8)))


# The finished file ---------------------------------------------------------------------------------


def checks_of_finished(bench: Bench, made: File, single: File) -> Iterator[Check]:
    """The finished file is read anew. What every copy has is its writer's, but for UIDs that are missing, cuts, and false ends of items."""
    true = made.bytes
    for tag, uid in ((0x20002, CLASS), (0x20003, UID), (0x80016, CLASS), (0x80018, UID)):
        data = without(true, tag, "UI", uid)
        yield case(bench, f"no UID of {tag:08x}", [data, changed(data, (20, b"x"))], 1, b"", "is missing")
    for tag, number in ((0x280102, 11), (0x280103, 1)):
        data = without(true, tag, "US", number)
        both = [data, changed(data, (data.index(made.frames[0]) + 70, bytes(8)))]
        yield case(bench, f"no element {tag:08x} in each copy", both, 0, data, "is missing: every copy has it so")
    flipped = changed(true, (true.index(b"\x28\0\x03\x01US") + 3, b"\x11"))
    yield case(bench, "a bit of a tag: no Pixel Representation", [flipped, true[: made.name_at + 4]], 1, b"", "is missing")
    tail = File(made.frames[:-1] + [made.frames[-1] + bytes(146)], 12, 24, 20)
    yield case(bench, "a frame's item with 146 bytes behind it", [tail.bytes, damaged(tail)], 1, b"", "does not end with it")
    odd = changed(true, (140, struct.pack("<I", struct.unpack("<I", true[140:144])[0] + 2)))
    both = [odd, changed(odd, (made.items[0] + 70, bytes(8)))]
    yield case(bench, "a group length that is wrong in each copy", both, 0, odd, "every copy has it")
    other = changed(true, (true.rindex(UID.encode(), 0, made.name_at) + len(UID) - 1, b"9"))
    both = [other, changed(other, (made.items[0] + 70, bytes(8)))]
    words = "the SOP Instance UIDs are not equal"
    yield case(bench, "two SOP Instance UIDs that look like one in each copy", both, 1, b"", words)
    for named in (["--same"], ["--header", "COPY0"]):
        yield case(bench, f"the same, and {named[0]}", both, 0, other, f"{words}: every copy", named)
    strange = changed(other, (true.rindex(UID.encode(), 0, made.name_at), b"9.8.7"))
    both = [strange, changed(strange, (made.items[0] + 70, bytes(8)))]
    yield case(bench, "two SOP Instance UIDs that don't in each copy", both, 0, strange, f"{words}: every copy")
    table = changed(true, (made.table_at + 4, struct.pack("<I", made.items[1] - made.items[0] + 12)))
    both = [table, changed(table, (made.items[0] + 70, bytes(8)))]
    yield case(bench, "an offset table that leads elsewhere in each copy", both, 0, table, "to the frames: every copy has it")
    name = element(0x20012, "UI", "1.2.3") + element(0x20013, "SH", "MINE")
    meta = true.index(element(0x20010, "UI", "1.2.840.10008.1.2.4.80"))
    until = meta + len(element(0x20010, "UI", "1.2.840.10008.1.2.4.80"))
    whole = true[:until] + name + true[until:]
    whole = changed(whole, (140, struct.pack("<I", struct.unpack("<I", true[140:144])[0] + len(name))))
    at = whole.index(b"1.2.3\0", until)
    letters = changed(whole, (at, b"Anon!!"))
    both = [letters, whole[: at - 8] + whole[at + 6 :]]
    yield case(bench, "letters in a UID of one copy alone", both, 1, b"", "has what its VR forbids")
    first, second = element(0x80020, "DA", "20200131"), element(0x90010, "LO", "PRIVATE")
    turned = true.replace(first + second, second + first)
    both = [turned, changed(turned, (made.items[0] + 70, bytes(8)))]
    yield case(bench, "tags that don't ascend in each copy", both, 0, turned, "every copy has it")
    bare = true[:132] + true[144:]  # without the group length, which is the first element
    both = [bare, changed(bare, (made.items[0] - 12 + 70, bytes(8)))]
    yield case(bench, "no group length in each copy", both, 0, bare, "has no group length: every copy has it so")
    both = [changed(true, (made.table_at + 4, byte)) for byte in (b"\x11", b"\x77")]
    yield case(bench, "a byte of the offset table that no copy has", both, 1, b"")
    yield from of_frame_counts(bench, single)


def of_frame_counts(bench: Bench, single: File) -> Iterator[Check]:
    """A file of one frame can be without Number of Frames, and can't have another one."""
    true, number = single.bytes, element(0x280008, "IS", "1")
    for name, data, status in (("no", true.replace(number, b""), 0), ("another", true.replace(number, element(0x280008, "IS", "2")), 1)):
        at = data.index(single.frames[0]) + 70
        both = [data, changed(data, (at, bytes(8)))]
        yield case(bench, f"{name} Number of Frames in each copy", both, status, b"" if status else data)


def checks_of_cuts(bench: Bench, made: File) -> Iterator[Check]:
    """A file that ends before its last element does has no status 0, though each frame is whole."""
    end = made.bytes.index(END, made.items[-1])
    places = (("the end of Pixel Data", end), ("half of its delimiter", end + 4), ("a part of the last element", len(made.bytes) - 20))
    for name, until in places:
        data = made.bytes[:until]
        yield case(bench, f"cut in each copy: {name}", [data, damaged(made)[:until]], 1, b"")
    yield case(bench, "cut in one copy", [made.bytes[: end + 4], damaged(made)], 0, made.bytes)


# Most copies ---------------------------------------------------------------------------------------


def decoding_flips(bench: Bench, made: File, most: int) -> list[bytes]:
    """Files with one flipped bit in the first frame, which decodes all the same: of two copies it is disputed."""
    stream, name, found = made.frames[0], f"{bench.folder}/flipped.jls", []
    for at in range(len(stream) - 6, 60, -7):
        flipped = changed(stream, (at, bytes([stream[at] ^ 4])))
        with open(name, "wb") as file:
            file.write(flipped)
        if Programs().check(name).status == 0:
            found.append(changed(made.bytes, (made.items[0] + 8, flipped)))
        if len(found) == most:
            break
    return found


def checks_of_most(bench: Bench, made: File) -> Iterator[Check]:
    """Two equal copies against one decide. A copy alone does not outvote two by what VRs forbid; an empty value may be the true one."""
    true, first = made.bytes, made.items[0]
    flips = decoding_flips(bench, made, 3)
    for flipped in flips:
        yield case(bench, "two equal copies, and one with a flipped bit that decodes", [true, flipped, true], 0, true)
    yield case(bench, "two copies of one damaged copy, and one with damage of its own", [flips[0], flips[0], flips[2]], 1, b"", "disputed")
    named = changed(true, (made.name_at, b"E"))
    apart = [changed(true, (made.items[1] + 70, bytes(8))), changed(true, (made.items[2] + 70, bytes(8)))]
    twice = changed(true, *((first + 60 + at, bytes([true[first + 60 + at] ^ 4])) for at in (0, 9)))
    yield case(bench, "two copies with damage of their own, and one with two flipped bits", [apart[0], twice, apart[1]], 0, true)
    second, third = made.items[1] + 60, made.items[2] + 60
    two = bytes(one ^ other ^ byte for one, other, byte in zip(flips[0], flips[2], true))
    lost, more = true[:second] + true[second + 16 :], true[:third] + bytes(range(1, 6)) + true[third:]
    for name, copies in (("lost bytes", [true, lost]), ("got bytes", [more, true]), ("lost some, and one that got some", [lost, more])):
        yield case(bench, f"one that {name} beside one with two flipped bits", [copies[0], two, copies[1]], 0, true)
    cut = [flips[0], flips[0][:-20], flips[2]]
    yield case(bench, "two copies of one damaged copy, of which one is cut", cut, 1, b"", "disputed")
    valued, begin = with_value(made, random.Random(7).randbytes(1200))
    source = changed(valued, (valued.index(b"UI", 180), b"TI"), (begin + 900, bytes([valued[begin + 900] ^ 4])))
    one_source = [source, changed(source, (begin + 1700, bytes(8))), changed(valued, (begin + 2100, bytes(8)))]
    for copies in (one_source, one_source[::-1]):
        yield case(bench, "two copies that have the same wrong VR, and a flipped bit of a value", copies, 1, b"", "undecided")
    both = [changed(flips[0], (true.index(b"UI", 180), b"TI")), flips[2]]
    both += [changed(both[0], (made.items[2] + 70, bytes(8)))]
    yield case(bench, "two copies that have the same wrong VR, and a flipped bit that decodes", both, 1, b"", "disputed")
    yield case(bench, "a letter of a name in one of three", [true, named, true], 0, true, "most copies have it")
    date, inner = element(0x80020, "DA", "20200131"), element(0x81040, "LO", "WARD") + element(0x81090, "LO", "ACME")
    pairs = (("", inner), ("A" * len(inner), b""))
    empty, longer = (true.replace(date, date + element(0x81030, "LO", text) + rest) for text, rest in pairs)
    for name, short, long in (("an empty value", empty, longer), ("a longer value", longer, empty)):
        other = changed(short, (short.index(made.frames[0]) + 70, bytes(8)))
        for order in ([short, long, other], [long, short, other], [other, short, long]):
            yield case(bench, f"{name} in two of three", order, 0, short)
    yield case(bench, "an empty value and a longer one", [empty, longer], 1, b"", "undecided")
    yield case(bench, "a longer value and an empty one", [longer, empty], 1, b"", "undecided")
    longer = empty.replace(element(0x81030, "LO", ""), element(0x81030, "LO", "STUDY7"))
    for name, short, long in (("none", empty, longer), ("one", longer, empty)):
        other = changed(short, (short.index(made.frames[0]) + 70, bytes(8)))
        for order in ([short, long, other], [long, short, other]):
            yield case(bench, f"{name} of a value that makes a file longer, in two of three", order, 0, short)
        yield case(bench, f"{name} of a value that makes a file longer, in one of two", [short, long], 1, b"", "--header chooses one")
    lost = changed(true, (true.index(b"ORIGINAL"), bytes(12)))
    both = [lost, changed(lost, (made.items[1] + 70, bytes(8)))]
    yield case(bench, "zeros in a text of two of three", [*both, changed(true, (first + 70, bytes(8)))], 0, true)
    prefix = changed(true, (128, bytes(4)))
    yield case(bench, "four zeros in the place of DICM", [prefix, damaged(made)], 0, true, "each DICOM file has it")
    yield case(bench, "the same in two of three", [prefix, changed(prefix, (first + 70, bytes(8))), true], 0, true)


def checks_of_most_frames(bench: Bench, made: File) -> Iterator[Check]:
    """What copies have in frames doesn't count in the header, and frames that are equal are at their places."""
    true, third = made.bytes, made.items[2]
    begin = third - 60
    noise = changed(true, (begin, random.Random(11).randbytes(120)))
    inner = changed(true, (begin + 20, bytes(9)))
    for copies in ([noise, inner, true], [inner, noise, changed(true, (third + 30, b"\5\6\7"))]):
        yield case(bench, "noise over an item's header, and damage of a frame beside it in another copy", copies, 0, true)
    both = [changed(true, (begin + 10, bytes(9))), inner, changed(true, (made.name_at, bytes(60)))]
    yield case(bench, "damage of a frame of two copies, and zeros in the header of a third", both, 0, true)
    # Two of four copies lost the tag of an item, and the others differ in the frame before it, so that none are most
    masks = ((0x55, third + 4), (0x6A, third + 4), (0x33, third - 1))
    odd = [changed(true, (third - 12, bytes(byte ^ mask for byte in true[third - 12 : end]))) for mask, end in masks]
    for order in ([*odd, true], [true, *odd], [*odd[::-1], true]):
        yield case(bench, "an item's tag is lost in two copies, and bytes before it in a third", order, 0, true, "differs in frames alone")
    for order in ([*odd[1:], true], [true, *odd[:0:-1]]):
        yield case(bench, "the same of three copies: most have the tag", order, 0, true, "most copies have it")
    even = File([made.frames[0]] * 8, 12, 24, 20)
    frames = [even.bytes, changed(even.bytes, (even.items[6] + 70, bytes(8))), changed(even.bytes, (even.items[3] - 30, bytes(120)))]
    yield case(bench, "equal frames, and zeros over the header of an item of one of three", frames, 0, even.bytes)


# No copy has the true bytes --------------------------------------------------------------------------


def checks_of_nothing_true(bench: Bench, made: File, neighbour: File) -> Iterator[Check]:
    """What one copy alone can have, and still is damaged: a text in a number, one value over a text, a neighbour beside a lost copy."""
    true = put_before(made.bytes, 0x280002, element(0x20000D, "UI", "1.2.3.4.5.6.7.8.9.10"))
    at = true.index(b"1.2.3.4.5.6.7.8.9")
    for name, wrong in (("a text in a UID", b"BAD ."), ("letters in a UID", b"abcd")):
        both = [changed(true, (at + 6, wrong)), changed(true, (at - 8, bytes(20)))]
        yield case(bench, f"{name} of one copy, and zeros over it in the other", both, 1, b"", "has what its VR forbids")
    begin = made.bytes.index(b"ORIGINAL")
    both = [changed(made.bytes, (begin, b"H" * 12)), changed(made.bytes, (begin, bytes(range(1, 13))))]
    yield case(bench, "one value over a code of one copy, and noise over it in the other", both, 1, b"", "one value many times")
    uids = [place for place in range(len(made.bytes)) if made.bytes.startswith(UID.encode(), place)]
    lost = changed(made.bytes, *((place, b"zzz") for place in uids), *((item + 8, bytes(400)) for item in made.items))
    for order, number in (([lost, neighbour.bytes], 1), ([neighbour.bytes, lost], 0)):
        yield case(bench, "a lost copy, and a neighbour", order, 1, b"", "one copy alone is left")
        yield case(bench, "the same, and --header", order, 0, neighbour.bytes, "left out", ["--header", f"COPY{number}"])


# Copies of which nothing says whose they are -----------------------------------------------------------


def checks_of_strangers(bench: Bench, made: File) -> Iterator[Check]:
    """A longer file of another picture, whose UIDs are lost, is left out beside copies of the instance. Else it is used."""
    true, rng = made.bytes, random.Random(8)
    other = changed(true, (made.items[1] + 70, bytes(8)))
    for width, height in ((24, 20), (40, 30)):
        frames = [frame(rng, 12, width, height, bench.folder) for _ in range(6)]
        strange = changed(File(frames, 12, width, height, uid=NEIGHBOUR).bytes, (0, bytes(512)))
        for copies in ([damaged(made), strange, other], [strange, other, damaged(made)]):
            yield case(bench, f"another picture of {width} columns, its first sector gone", copies, 0, true, "no frame of it fits")
    lost = changed(true, (0, bytes(512)))
    yield case(bench, "a copy whose first sector is gone", [lost, damaged(made)], 0, true)
    moved = true[512:]
    yield case(bench, "a copy whose first sector is cut away", [moved, damaged(made)], 0, true)
    last = changed(lost, (made.items[0], bytes(made.items[-1] - made.items[0])))
    both = [damaged(made, 3), damaged(made, 1)[: made.items[-1] + 70], last]
    yield case(bench, "a copy of which the last frame alone is there", both, 0, true)
    halves = [changed(true, (0, bytes(1024))), changed(true, (1024, bytes(len(true) - 1024)))]
    for copies in (halves, halves[::-1]):
        yield case(bench, "a copy without its beginning, and one without the rest", copies, 0, true)
    for copies in ([halves[0], true[:1024]], [true[:1024], halves[0]]):
        yield case(bench, "a copy without its beginning, and one that is cut there", copies, 0, true)
    yield case(bench, "the same, and another one without the rest", [*halves, changed(halves[1], (700, bytes(12)))], 0, true)


# Other transfer syntaxes ---------------------------------------------------------------------------


ITEMS = b"\xe0\x7f\x10\x00OB\0\0\xff\xff\xff\xff"


def plain_of(made: File, syntax: str) -> bytes:
    """The file with Pixel Data that is not compressed."""
    at = made.bytes.index(ITEMS)
    samples = random.Random(9).randbytes(2 * 24 * 20 * len(made.frames))
    head = made.bytes[:at].replace(element(0x20010, "UI", "1.2.840.10008.1.2.4.80"), element(0x20010, "UI", syntax))
    size = struct.unpack("<I", head[140:144])[0] + len(syntax) + len(syntax) % 2 - 22
    return changed(head, (140, struct.pack("<I", size))) + b"\xe0\x7f\x10\x00OW\0\0" + struct.pack("<I", len(samples)) + samples


def checks_of_syntaxes(bench: Bench, made: File) -> Iterator[Check]:
    """A copy in another transfer syntax is left out by name, and the others are mended. A flipped bit of the UID is damage."""
    true, plain = made.bytes, plain_of(made, EXPLICIT)
    other = changed(true, (made.items[1] + 70, bytes(8)))
    for order in ([plain, damaged(made), other], [damaged(made), plain, other], [damaged(made), other, plain]):
        yield case(bench, "a copy that is not compressed", order, 0, true, "it has transfer syntax 1.2.840.10008.1.2.1 (Explicit VR Little")
    wavelet = File([b"\xff\x4f\xff\x51" + bytes(60)] * 4, 12, 24, 20, syntax="1.2.840.10008.1.2.4.90").bytes
    yield case(bench, "a copy in JPEG 2000", [damaged(made), wavelet, other], 0, true, "JPEG 2000 lossless")
    yield case(bench, "two copies that are not compressed", [plain, plain], 3, b"", "no JPEG-LS lossless")
    at = true.index(b"1.2.840.10008.1.2.4.80") + 20
    yield case(bench, "a bit that says JPEG 2000", [changed(true, (at, b"9")), damaged(made)], 0, true, "the frames are JPEG-LS")


def checks_of_lost_syntaxes(bench: Bench, made: File) -> Iterator[Check]:
    """A copy whose transfer syntax does not read is left out where its Pixel Data says that it is none of JPEG-LS."""
    true, plain = made.bytes, plain_of(made, EXPLICIT)
    other = changed(true, (made.items[1] + 70, bytes(8)))
    at = plain.index(ITEMS[:8])
    size = struct.unpack("<I", plain[at + 8 : at + 12])[0]
    implicit = plain[:at] + ITEMS[:4] + struct.pack("<I", size) + plain[at + 12 :]
    big = plain[:at] + b"\x7f\xe0\0\x10OW\0\0" + struct.pack(">I", size) + plain[at + 12 :]
    padded = plain + element(0xFFFCFFFC, "OB", bytes(30))
    rle = struct.pack("<16I", 2, 64, 90, *[0] * 13) + bytes(60)
    jpeg = b"\xff\xd8\xff\xc3\0\x0b\x0c" + struct.pack(">HHB", 20, 24, 1) + b"\1\x11\0\xff\xda\0\x08\1\1\0\1\0\0" + bytes(60)
    boxes = {"JPEG": jpeg, "JPEG 2000": b"\xff\x4f\xff\x51" + bytes(60), "RLE": rle}
    kinds = [("not compressed", data) for data in (plain, implicit, big, padded)]
    kinds += [(name, File([stream] * 4, 12, 24, 20).bytes) for name, stream in boxes.items()]
    for name, data in kinds:
        lost = changed(data, (128, bytes(120)))
        for copies in ([lost, damaged(made), other], [damaged(made), other, lost]):
            yield case(bench, f"zeros over the meta information of a copy: {name}", copies, 0, true, f"its Pixel Data is {name}")
    begin, end = true.index(made.frames[0]), true.index(END, made.items[-1])
    both = [changed(true, (begin, bytes(end - begin))), changed(true, (150, bytes(60)))]
    yield case(bench, "zeros over all frames of a copy: its header counts", both, 0, true)


# Leads ---------------------------------------------------------------------------------------------


def checks_of_leads(bench: Bench, made: File, neighbour: File) -> Iterator[Check]:
    """Bytes before the preamble are cut where another copy begins without them, wherever else the two are damaged."""
    true, noise = made.bytes, random.Random(6).randbytes(512)
    for name, lead in {
        "128 zeros": bytes(128),
        "four zeros": bytes(4),
        "noise": noise,
        "the beginning of another file": neighbour.bytes[:256],
    }.items():
        for copies in ([lead + damaged(made), changed(true, (made.items[1] + 70, bytes(8)))], [true, lead + damaged(made)]):
            yield case(bench, f"before the preamble: {name}", copies, 0, true, f"{len(lead)} bytes before the preamble are no part")
    for at in (140, 200):
        copies = [noise + changed(true, (at, bytes(40))), damaged(made)]
        yield case(bench, f"noise before the preamble, and zeros at {at}", copies, 0, true, "they were cut from")
    copies = [true, damaged(made), changed(true, (0, noise[:300]))]
    yield case(bench, "noise over a beginning: nothing is cut", copies, 0, true)
    head, rest = slice_of(neighbour, NEIGHBOUR, "b"), slice_of(made, UID, "a")
    both = [head[:4096] + rest[4096:], rest[:4096] + random.Random(7).randbytes(700) + head[: len(rest) - 4796]]
    for copies in (both, both[::-1]):
        got, out, printed, faults, _ = bench.mend(copies)
        is_cut = "no part of the file" in printed + faults
        yield f"another file's beginning twice: nothing is cut ({got}, {printed[-300:]}, {faults})", (out, is_cut) == (None, False)
    listed = f"{bench.folder}/lead.bad"
    with open(listed, "w") as file:
        file.write(f"{512 + made.name_at} 1\n")
    copies = [noise + changed(true, (made.name_at, b"E")), damaged(made)]
    yield case(bench, "a list of bad places of a copy with a lead", copies, 0, true, "they were cut from", ["--bad", f"1:{listed}"])


def checks_of_read_anew(made: File) -> Iterator[Check]:
    """What one walk over a file that is written anew says of it, where no mending would make such a file."""
    true, count = made.bytes, len(made.frames)
    yield "nothing is wrong in a whole file", faults_of(true, count) == []
    begin = true.index(element(0x280010, "US", 8)) - 8  # the item in the icon's sequence
    (size,) = struct.unpack_from("<I", true, begin + 4)
    for name, data, words in (
        ("bytes behind the end", true + b"\0", "1 bytes stand after"),
        ("an element that is cut", true[:-1], "is cut"),
        ("a header that is cut", true[:-37], "5 bytes stand after"),
        ("an item that goes on behind its sequence", changed(true, (begin + 4, struct.pack("<I", size + 2))), "is cut"),
        ("an item that ends within an element", changed(true, (begin + 4, struct.pack("<I", size - 2))), "is cut"),
        ("four zeros in the place of DICM", changed(true, (128, bytes(4))), "DICM does not stand"),
        ("items that lead nowhere", changed(true, (made.items[1], bytes(8))), "no item begins"),
        ("another number of frames", true, f"are of {count} frames"),
    ):
        found = faults_of(data, count + (data == true))
        told = any(words in fault.text and not fault.can_be_writers for fault in found)
        yield f"read anew: {name} ({[fault.text for fault in found]})", told
    table = changed(true, (made.table_at + 4, struct.pack("<I", 12)))
    ranges = [each for fault in faults_of(table, count) if "offset table" in fault.text for each in fault.ranges]
    yield f"an offset table leads elsewhere, as headers of items say ({ranges})", (made.items[1], made.items[1] + 8) in ranges


TRUTH = [checks_of_chimeras, checks_of_finished, checks_of_cuts, checks_of_most, checks_of_syntaxes]
TRUTH += [checks_of_read_anew, checks_of_nothing_true, checks_of_lost_syntaxes, checks_of_leads, checks_of_strangers]
TRUTH += [checks_of_most_frames]
