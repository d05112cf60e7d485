"""Checks of copies that have parts of another file of the series, or their own at wrong places: what one says, another can deny."""
from __future__ import annotations

import random
from collections.abc import Iterator, Sequence

from dicom_files import UID, Bench, File, changed, element, frame, with_value
from dicom_pairs import told
from dicom_rules import put_before

Check = tuple[str, bool]
NEIGHBOUR = UID[:-1] + "8"
SECTOR = 512


def in_order(made: File, order: Sequence[int]) -> bytes:
    """A file with its items in another order."""
    true, end = made.bytes, made.bytes.index(b"\xfe\xff\xdd\xe0", made.items[-1])
    parts = [true[begin:until] for begin, until in zip(made.items, [*made.items[1:], end])]
    return true[: made.items[0]] + b"".join(parts[number] for number in order) + true[end:]


def checks_of_exchanged_frames(bench: Bench, rng: random.Random, work: str) -> Iterator[Check]:
    """Two frames of one copy have changed their places: what each copy has there is whole, so none is damaged."""
    made = File([frame(rng, 12, 24, 20, work) for _ in range(14)], 12, 24, 20)
    hurt = changed(made.bytes, (made.items[0] + 70, bytes(8)))
    empty = len(made.frames) * 4
    for one in range(1, 5):
        for other in (10, 12, 13):
            order = list(range(14))
            order[one], order[other] = other, one
            moved = in_order(made, order)
            yield told(bench, f"frames {one} and {other} exchanged", [moved, hurt], made.bytes, False, 1)
            texts = [data[: made.table_at - 4] + bytes(4) + data[made.table_at + empty :] for data in (hurt, moved)]
            yield told(bench, f"frames {one} and {other} exchanged, and no table", texts, texts[0], False, 1)


def across(made: File) -> bytes:
    """A file whose second SOP Instance UID begins in one sector and ends in the next."""
    begin = made.bytes.rindex(UID.encode(), 0, made.name_at)
    words = ("\\ABCDEFGHI" * SECTOR)[: SECTOR - len(UID) // 2 - begin & ~1]
    return made.bytes.replace(element(0x80008, "CS", "ORIGINAL\\PRIMARY"), element(0x80008, "CS", "ORIGINAL\\PRIMARY" + words))


def checks_of_series_uids(bench: Bench, made: File, rng: random.Random) -> Iterator[Check]:
    """A copy that lost the first sector has the end of the true UID in the next one; the other copy has another file's UID twice."""
    true = across(made)
    other = true.replace(UID.encode(), NEIGHBOUR.encode())
    for name, sector in (("zeros", bytes(SECTOR)), ("noise", rng.randbytes(SECTOR)), ("a later sector", true[2 * SECTOR : 3 * SECTOR])):
        lost = changed(true, (0, sector))
        for copies in ([lost, other], [other, lost]):
            yield told(bench, f"another file's UIDs, and {name} over the first sector", copies, true, False, 1)
        hurt = changed(true, (true.index(made.frames[0]) + 70, bytes(8)))
        yield told(bench, f"{name} over the first sector alone", [lost, hurt], true)


def numbered(made: File, digit: int) -> bytes:
    """A file with many elements; another digit makes another one of its series."""
    values = [element(0x190010, "LO", "MINE")]
    values += [element(0x191000 + at, "LO", f"value {at * 37 % 100:02} of {digit if at % 9 == 0 else 0}") for at in range(200)]
    return put_before(made.bytes, 0x280002, *values)


def damaged_at(data: bytes, made: File) -> bytes:
    """A file that has eight bytes of its first frame zeroed."""
    return changed(data, (data.index(made.frames[0]) + 70, bytes(8)))


def checks_of_exchanged_sectors(bench: Bench, made: File) -> Iterator[Check]:
    """Two sectors of one copy have changed their places, and the other copy has one of them of another file: either can be true."""
    true, other = numbered(made, 1), numbered(made, 2)
    one, two = 4 * SECTOR, 7 * SECTOR
    first, second = true[one : one + SECTOR], true[two : two + SECTOR]
    moved = changed(true, (one, second), (two, first))
    for copies in ([moved, changed(true, (one, other[one : one + SECTOR]))], [changed(true, (two, other[two : two + SECTOR])), moved]):
        yield told(bench, "exchanged sectors, and a sector of the series", copies, true, False, 1)
    hurt = changed(true, (true.index(made.frames[0]) + 70, bytes(8)))
    for copies in ([moved, hurt], [hurt, moved]):
        yield told(bench, "exchanged sectors alone", copies, true)
    empty, begin = with_value(made, (bytes(SECTOR - 1) + b"x") * 8)
    filled = changed(empty, (160, bytes(SECTOR)))
    beside = changed(empty, (empty.index(made.frames[0]) + 70, bytes(8)))
    yield told(bench, "zeros over a sector, and true ones elsewhere", [filled, beside], empty)
    text = bytes(range(32, 127)) * 5
    blocks, begin = with_value(made, b"".join((b"block %03d of %b" % (at, text)).ljust(SECTOR) for at in range(24)))
    at = -(-begin // SECTOR) * SECTOR + 2 * SECTOR
    misplaced = changed(blocks, (at, blocks[at + 4 * SECTOR : at + 5 * SECTOR]))
    beside = changed(blocks, (blocks.index(made.frames[0]) + 70, bytes(8)))
    yield told(bench, "a sector of another place, of many that are nearly alike", [misplaced, beside], blocks)
    several = put_before(blocks, 0x280002, *(element(0x191000 + at, "LO", f"value {at * 37 % 100:02}") for at in range(200)))
    place = -(-several.index(b"value 37") // SECTOR) * SECTOR + SECTOR
    strange = several[at : at + SECTOR].replace(b"block 0", b"block 9")
    yield told(bench, "a sector that is like many", [changed(several, (place, strange)), damaged_at(several, made)], several)
    both = changed(moved, (one + 2 * SECTOR, bytes(SECTOR)))
    yield told(bench, "exchanged sectors, and a lost one", [both, hurt], true)


def lines_of(rng: random.Random, count: int) -> bytes:
    names = ("asCoilSelectMeas", "sSliceArray.asSlice", "sGroupArray.anMember")
    values = (b"%s[%d].lValue%d = %d\n" % (rng.choice(names).encode(), at % 40, at % 7, rng.randrange(1000)) for at in range(count))
    return b"".join(values)


def checks_of_lone_sectors(bench: Bench, made: File, rng: random.Random) -> Iterator[Check]:
    """One copy has noise, and the other a sector of another file in the same text: over its borders the text doesn't go on."""
    true, begin = with_value(made, lines_of(rng, 900))
    at = -(-begin // 4096) * 4096 + 4096
    strange = lines_of(rng, 300)
    noise = changed(true, (at, rng.randbytes(4096)))
    for place in (at, at + 5 * SECTOR):
        foreign = changed(true, (place, strange[17 : 17 + SECTOR]))
        for copies in ([noise, foreign], [foreign, noise]):
            yield told(bench, "noise, and a sector of other lines under it", copies, true, False, 1)
    hurt = changed(true, (true.index(made.frames[0]) + 70, bytes(8)))
    yield told(bench, "noise alone", [noise, hurt], true)
    block = changed(true, (at, b"{~" + strange[17 : 17 + 4092] + b"^}"))
    yield told(bench, "noise, and a block of other lines under it", [noise, block], true, False, 1)
    new = changed(true, (at + SECTOR - 2, b"#@~^"))
    lost = changed(new, (at, rng.randbytes(SECTOR)))
    yield told(bench, "noise, and a new text over one of its borders", [lost, damaged_at(new, made)], new)


OF_SERIES = [checks_of_exchanged_frames, checks_of_series_uids, checks_of_exchanged_sectors, checks_of_lone_sectors]
