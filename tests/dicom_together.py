"""Checks of damage that several copies share, and of copies that end otherwise: nothing false comes of it."""
from __future__ import annotations

import os
import random
import types
from collections.abc import Iterator
from typing import Any

from dicom_files import Bench, File, called, changed, element, get, with_value
from dicom_rules import csa_header
from jls_tools.dicom.axis.align import Copy
from jls_tools.dicom.evidence import alone, doubtful
from jls_tools.dicom.read.elements import DELIMITER

Check = tuple[str, bool]
SECTOR = 512


class Before:
    """Bytes that stood in memory before a text was written over them: most are zeros."""

    def randbytes(self, size: int) -> bytes:
        return bytes(size - 20) + b"\xac\x45\x76\x4c" + bytes(16)


def in_frame(made: File, true: bytes, number: int) -> tuple[int, bytes]:
    """Eight zeros in a frame of a file whose header has another length."""
    return true.index(made.frames[number]) + 70, bytes(8)


def checks_of_sectors_lost_alike(bench: Bench, made: File, rng: random.Random) -> Iterator[Check]:
    """Two of three copies lost one sector, as disks of one array do: what they have there outvotes nothing."""
    letters = bytes(rng.choice(b"abcdefgh ijklm.nop=") for _ in range(3000))
    text, begin = with_value(made, letters)
    zeros, _ = with_value(made, letters[:1000] + bytes(1000) + letters[:1000])
    border = -(-(begin + 1100) // SECTOR) * SECTOR
    csa, at = with_value(made, csa_header(Before()))
    tags = csa.index(b"Field0") // SECTOR * SECTOR + SECTOR
    assert at < tags and tags + SECTOR < csa.index(b"MrProtocol")
    noise = rng.randbytes(SECTOR)
    cases = {
        "zeros in a private text": (text, (border, bytes(SECTOR)), 1),
        "one byte in a private text": (text, (border, b"\xff" * SECTOR), 1),
        "zeros within a sector": (text, (border + 100, bytes(64)), None),
        "tags of a CSA header": (csa, (tags, bytes(SECTOR)), 0),
    }
    for name, (true, lost, wanted) in cases.items():
        copies = [changed(true, in_frame(made, true, at), *([lost] if at else [])) for at in range(3)]
        status, out, printed, _, _ = bench.mend(copies)
        if wanted is None:  # a writer's, as far as anyone can tell
            yield f"{name}: what most copies have ({status}, {printed})", (status, out == changed(true, lost)) == (0, True)
        else:
            yield f"{name}: {wanted} ({status}, {printed})", (status, out == true) == (wanted, wanted == 0)
    copies = [changed(zeros, in_frame(made, zeros, at), *([] if at else [(border, noise)])) for at in range(3)]
    status, out, printed, _, _ = bench.mend(copies)
    yield f"true zeros, and noise over one of three: nothing false ({status}, {printed})", (status, out) == (1, None) or out == zeros
    first = border + 40
    copies = [changed(text, in_frame(made, text, at), *([(first, b"Doe^Jane")] if at else [])) for at in range(3)]
    status, out, printed, _, _ = bench.mend(copies)
    yield f"two of three agree ({status}, {printed})", (status, out == changed(text, (first, b"Doe^Jane"))) == (0, True)


def checks_of_named_twice(bench: Bench, made: File, rng: random.Random) -> Iterator[Check]:
    """A damaged file that is named twice, by its name or by a link, is one copy: it outvotes no other one."""
    true, begin = with_value(made, bytes(rng.choice(b"abcdefgh") for _ in range(600)))
    damaged = changed(true, in_frame(made, true, 0), (begin + 40, b"Doe^Jane"))
    one, other, link = (f"{bench.folder}/{name}" for name in ("named-twice.dcm", "beside.dcm", "link.dcm"))
    for name, data in ((one, damaged), (other, changed(true, in_frame(made, true, 1)))):
        with open(name, "wb") as file:
            file.write(data)
    os.symlink(one, link)
    for again in (one, link):
        out = f"{bench.folder}/of-{os.path.basename(again)}"
        status, printed, faults = called("mend", out, one, again, other)
        is_told = f"left out {again}: it is the file {one} again\n" in printed
        yield f"named twice ({status}, {printed}{faults})", (status, is_told, os.path.exists(out)) == (1, True, False)
    status, printed, faults = called("mend", "--header", link, f"{bench.folder}/by-link.dcm", one, link, other)
    yield f"named twice, and --header ({status}, {printed}{faults})", status == 0 and get(f"{bench.folder}/by-link.dcm") is not None


def checks_of_decided_beside(bench: Bench, made: File, rng: random.Random) -> Iterator[Check]:
    """Two of three copies have the same letters in a sector in which others of theirs were not taken: these say nothing."""
    csa, _ = with_value(made, csa_header(rng))
    field, text = csa.index(b"Field5\0"), csa.index(b"Field5\0") + 20
    assert field // SECTOR == (field + 84) // SECTOR
    other = (text, bytes([csa[text] ^ 0x11]))
    broken = (field + 76, b"\x99")
    own = [(csa.index(word), bytes(4)) for word in (b"ORIGINAL", b"20200131", b"MONOCHROME2")]  # so that no two have one header
    one, two = [other, broken], [other, (field + 76, b"\x9a")]  # another broken tag in each: they are of two sources
    for name, first, second, wanted in (("a byte", [other], [other], 0), ("a byte, and a broken tag", one, two, 1)):
        changes: list[list[tuple[int, bytes]]] = [[], first, second]
        copies = [changed(csa, in_frame(made, csa, at), own[at], *changes[at]) for at in range(3)]
        status, out, printed, _, _ = bench.mend(copies)
        yield f"{name}: {wanted} ({status}, {printed})", status == wanted and (out == changed(csa, other) if wanted == 0 else out is None)


def checks_of_other_ends() -> Iterator[Check]:
    """Whether a copy ends as a file does, ahead of the end of what was found."""
    data, end = bytes(492) + DELIMITER + bytes(492) + DELIMITER, 1000
    inner, cut, behind = [(100, 200)], [(500, 1000)], [(600, 1000)]
    cases: list[tuple[str, list[list[tuple[int, int]]], int, int | None]] = [
        ("one of three ends before", [cut, [], []], end, 500),
        ("one of two", [[], cut], end, 500),
        ("it lacks others too", [[*inner, *cut], []], end, 500),
        ("Pixel Data ends there", [cut, []], 500, None),
        ("it has no end of its own", [behind, []], end, None),
        ("it lacks its end", [[(496, 1000)], []], end, None),
        ("it goes on", [[(500, 900)], []], end, None),
        ("none lacks anything", [[], []], end, None),
    ]
    for name, absent, until, wanted in cases:
        found = doubtful.ends_before([Copy("", data, own) for own in absent], until)
        yield f"{name}: {wanted} ({found})", found == wanted


def checks_of_sectors_twice(bench: Bench, made: File, single: File, rng: random.Random) -> Iterator[Check]:
    """A sector that was written to a wrong place in two of three copies: it stands in the file twice."""
    letters = bytes(rng.choice(b"abcdefgh ijklm.nop=") for _ in range(4000))
    true, begin = with_value(made, letters)
    border = -(-begin // SECTOR) * SECTOR
    for name, source, wanted in (("another sector", border + 3 * SECTOR, 1), ("what stands at no border", border + 3 * SECTOR + 8, 0)):
        wrong = changed(true, (border + SECTOR, true[source : source + SECTOR]))
        copies = [changed(wrong if at else true, in_frame(made, true, at)) for at in range(3)]
        status, out, printed, _, _ = bench.mend(copies)
        told = not wanted or f"the sector at {border + SECTOR} stands elsewhere" in printed
        yield f"{name}: {wanted} ({status}, {printed})", (status, out is not None, told) == (wanted, wanted == 0, True)
    twice, _ = with_value(made, letters[:2048] + letters[:1024] + letters)
    copies = [changed(twice, in_frame(made, twice, at)) for at in range(2)]
    status, out, printed, _, _ = bench.mend(copies)
    yield f"a file that has a sector twice ({status}, {printed})", (status, out == twice) == (0, True)
    true, _ = with_value(single, letters[:300])
    at = true.index(single.frames[0])
    border = -(-at // SECTOR) * SECTOR
    assert border + SECTOR + 100 < at + len(single.frames[0])
    for behind in (0, 1):  # the sector in which elements stand, and the one after it
        first, second = border - SECTOR * (2 - behind), border
        one, two = true[first : first + SECTOR], true[second : second + SECTOR]
        copies = [changed(true, (first, two), (second, one)), changed(true, (second + SECTOR + 60, bytes(8)))]
        for order in (copies, copies[::-1]):
            status, out, printed, _, _ = bench.mend(order)
            is_back = (status, out == true) == (0, True)
            yield f"a sector of the header exchanged with one of a frame: {behind} ({status}, {printed})", is_back


def checks_of_others_in_a_lost_sector(bench: Bench, made: File) -> Iterator[Check]:
    """One of three copies lost a sector, in which the others differ in two places: what decides one says nothing of the other."""
    true, _ = with_value(made, b"x" * 300)
    name, rows = true.index(b"Doe^Jane"), true.index(b"\x28\0\x10\0US")
    assert name // SECTOR == rows // SECTOR
    border = name // SECTOR * SECTOR
    broken, other = (rows + 6, b"\xee\xff"), (name, b"E")
    cases: list[tuple[str, list[list[tuple[int, bytes]]], int]] = [
        ("a length", [[broken], []], 0),
        ("a length, and a name in the other one", [[broken], [other]], 1),
    ]
    for fill in (bytes(SECTOR), (b"BAD-SECTOR " * 50)[:SECTOR], b"\xff" * SECTOR):
        for what, changes, wanted in cases:
            copies = [changed(true, *own, in_frame(made, true, at)) for at, own in enumerate([[(border, fill)], *changes])]
            for order in (copies, copies[::-1], copies[1:] + copies[:1]):
                status, out, printed, _, _ = bench.mend(order)
                told = not wanted or "(0010,0010), undecided" in printed
                yield f"{what}, {fill[:2]!r}: {wanted} ({status}, {printed})", (status, out == true, told) == (wanted, not wanted, True)


def checks_of_others_cut_in_a_lost_sector(bench: Bench, made: File) -> Iterator[Check]:
    """One of three copies lost the last sector, and one the last byte: what this one has of a place counts, up to where it is cut."""
    tail = element(0xFFFCFFFC, "OB", bytes(30))
    true = made.bytes[: -len(tail)] + element(0xFFFCFFFC, "OB", bytes(range(1, 101)))
    border, size = (len(true) - 30) // SECTOR * SECTOR, len(true)
    zeroed, cut = changed(true, (border, bytes(size - border))), true[:-1]
    for what, other, wanted in (("as it is", true, 0), ("with nine other bytes", changed(true, (size - 9, b"\x99" * 9)), 1)):
        for copies in ([zeroed, other, cut], [cut, zeroed, other], [other, cut, zeroed]):
            status, out, printed, _, _ = bench.mend(copies)
            yield f"the third copy {what}: {wanted} ({status}, {printed})", (status, out == true) == (wanted, not wanted)


def header_with(runs: list[tuple[int, int, set[int]]]) -> Any:
    """What stands for a Header of three copies, of which the last one alone has bytes 600 to 606. `runs` are decided, for these copies."""
    absent: list[list[tuple[int, int]]] = [[(600, 606)], [(600, 606)], []]
    copies = [Copy("", bytes(1024), own) for own in absent]
    found = [types.SimpleNamespace(begin=begin, end=end) for begin, end, _ in runs]

    def touching(first: int, last: int) -> list[int]:
        return [at for at, (begin, end, _) in enumerate(runs) if begin < last and first < end]

    return types.SimpleNamespace(
        copies=copies,
        runs=types.SimpleNamespace(runs=found, touching=touching),
        chosen=lambda: dict.fromkeys(range(len(runs)), 0),
        holders=lambda number: runs[number][2],
    )


def checks_of_lost_beside() -> Iterator[Check]:
    """Whether a copy lost the sector of what it alone has: enough of it was not taken there."""
    for name, runs, wanted in (
        ("most of the sector", [(520, 560, {0, 1})], True),
        ("two places of it", [(520, 528, {0, 1}), (700, 708, {0})], True),
        ("few bytes", [(520, 535, {0, 1})], False),
        ("another sector", [(400, 512, {0, 1})], False),
        ("as far as it is of the sector", [(400, 520, {0, 1})], False),
        ("what was taken of it", [(520, 560, {0, 2})], False),
    ):
        found = alone.is_in_lost_sector(header_with(runs), 600, 606)
        yield f"{name}: {wanted} ({found})", found == wanted


def checks_of_changes() -> Iterator[Check]:
    """Whether what was taken changes from one copy to another where damage of both has to touch."""
    cases: list[tuple[str, list[tuple[int, int, set[int]]], int | None]] = [
        ("damage of one beside damage of the other", [(520, 540, {0}), (541, 561, {1})], 541),
        ("eight bytes between", [(520, 540, {0}), (548, 568, {1})], None),
        ("at a border", [(492, 512, {0}), (512, 532, {1})], None),
        ("both have what is between, which a third copy lost", [(520, 540, {0}), (540, 560, {0, 1}), (560, 580, {1})], None),
        ("both have a byte between", [(520, 540, {0}), (540, 541, {0, 1}), (541, 561, {1})], 541),
        ("one copy has all", [(520, 540, {0, 1}), (540, 560, {1}), (560, 580, {0, 1})], None),
        ("nothing was taken", [(520, 540, {0}), (541, 561, set())], None),
    ]
    for name, runs, wanted in cases:
        header = header_with(runs)
        header.parts = dict.fromkeys(range(len(runs)))
        found = doubtful.change_at(header)
        yield f"{name}: {wanted} ({found})", found == wanted


def checks_of_alone_in_lost_sectors(bench: Bench, made: File) -> Iterator[Check]:
    """Two copies are cut, and the third one lost its last sector: the end that it alone has is no end of the file."""
    tail = element(0xFFFCFFFC, "OB", bytes(30))
    end = element(0xFFFCFFFC, "OB", bytes(range(1, 35)) + b"\x08" + bytes(5))
    size = 64 + -(len(made.bytes) - len(tail) + len(end) - 100) % SECTOR
    longer, _ = with_value(made, bytes(at % 250 + 1 for at in range(size)))
    head = longer[: -len(tail)] + end
    border = len(head) - 100
    zeroed = changed(head, (border, bytes(100)), in_frame(made, head, 0))
    copies = [changed(head[:-6], in_frame(made, head, 1)), changed(head[:-7], in_frame(made, head, 2)), zeroed]
    status, out, printed, _, _ = bench.mend(copies)
    yield f"zeros where two copies are cut: undecided ({status}, {printed})", (status, out) == (1, None)
    whole = changed(head, in_frame(made, head, 0))
    status, out, printed, _, _ = bench.mend([*copies[:2], whole])
    yield f"the end of a copy that lost nothing ({status}, {printed})", (status, out == head) == (0, True)


TOGETHER = [checks_of_sectors_lost_alike, checks_of_decided_beside, checks_of_other_ends, checks_of_sectors_twice]
TOGETHER += [checks_of_others_in_a_lost_sector, checks_of_others_cut_in_a_lost_sector]
TOGETHER += [checks_of_changes, checks_of_lost_beside, checks_of_alone_in_lost_sectors, checks_of_named_twice]
