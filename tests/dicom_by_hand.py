"""Checks of rules of jls-dicom one by one, by hand: what they answer on bytes of which it is known what was done to them."""
from __future__ import annotations

import os
import random
import types
from collections.abc import Iterator
from typing import Any

from dicom_files import File, changed
from jls_tools.dicom import layout
from jls_tools.dicom.axis import bad_places, in_filler, inserted, stuck
from jls_tools.dicom.axis.align import Copy, in_same_places
from jls_tools.dicom.axis.pieces import meet_again, pieces
from jls_tools.dicom.axis.sectors import Pair
from jls_tools.dicom.copies.instance import Instances
from jls_tools.dicom.evidence.hidden_bits import hidden_at
from jls_tools.dicom.evidence.witnessed import denied, is_same, why_odd
from jls_tools.dicom.read.elements import Element
from jls_tools.dicom.read.plain import Plain
from jls_tools.dicom.read.tags import PIXEL_DATA
from jls_tools.dicom.read.values import allows, is_half_of_numbers
from jls_tools.dicom.result import FrameResult
from jls_tools.dicom.write.outputs import put_frames_folder, take_away
from jls_tools.frames.mending import FrameMender, Mended
from jls_tools.frames.witness import model_of

Check = tuple[str, bool]
SECTOR, PAGE, LANE = 512, 4096, 64
PIXELS = b"\xe0\x7f\x10\x00OB\0\0\xff\xff\xff\xff"


def checks_of_copies_by_hand(made: File) -> Iterator[Check]:
    """Two copies of one instance, of which neither has what the other one has: none of them is left out."""
    true = made.bytes
    for texts in ([true[:1024], changed(true, (0, bytes(1024)))], [changed(true, (0, bytes(1024))), true[:1024]]):
        found = Instances(texts, False)
        yield f"a copy without its beginning, and one without the rest: {found.left_out}", not found.left_out


def checks_of_elements_by_hand(small: File) -> Iterator[Check]:
    """What a witness has otherwise than a copy of JPEG-LS: a VR that PS3.6 allows too, and what no witness can say."""
    one, other = Plain(0x280106, b"SS", b"\3\0"), Plain(0x280106, b"US", b"\3\0")
    yield "another VR that PS3.6 allows", not is_same(one, other) and is_same(one, Plain(0x280106, b"SS", b"\3\0"))
    yield "a VR that the witness doesn't say", is_same(one, Plain(0x280106, b"", b"\3\0"))
    witness: Any = types.SimpleNamespace(elements={})
    for vr, tags in ((b"OB", []), (b"OW", [PIXEL_DATA])):
        yield f"Pixel Data of {vr!r}", list(denied([Plain(PIXEL_DATA, vr, b"")], witness)) == tags
    stream = small.frames[0]
    for name, behind, is_well in (("nothing", b"", True), ("zeros", b"\0\0", True), ("other bytes", b"\0\1", False)):
        data = File([stream + behind], 8, 16, 12).bytes
        yield f"{name} behind a frame in its item", (why_odd(data, 1, 0) is None) == is_well
    for value, wanted in ((b"1.5", True), (b"1.5 ", True), (b"1.5\0", True), (b"1.5\0\0", False), (b"1.5\\2", True), (b"1.5\0\\2", False)):
        yield f"numbers {value!r}: {wanted}", allows(b"DS", value) == wanted
    for text, wanted in ((b"12ab", True), (b"12abc", False), (b"1.5", True), (b"none", False)):
        yield f"half of {text!r} is of numbers: {wanted}", is_half_of_numbers(text) == wanted


def checks_of_put_in_by_hand(rng: random.Random) -> Iterator[Check]:
    """What of the bytes that one copy alone has was put in: few bytes, or a block that stands twice, between bytes that all copies have."""
    before, behind, block = rng.randbytes(200), rng.randbytes(100) + PIXELS, rng.randbytes(20)
    end = 200 + len(block)
    for name, data, size, wanted in (
        ("seven bytes", before + block[:7] + behind, 7, True),
        ("as many as an element has", before + block[:8] + behind, 8, False),
        ("a block", before + block + behind, 20, False),
        ("a block that stands twice", before[:180] + block + block + behind, 20, True),
    ):
        part = (200, 200 + size)
        copies = [Copy("a", data), Copy("b", data, [part])]
        yield f"{name}: {wanted}", inserted.is_no_element(copies, part) == wanted
        yield f"{name}, as what can be cut out", list(inserted.combinations(copies, [part])) == [(part,)]
    twice, part = before[:180] + block + block + behind, (200, end)
    for name, other in (("before", changed(twice, (170, b"?"))), ("behind", changed(twice, (end + 10, b"?")))):
        copies = [Copy("a", twice), Copy("b", other, [part])]
        yield f"a byte {name} it differs", not inserted.is_clear(copies, part) and not list(inserted.combinations(copies, [part]))
    yield "one lacks bytes beside it", not inserted.is_clear([Copy("a", twice), Copy("b", twice, [(190, end)])], part)
    yield "and two have them", inserted.is_clear([Copy("a", twice), Copy("b", twice, [(190, end)]), Copy("c", twice, [part])], part)
    yield "in the preamble", inserted.is_no_element([Copy("a", twice), Copy("b", twice, [(100, 140)])], (100, 140))
    copies = [Copy("a", before + block + behind), Copy("b", before + block + behind, [part])]
    for name, is_in_item, is_in_length, goes_on, hides in (
        ("in a frame", True, False, False, False),
        ("in a header", False, False, False, False),
        ("in a sequence that says how long it is", False, True, False, False),
        ("in a value that goes on", False, False, True, False),
        ("in a value that goes on, and ends with an element", False, False, True, True),
    ):
        answers: dict[str, Any] = {"is_in_item": is_in_item, "is_in_length": is_in_length, "goes_on": goes_on, "can_hide_element": hides}
        answers.update(is_held_alike=True, leaves=())
        stub: Any = types.SimpleNamespace(**{key: lambda *_, own=own: own for key, own in answers.items()})
        wanted = is_in_item or is_in_length or goes_on and not hides
        yield f"a block {name}: {wanted}", layout.is_put_in(copies, stub, part, [part]) == wanted
    held = types.SimpleNamespace(kind="open", element=types.SimpleNamespace(length=100, value=200, end=300))
    for is_there in (False, True):
        own: Any = types.SimpleNamespace(structure=types.SimpleNamespace(steps=[held]))
        own.can_begin_at = lambda at, is_there=is_there: is_there and at == 280
        name = "a sequence that can have taken an element in" if is_there else "a sequence"
        yield f"bytes of {name}: {not is_there}", layout.Layout.is_in_length(own, 250, 20) != is_there


def checks_of_losses_by_hand(rng: random.Random) -> Iterator[Check]:
    """A loss beside noise is put where another copy lost as many bytes, unless far more bytes of the noise are equal elsewhere."""
    base = rng.randbytes(400)
    lost, wrong = (100, 116), (110, 126)
    for equal, is_moved in ((0, True), (3, True), (4, False)):
        noise = bytes(byte ^ 0x55 for byte in base[90:100] + base[116:126])
        noise = noise[:10] + base[100 : 100 + equal] + noise[10 + equal :]
        pairs = zip(noise[10 + equal :], base[100 + equal :], base[116 + equal :])
        apart = bytes(one ^ 0xFF if one in pair else one for one, *pair in pairs)
        text = base[:90] + noise[: 10 + equal] + apart + base[110:]
        copies = [Copy("a", base), Copy("b", base, [lost]), Copy("c", text, [wrong])]
        found = in_same_places(copies)[2].absent
        yield f"a loss beside noise, of which {equal} bytes are equal there ({found})", found == [lost if is_moved else wrong]


def checks_of_places_by_hand(rng: random.Random) -> Iterator[Check]:
    """Where two copies go on alike, and which sectors and bits of one look lost."""
    lines = [b"".join(b"<Own.%d> { %d }\n" % (at, rng.randrange(1 << 30)) for at in range(60)) for _ in range(3)]
    begin, kept = len(lines[0]), lines[1][:130]
    one = lines[0] + rng.randbytes(20) + kept + lines[2]
    two = lines[0] + rng.randbytes(50) + kept + rng.randbytes(400) + lines[2]
    found = meet_again(one, two, begin, begin)
    yield f"a nearer place, through which less is lost: {found}", found == (begin + 20, begin + 50)
    even = b"".join(b"\xff\x7f" * rng.randrange(20, 40) + rng.randbytes(2) for _ in range(80))
    for size in (64, 8):  # most of what follows is equal at equal offsets too
        begin = even.index(b"\xff\x7f\xff\x7f", 1000)
        longer = even[:begin] + rng.randbytes(size) + even[begin:]
        parts = list(pieces(longer, even))
        yield f"{size} bytes put into even bytes: {parts}", (size, 0) in parts and len(parts) <= 6
    runs = even[:2000] + bytes(3000) + even[2000:]
    flipped = changed(runs[:4000] + runs[4100:], (2500, b"\x10"))
    parts = list(pieces(runs, flipped))
    yield f"a flip in zeros, and some lost behind it: {parts}", parts[:2] == [(2500, 2500), (1, 1)]
    long = rng.randbytes(3000) + bytes(3000) + rng.randbytes(3000)
    parts = list(pieces(long[:-500] + long[-499:], long[:2600] + long[3112:]))
    yield f"bytes lost before zeros, and one lost in the other one behind them: {parts[:4]}", (512, 0) in parts
    noise, text = rng.randbytes(SECTOR), (b"this sector was not read\n" * 60)[:SECTOR]
    lone = b"\0" + bytes(byte | 1 for byte in noise[1:])
    pair = Pair(bytes(SECTOR) + lone + bytes(SECTOR), bytes(SECTOR) + text + noise, [])
    yield "zeros beside a sector that is none", pair.lost_around(SECTOR) == (SECTOR, 2 * SECTOR)
    yield "zeros", pair.lost_around(0) == (0, SECTOR)
    names = [b"of a slice", b"in a file", b"and a name", b"as it was", b"to the end"]
    words = b" ".join(rng.choice(names) for _ in range(200))[: 2 * SECTOR]
    pair = Pair(bytes(3 * SECTOR), text + words, [])
    yield "a text again and again", not pair.is_other_plain(0)
    yield "another text", pair.is_other_plain(SECTOR)
    one, other, first, second = (bytearray(rng.randbytes(size)) for size in (600, 900, 32, 32))
    one[16:48] = other[316:348] = first
    one[128:160] = other[278:310] = second
    found = meet_again(bytes(one), bytes(other), 0, 0)
    yield f"of two places where both meet the nearer one: {found}", found == (128, 278)
    yield from of_stuck_bits(rng)
    yield from of_hidden_bits()
    yield from of_losses_in_filler(rng)


def of_stuck_bits(rng: random.Random) -> Iterator[Check]:
    """One lane of a page or two can have a stuck bit; a lane with few bytes of its own has it so in the file."""
    page = rng.randbytes(PAGE)
    for lanes, wanted in (((5,), 1), ((5, 9), 2), ((5, 9, 20), 0)):
        data = bytearray(page)
        for at in (at for lane in lanes for at in range(lane, PAGE, LANE)):
            data[at] |= 16
        places = stuck.places_stuck(Copy("a", bytes(data)), [Copy("b", page)], [(0, PAGE)])
        yield f"{len(lanes)} lanes: {wanted}", len({place % LANE for place, _ in places}) == wanted
    for values, bit in (([3, 19, 40, 60], None), (rng.sample(range(256), 64), 16)):  # half of the first have this bit
        own, beside = bytearray(page), bytearray(page)
        for number, at in enumerate(range(7, PAGE, LANE)):
            beside[at] = values[number % len(values)]
            own[at] = beside[at] | 16
        yield f"a lane of {len(values)} values: {bit}", stuck.bit_of(bytes(own), bytes(beside), 7) == bit


def of_losses_in_filler(rng: random.Random) -> Iterator[Check]:
    """A loss in bytes of one value stands where another copy lacks as many, if one copy alone has bytes there."""
    data, part = rng.randbytes(4008), (1000, 1008)
    for value, wanted in ((b"\0", part), (b"\0\1", (3000, 3008))):
        filled = data[:900] + (value * 4008)[:3108]
        copies = [Copy("a", data), Copy("b", data, [part]), Copy("c", filled, [(3000, 3008)])]
        absent = in_filler.with_others(copies)[2].absent
        yield f"a loss in bytes of {len(value)} values: {absent}", absent == [wanted]


def of_hidden_bits() -> Iterator[Check]:
    """What a stuck bit hides is in doubt where it was taken, unless the VR of the value forbids the other bit."""
    data, leaf = bytes(200) + b"1.25", Element(0x180050, b"DS", 192, 200, 4)
    rows = (200, 4, b"1", 200), (200, 64, b"1", None), (200, 4, b"2", None), (150, 1, b"1", 150), (100, 1, b"1", None)
    for place, bit, taken, wanted in rows:
        copy = Copy("a", data, hidden=[(place, bit)])
        header: Any = types.SimpleNamespace(copies=[copy], leaves=[leaf], outside=lambda begin, end: [(begin, end)])
        found = hidden_at(header, changed(data, (200, taken)))
        yield f"a hidden bit {bit} at {place}, where {taken!r} was taken: {found}", found == wanted


def checks_of_frames_by_hand(small: File) -> Iterator[Check]:
    """Headers of a frame that a witness can have a model of; padding; and parts of a frame with bad bytes."""
    stream = small.frames[0]
    names = changed(stream, (stream.index(b"\1\x11\0"), b"\5"), (stream.index(b"\xff\xda\0\x08\1") + 5, b"\5"))
    yield "a usual name of a component", model_of(stream) is not None
    yield "another name", model_of(names) is None
    whole = Mended(FrameResult(0, "lines", settled=12))
    stub: Any = types.SimpleNamespace(mend=lambda *_: whole, mend_aside=lambda *_: Mended(FrameResult(0, "whole", settled=12)))
    found = FrameMender.mend_padded(stub, 0, [stream[:-2] + b"\0"])
    yield "all lines come with a last byte 00", found is whole
    rows = b"".join(b"\xff" + bytes([0xD0 + at % 8]) + b"\x55" * 30 for at in range(100))
    bad = [(at * 32 + 10, at * 32 + 12) for at in range(100)]
    parts = list(bad_places.parts_of([rows], bad))
    yield f"{bad_places.MOST_PARTS} parts, and the rest: {len(parts)}", len(parts) == bad_places.MOST_PARTS + 1
    parts = list(bad_places.parts_of([rows + b"\0"], bad[:1]))
    marked = bad_places.marked(rows + b"\0", bad[:1])
    yield "behind bad bytes, with a last byte 00 and without", parts[1:] == [[marked], [marked[:-1]]]


def checks_of_folders_by_hand(folder: str) -> Iterator[Check]:
    """A folder of frames of an earlier run is taken away, and no other one."""
    place, work = os.path.join(folder, "out.frames"), os.path.join(folder, "work")
    for name in ("made", "work"):
        os.makedirs(os.path.join(folder, name))
    with open(os.path.join(folder, "made", "frame-0000.jls"), "wb") as file:
        file.write(b"a frame")
    put_frames_folder(os.path.join(folder, "made"), place, work)
    with open(os.path.join(place, "notes.txt"), "wb") as file:
        file.write(b"of somebody")
    take_away(place, work)
    yield "a folder with a file of somebody", os.path.exists(place)
    os.remove(os.path.join(place, "notes.txt"))
    take_away(place, work)
    yield "a folder of frames alone", not os.path.exists(place) and len(os.listdir(work)) == 1


BY_HAND = [checks_of_copies_by_hand, checks_of_elements_by_hand, checks_of_put_in_by_hand, checks_of_places_by_hand]
BY_HAND += [checks_of_frames_by_hand, checks_of_folders_by_hand, checks_of_losses_by_hand]
