"""Checks of copies whose frames were coded by different writers: they give each other lines, and no more than that."""
from __future__ import annotations

import hashlib
import itertools
import random
import struct
from collections.abc import Iterator, Sequence

from coded_pictures import OTHER, USUAL, Coding, coded, segment, some_lines
from dicom_files import UID, Bench, File, changed
from jls_tools.frames import codings

Check = tuple[str, bool]
WIDTH, HEIGHT = 32, 24
BITS = 8


def files(rng: random.Random, codings: Sequence[Coding], bits: int = BITS, components: int = 1, frames: int = 1) -> list[File]:
    """One instance as several writers coded it."""
    pictures = [some_lines(rng, bits, WIDTH, HEIGHT, components) for _ in range(frames)]
    streams = [[coded(coding, bits, components, lines) for lines in pictures] for coding in codings]
    return [File(each, bits, WIDTH, HEIGHT, samples=components) for each in streams]


def damaged(made: File, part: float, frame: int = 0, size: int = 24) -> bytes:
    """A copy with zeros at this part of a frame."""
    begin = made.items[frame] + 8 + int(len(made.frames[frame]) * part)
    return bytes(changed(made.bytes, (begin, bytes(size))))


def gave_lines(printed: str) -> bool:
    return "copies of several codings gave each other lines" in printed


def checks_of_codings(bench: Bench, rng: random.Random) -> Iterator[Check]:
    """Copies in two codings, each damaged elsewhere: the file of the first comes back to the byte."""
    cases = {
        "thresholds and RESET": ([USUAL, OTHER], 8, 1),
        "other thresholds first": ([OTHER, USUAL], 8, 1),
        "restart intervals": ([USUAL, Coding(rows=7)], 8, 1),
        "P 12 beside 16": ([USUAL, Coding(precision=16)], 12, 1),
        "P 16 beside 12": ([Coding(precision=16), USUAL], 12, 1),
        "lines and planes": ([USUAL, Coding(are_planes=True)], 8, 3),
    }
    for name, (several, bits, components) in cases.items():
        one, other = files(rng, several, bits, components)
        status, out, printed, faults, _ = bench.mend([damaged(one, 0.3), damaged(other, 0.7)])
        yield f"{name}: the same file ({status}, {printed}, {faults})", (status, out == one.bytes, gave_lines(printed)) == (0, True, True)


def checks_of_codings_beside(bench: Bench, rng: random.Random) -> Iterator[Check]:
    """Damage of the header beside that of frames, and a third copy: the header is decided as ever. Which coding stands."""
    one, other = files(rng, [USUAL, OTHER])
    first, second = damaged(one, 0.3), damaged(other, 0.7)
    private = one.bytes.index(bytes(range(64)))
    status, out, printed, _, _ = bench.mend([changed(first, (private - 8, bytes(80))), second])
    yield f"a private element zeroed: the other one stands ({status}, {printed})", (status, out == other.bytes) == (0, True)
    status, out, printed, _, _ = bench.mend([changed(first, (one.name_at, b"E")), second])
    yield f"two names: undecided ({status}, {printed})", (status, out, "(0010,0010), undecided" in printed) == (1, None, True)
    status, out, printed, _, _ = bench.mend([changed(first, (one.name_at, b"E")), second], "--header", "COPY1")
    yield f"--header decides, and its coding stands ({status}, {printed})", (status, out == other.bytes) == (0, True)
    end = one.items[0] + 8 + len(one.frames[0])
    status, out, printed, _, _ = bench.mend([changed(first, (end - end % 2, bytes(10))), second])
    yield f"the end of Pixel Data zeroed: the other one stands ({status}, {printed})", (status, out == other.bytes) == (0, True)
    status, out, printed, _, _ = bench.mend([second, first[: one.name_at - 40] + first[one.name_at - 24 :], first])
    yield f"three copies, two of one coding: it stands ({status}, {printed})", (status, out == one.bytes) == (0, True)
    copies = [first, damaged(other, 0.3), second]
    status, out, printed, _, _ = bench.mend(copies)
    yield f"two of the other coding: that stands ({status}, {printed})", (status, out == other.bytes) == (0, True)
    status, out, printed, _, _ = bench.mend(copies, "--header", "COPY0")
    yield f"--header names the first: that stands ({status}, {printed})", (status, out == one.bytes) == (0, True)


def checks_of_codings_undamaged(bench: Bench, rng: random.Random) -> Iterator[Check]:
    """A copy that is whole is taken as it is, unless another one says otherwise from its first line on."""
    one, other = files(rng, [USUAL, OTHER])
    for name, copies, wanted in (
        ("the first is whole", [one.bytes, damaged(other, 0.7)], one),
        ("the second is whole", [damaged(one, 0.3), other.bytes], other),
        ("both are", [one.bytes, other.bytes], one),
    ):
        status, out, printed, _, _ = bench.mend(copies)
        yield f"{name}: as it is ({status}, {printed})", (status, out == wanted.bytes) == (0, True)
    copies, wanted_sum = [damaged(one, 0.3), damaged(other, 0.7)], hashlib.sha256(other.bytes).hexdigest()
    status, out, printed, _, _ = bench.mend(copies, "--sha256", wanted_sum)
    yield f"the checksum of the other coding's file ({status}, {printed})", (status, out == other.bytes) == (0, True)
    foreign = files(random.Random(1), [OTHER])[0]
    for name, copy in (("whole", foreign.bytes), ("damaged", damaged(foreign, 0.7))):
        status, out, printed, _, _ = bench.mend([one.bytes, copy])
        told = "a copy in another coding has other lines" in printed
        yield f"another picture, {name}: disputed ({status}, {printed})", (status, out, told) == (1, None, True)


def checks_of_codings_of_frames(bench: Bench, rng: random.Random) -> Iterator[Check]:
    """Files of several frames: each is mended by itself."""
    one, other = files(rng, [USUAL, OTHER], frames=2)
    copies = [changed(damaged(one, 0.3), (one.items[1] + 60, bytes(24))), damaged(other, 0.7)]
    status, out, printed, _, _ = bench.mend(copies)
    yield f"two frames, one of them whole in the other coding ({status}, {printed})", (status, out == one.bytes) == (0, True)
    lost = changed(one.bytes, (one.items[0] + 60, bytes(24)), (one.items[1] + 8, bytes(len(one.frames[1]))))
    status, out, printed, _, _ = bench.mend([lost, damaged(other, 0.7)])
    kept = out is not None and one.frames[0] in out and other.frames[1] in out
    yield f"a frame that one coding lost: that of the other ({status}, {printed})", (status, kept) == (0, True)
    odd = File(other.frames[:1], BITS, WIDTH, HEIGHT)
    status, out, printed, _, _ = bench.mend([one.bytes, changed(odd.bytes, (odd.bytes.index(b"1 ", 132), b"2 "))])
    is_told = "can't be paired" in printed
    yield f"frames that can't be paired ({status}, {printed})", status in (0, 1) and is_told and out in (None, one.bytes)


def checks_of_codings_flipped(bench: Bench) -> Iterator[Check]:
    """A flipped bit that no decoder notices, and a copy in another coding that gives other lines, but not all: no file of either."""
    bits, width, height = 16, 48, 60
    for seed in (652, 657, 672):
        rng = random.Random(seed)
        lines = some_lines(rng, bits, width, height, 1)
        one, other = (File([coded(coding, bits, 1, lines)], bits, width, height, samples=1) for coding in (USUAL, Coding(rows=7)))
        begin = one.items[0] + 68 + rng.randrange(len(one.frames[0]) // 2)
        flipped = changed(one.bytes, (begin, bytes([one.bytes[begin] ^ 1 << rng.randrange(8)])))
        begin = other.items[0] + 8 + int(len(other.frames[0]) * 0.55)
        noisy = changed(other.bytes, (begin, rng.randbytes(24)))
        status, out, printed, _, _ = bench.mend([bytes(flipped), bytes(noisy)])
        yield f"an unnoticed flip, seed {seed} ({status}, {printed})", (status, out) == (1, None)


def checks_of_codings_refused(bench: Bench, rng: random.Random) -> Iterator[Check]:
    """Other instances are refused as ever, and a header that lies makes no other coding."""
    one, other = files(rng, [USUAL, OTHER])
    stranger = File(other.frames, BITS, WIDTH, HEIGHT, uid=UID[:-1] + "8")
    status, out, _, faults, _ = bench.mend([damaged(one, 0.3), stranger.bytes])
    yield f"another instance ({status}, {faults})", (status, out) == (3, None)
    lying = changed(other.bytes, (other.bytes.index(b"\xff\xf8\0\x0d\1") + 8, b"\7"))
    status, out, printed, _, _ = bench.mend([damaged(other, 0.3), lying])
    yield f"a threshold that lies ({status}, {printed})", (status, out == other.bytes, "coding" in printed) == (0, True, False)


def checks_of_headers_of_codings(rng: random.Random) -> Iterator[Check]:
    """What tells codings apart."""
    lines = some_lines(rng, BITS, WIDTH, 2 * HEIGHT, 1)
    named = {name: coded(coding, BITS, 1, lines) for name, coding in NAMED.items()}
    found = [codings.coding_of(stream) for stream in named.values()]
    yield "each is another one", None not in found and len(set(found)) == len(named)
    preset = segment(0xF8, struct.pack(">B5H", 1, 255, 3, 7, 21, 64))
    said = named["usual"].replace(b"\xff\xda", preset + b"\xff\xda", 1)
    yield "the usual one may be said", codings.coding_of(said) == codings.coding_of(named["usual"])
    yield "no headers", codings.coding_of(named["usual"][:10]) is None
    for (left, one), (right, two) in itertools.combinations(named.items(), 2):
        yield f"{left} and {right}: little in common", not codings.have_one_coding(one, two)
    for name, stream in named.items():
        lost = stream[:200] + stream[230:900] + bytes(60) + stream[960:]
        yield f"{name}: a damaged copy has much in common", codings.have_one_coding(stream, lost)
    even = [[7] * WIDTH] * HEIGHT
    streams = [coded(coding, BITS, 1, even) for coding in (USUAL, OTHER)]
    yield "even pictures have one coding", codings.have_one_coding(*streams)


NAMED = {
    "usual": USUAL,
    "thresholds": Coding((5, 12, 40)),
    "RESET": Coding(reset=32),
    "restarts": Coding(rows=8),
    "other restarts": Coding(rows=16),
    "P": Coding(precision=16),
}
CODINGS = [
    checks_of_codings,
    checks_of_codings_beside,
    checks_of_codings_undamaged,
    checks_of_codings_of_frames,
    checks_of_codings_flipped,
    checks_of_codings_refused,
    checks_of_headers_of_codings,
]
