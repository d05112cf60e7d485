"""Checks of headers that all read whole: two versions of one, as an archive makes them that coerces values. And of transfers as text."""
from __future__ import annotations

import hashlib
from collections.abc import Iterator

from dicom_files import Bench, File, changed, element, get, with_value
from dicom_truth import case, damaged

Check = tuple[str, bool]
LETTERS = element(0x100010, "PN", "Doe^Jane")


def coerced(made: File, is_padded: bool = True) -> bytes:
    """The file with another name, a number that it hadn't, and an empty value in place of one; where its items begin."""
    name = element(0x100010, "PN", "DOE^JANE MARY") + element(0x100020, "LO", "N-1234")
    data = made.bytes.replace(LETTERS, name).replace(element(0x80020, "DA", "20200131"), element(0x80020, "DA", ""))
    return data if is_padded else data[: -len(element(0xFFFCFFFC, "OB", bytes(30)))]


def with_damage(made: File, data: bytes, number: int) -> bytes:
    """A file with eight bytes of a frame zeroed."""
    return changed(data, (data.index(made.frames[number]) + 70, bytes(8)))


def checks_of_versions(bench: Bench, made: File) -> Iterator[Check]:
    """Of two headers that read whole, one is taken if most copies have it, or if a copy is named. Frames are mended of all copies."""
    true, other = made.bytes, coerced(made)
    pair = [with_damage(made, true, 0), with_damage(made, other, 1)]
    for words in ("versions, undecided; A: 1 copy", "version (0010,0010), A: 'Doe^Jane'; B: 'DOE^JANE MARY ", "--header chooses one"):
        yield case(bench, f"two headers: {words}", pair, 1, b"", words)
    yield case(bench, "two headers: a tag that one lacks", pair, 1, b"", "version (0010,0020), A: no element; B: 'N-1234'")
    yield case(bench, "two headers: an empty value", pair, 1, b"", "version (0008,0020), A: '20200131'; B: nothing")
    _, _, printed, _, out = bench.mend(pair)
    are_told = "\ndiffer " not in printed and printed.count("whole, settled") == 4
    yield f"two headers: no line for each place, and all frames ({printed})", are_told
    yield "two headers: the frames are there", get(f"{out}.frames/frame-0000.jls") == made.frames[0]
    yield case(bench, "two headers, and --header names the one", pair, 0, true, "versions, taken: A", ["--header", "COPY0"])
    yield case(bench, "two headers, and --header names the other one", pair, 0, other, "versions, taken: B", ["--header", "COPY1"])
    for data in (true, other):
        by_sum = ["--sha256", hashlib.sha256(data).hexdigest()]
        yield case(bench, "two headers, and a sum", pair, 0, data, f"versions, taken: {'A' if data == true else 'B'}", by_sum)
    three = [*pair, with_damage(made, true, 2)]
    yield case(bench, "two copies of one header", three, 0, true, "versions, taken: A; A: 2 copies")
    yield case(bench, "two copies of one header, and --header names the other one", three, 0, other, "taken: B", ["--header", "COPY1"])
    yield case(bench, "two copies of each header", [*three, with_damage(made, other, 3)], 1, b"", "versions, undecided; A: 2 copies")
    printed = bench.mend(pair, "--no-names")[2]
    yield f"two headers: no name in lines ({printed})", "version (0010,0010), A: 8 bytes; B: 14 bytes" in printed and "JANE" not in printed


def checks_of_damaged_versions(bench: Bench, made: File) -> Iterator[Check]:
    """What is no version: a header that is damaged, one that lost bytes, one of the same length."""
    true, other = made.bytes, coerced(made)
    broken = changed(with_damage(made, true, 2), (made.name_at - 8, bytes(20)))
    three = [with_damage(made, true, 0), with_damage(made, other, 1), broken]
    yield case(bench, "a third copy with a damaged header", three, 1, b"", "versions, undecided; A: 1 copy")
    yield case(bench, "the same, and --header", three, 0, true, "versions, taken: A", ["--header", "COPY0"])
    yield case(bench, "the same, and --header names the other one", three, 0, other, "versions, taken: B", ["--header", "COPY1"])
    order = [broken, *three[:2]]
    yield case(bench, "the same, and --header names the damaged one", order, 1, b"", "versions, undecided", ["--header", "COPY0"])
    bare = coerced(made, False)
    for number, data in enumerate((true, bare)):
        pair = [with_damage(made, true, 0), with_damage(made, bare, 1)]
        yield case(bench, "one that ends with Pixel Data", pair, 0, data, "versions, taken", ["--header", f"COPY{number}"])
    cut = other[: other.index(made.frames[3]) + 20]
    yield case(bench, "one that is cut in a frame", [damaged(made), cut], 0, true, "versions, taken: A", ["--header", "COPY0"])
    yield case(bench, "one that is cut in a frame, named", [damaged(made), cut], 1, b"", "what follows Pixel Data", ["--header", "COPY1"])
    wrong = changed(other, (140, b"\x07"))
    printed = bench.mend([damaged(made), wrong])[2]
    yield f"a group length that is wrong: no version ({printed})", "versions" not in printed
    gone = true.replace(LETTERS, b"")
    printed = bench.mend([damaged(made), gone])[2]
    yield f"an element that is gone: no version ({printed})", "versions" not in printed and "one copy alone has it" in printed
    printed = bench.mend([damaged(made), changed(true, (made.name_at, b"E"))])[2]
    yield f"a letter: no version ({printed})", "versions" not in printed and "undecided" in printed


# Transfers as text ----------------------------------------------------------------------------------


def sent_as_text(data: bytes) -> bytes:
    return data.replace(b"\n", b"\r\n")


def damaged_value(true: bytes, at: int) -> bytes:
    """A file without the header of the element before this value."""
    return changed(true, (at - 60, bytes(20)))


def checks_of_transfers(bench: Bench, made: File, small: File, single: File) -> Iterator[Check]:
    """A carriage return before each line feed of a copy is taken out again, if the copy has then the length of another one."""
    lines = b"".join(b"<Step.%d> of a slice\n" % at for at in range(60))
    for name, text in (("line feeds", lines), ("carriage returns and line feeds", lines.replace(b"\n", b"\r\n") + bytes([10, 7] * 40))):
        true, at = with_value(made, text)
        other = damaged_value(true, at)
        sent = sent_as_text(true)
        later = changed(sent, (sent.index(made.frames[0][:8]) + 70, bytes(8)))
        for copies in ([sent, other], [other, sent], [later, other], [later, other, changed(true, (at, b"\0\0"))]):
            yield case(bench, f"{name}, one copy sent as text", copies, 0, true, "carriage return before each line feed")
        for copies in ([sent, later], [sent, true[: len(true) // 2]], [later, later, sent]):
            yield case(bench, f"{name}, each copy sent as text", copies, 0, true, "carriage return before each line feed")
        both = [changed(later, (sent.index(b"MONOCHROME2") - 4, b"??")), changed(sent, (sent.index(b"MONOCHROME2") - 4, b"!!"))]
        status, _, printed, _, _ = bench.mend(both)
        yield f"{name}, and neither copy reads: it is undone ({status}, {printed})", status == 1 and "carriage return" in printed
    true, at = with_value(made, 4 * lines.replace(b"\n", b"\r\n"))
    copies = [sent_as_text(true), damaged_value(true, at)]
    yield case(bench, "carriage returns and line feeds alone, one copy sent as text", copies, 0, true, "carriage return before each")
    even, at = with_value(made, b"".join(b"%d lines of a slice and %d more\n" % (line, line * line) for line in range(150)))
    sent = sent_as_text(even)
    border = sent.rfind(b"\xff\xd8\xff\xf7") + 60
    filled = sent[:border] + bytes(len(sent) - border)
    for copies in ([filled, even], [filled, sent]):
        yield case(bench, "one copy sent as text, and zeros from some place on", copies, 0, even, "carriage return before each line feed")
    returns, at = with_value(made, b"".join(b"%d lines of a slice and %d more\r\n" % (line, line * line) for line in range(150)))
    border = returns.rfind(b"\xff\xd8\xff\xf7") + 60
    filled = returns[:border] + bytes(len(returns) - border)
    status, out, printed, _, _ = bench.mend([filled, returns])
    yield f"lines of the file, and zeros from some place on ({status}, {printed})", (out, "put a carriage" in printed) == (returns, False)
    noise = changed(true, (at + 300, b"\n\3\n\7" * 60))
    few, place = with_value(made, lines + b"of a slice\r\n" * 12)
    yield case(bench, "some line feeds, and as many lost bytes", [few, few[: place + 700] + few[place + 712 :]], 0, few)
    yield from of_few_returns(bench, made, small)
    yield from of_returns_in_code(bench, made, small, single)
    for copies in ([true, noise], [noise, true]):
        status, out, printed, _, _ = bench.mend(copies)
        yield f"line feeds of noise in the other copy ({status}, {printed})", "carriage return" not in printed and out in (None, true)


def of_few_returns(bench: Bench, made: File, small: File) -> Iterator[Check]:
    """Few line feeds are enough where a copy reads to its end only so; and two copies lost what a transfer takes away."""
    true, _ = with_value(small, b"a slice\nof two lines.\n")
    assert true.count(b"\n") < 8 and b"\r\n" not in true
    both = [sent_as_text(changed(true, (made_items(true, small)[0] + at, bytes(2)))) for at in (60, 90)]
    yield case(bench, "few line feeds, each copy sent as text", both, 0, true, "carriage return before each line feed")
    one, place = with_value(made, b"one of three copies\r\nhas it, and a line feed\n\n")
    hurt = changed(one, (made_items(one, made)[1] + 70, bytes(8)))
    gone = [changed(one, (item + 70, bytes(8))).replace(b"\r\n", b"\n") for item in (made_items(one, made)[0], made_items(one, made)[2])]
    yield case(bench, "two of three copies without carriage returns", [gone[0], hurt, gone[1]], 0, one)
    put_in = [text[: place + 10] + text[place + 11 :] for text in gone]
    yield case(bench, "they lost another byte too", [put_in[0], hurt, put_in[1]], 1, b"", "OUT is not written")
    whole, place = with_value(made, b"a line\r\nand more of it to come")
    more = whole[: place + 20] + b"x" + whole[place + 20 :]
    status, out, printed, _, _ = bench.mend([more, changed(whole, (made_items(whole, made)[0] + 70, bytes(8)))])
    is_safe = out in (None, whole) and (out is None) == (status != 0)
    yield f"a true carriage return, and a byte put in: nothing false ({status}, {printed})", is_safe


def of_returns_in_code(bench: Bench, made: File, small: File, single: File) -> Iterator[Check]:
    """Codestreams show a transfer of a copy that lost bytes, or has too many. Texts and few line feeds don't, nor those of a half."""
    true, (first, second, *_) = made.bytes, made.items
    block, lost = true[: first + 60] + true[first : second], true[: second + 60] + true[second + 90 :]
    hurt = changed(true, (made.items[2] + 70, bytes(8)))
    for name, copy in (("a block twice", block + true[second:]), ("a loss", lost)):
        yield case(bench, f"{name}, sent as text", [sent_as_text(copy), hurt], 0, true, "carriage return before each line feed")
        yield case(bench, f"{name}, each copy sent as text", [sent_as_text(copy), sent_as_text(hurt)], 0, true, "carriage return before")
    lines, _ = with_value(single, b"a line\r\n" * 400)
    code, at = lines.index(single.frames[0]), small.name_at - 8
    several = b"".join(element(0x91002 + number, "LT", "a line\r\n") for number in range(60))
    copies = {
        "few line feeds": sent_as_text(with_value(small, b"a line\n" * 400)[0]),
        "a text over the code": changed(lines, (code + 90, b"again and again\r\n" * 40)),
        "a part of the code sent as text": with_value(made, b"a line\r\n" * 400)[0] + 3 * sent_as_text(true[first:]),
        "elements that end with a line": small.bytes[:at] + several + small.bytes[at:],
    }
    for name, copy in copies.items():
        broken = changed(copy, (copy.index(b"MONOCHROME2") - 4, b"??"))
        printed = bench.mend([broken[:-9], changed(broken, (140, b"\7"))])[2]
        yield f"{name}: nothing is undone ({printed})", "carriage return" not in printed


def made_items(data: bytes, made: File) -> list[int]:
    """Where the items of a file stand that has another private value."""
    return [data.index(stream) - 8 for stream in made.frames]


HEADERS = [checks_of_versions, checks_of_damaged_versions, checks_of_transfers]
