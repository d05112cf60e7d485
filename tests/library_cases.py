"""tests/library_cases.py PROGRAM FILE..: does the Python package say of each file what the program says? It prints each difference.

The expected values are the program's: the counts of its report, the line that says where a copy ends, the whole picture it writes, and
the partial pictures that it makes of one copy and of several. Those of `rows` are written by hand from docs/FORMAT.md.
"""
import array
import dataclasses
import mmap
import os
import re
import subprocess
import sys
import tempfile

import jls_salvage


def run(*words):
    return subprocess.run(words, capture_output=True, text=True, errors="replace", check=False).stdout


def differ(name, what, found, wanted):
    if found != wanted:
        print(f"{name}: {what} {found}, and the program has {wanted}")


def samples_of(pnm):
    """The samples of a binary PGM or PPM file, in the order of the file."""
    fields = re.match(rb"P[56]\s+(\d+)\s+(\d+)\s+(\d+)\s", pnm)
    data = pnm[fields.end() :]
    return list(data) if int(fields[3]) < 256 else [data[at] << 8 | data[at + 1] for at in range(0, len(data), 2)]


def read(copy):
    """What could be read of a copy, also if it has a coding that isn't read."""
    try:
        return jls_salvage.read(copy)
    except jls_salvage.Unsupported as why:
        return why.picture


def compare(program, name):
    with open(name, "rb") as file:
        copy = file.read()
    report = run(program, "check", name)
    counts = re.search(r"^settled (\d+), missing (\d+), disputed (\d+)$", report, re.M)
    if not counts:
        try:
            read(copy)
        except jls_salvage.NoPicture:
            return
        print(f"{name}: a picture, and the program has none")
        return
    info, picture = jls_salvage.check(copy), read(copy)
    wanted = [int(it) for it in counts.groups()]
    differ(name, "counts", [info.settled, info.missing, info.disputed], wanted)
    kinds = (jls_salvage.SETTLED, jls_salvage.MISSING, jls_salvage.DISPUTED)
    differ(name, "statuses", [list(picture.statuses).count(it) for it in kinds], wanted)
    differ(name, "unsettled lines", len(picture.unsettled()), wanted[1] + wanted[2])
    differ(name, "info", picture.info.lines, info.lines)
    for component, line in picture.unsettled():
        differ(name, "line", picture.line(component, line), None)
    if wanted[1] == wanted[2] == 0:
        written = subprocess.run([program, "write", "--as", "pnm", "-", name], capture_output=True, check=False)
        if written.returncode == 0:
            count, size = info.components, info.width * info.height
            planes = [list(picture.samples[at * size : (at + 1) * size]) for at in range(count)]
            woven = [int(sample) for samples in zip(*planes) for sample in samples]
            differ(name, "samples", woven == samples_of(written.stdout), True)


def joined(program, names, sources):
    """The partial picture that the program makes of copies, each under its source."""
    with tempfile.TemporaryDirectory() as folder:
        parts = []
        for name, source in zip(names, sources):
            parts.append(os.path.join(folder, f"{len(parts)}.jlsp"))
            run(program, "join", "--source", str(source), parts[-1], name)
            if not os.path.exists(parts[-1]):
                return None
        out = os.path.join(folder, "out.jlsp")
        run(program, "join", out, *parts)
        if not os.path.exists(out):
            return None
        with open(out, "rb") as file:
            return file.read()


def content(name):
    with open(name, "rb") as file:
        return file.read()


def compare_joins(program, names):
    """Each file with the one after it: the library's partial picture is the program's, in both orders."""
    for first, second in zip(names, names[1:] + names[:1]):
        wanted = joined(program, (first, second), (1, 4000000000))
        try:
            parts = jls_salvage.partial(content(first), 1), jls_salvage.partial(content(second), 4000000000)
            found, turned = jls_salvage.join(*parts), jls_salvage.join(*reversed(parts))
        except jls_salvage.Unsupported:
            continue
        except (jls_salvage.NoPicture, jls_salvage.ShapesDiffer) as why:
            differ(f"{first} and {second}", f"{why}, and a partial picture", wanted is None, True)
            continue
        differ(f"{first} and {second}", "a join like the program's:", found == wanted, True)
        differ(f"{first} and {second}", "an order that doesn't matter:", turned == found, True)
        compare_lines(program, f"{first} and {second}", found)


def compare_lines(program, name, partial):
    """What the lines of a partial picture say against `show`."""
    with tempfile.NamedTemporaryFile(suffix=".jlsp") as file:
        file.write(partial)
        file.flush()
        report = run(program, "show", file.name)
    counts = [int(it) for it in re.search(r"^settled (\d+), missing (\d+), disputed (\d+)$", report, re.M).groups()]
    shown = jls_salvage.lines(partial)
    differ(name, "counts", [shown.info.settled, shown.info.missing, shown.info.disputed], counts)
    kinds = (jls_salvage.SETTLED, jls_salvage.MISSING, jls_salvage.DISPUTED)
    differ(name, "statuses", [list(shown.statuses).count(it) for it in kinds], counts)
    differ(name, "readings", [min(it, 2) for it in shown.readings], [int(it) for it in shown.statuses])
    several = [int(it) for it in re.findall(r"^disputed \d+ \d+ (\d+)$", report, re.M)]
    differ(name, "disputed readings", [it for it in shown.readings if it > 1], several)


def compare_writes(program, name):
    """What is read of a whole file is written again, interleaved or not, with and without restart markers: it reads alike, and is what the
    program writes."""
    try:
        picture = read(content(name))
    except jls_salvage.NoPicture:
        return
    info = picture.info
    if info.settled < info.lines:
        return
    for interval, interleaved in ((0, False), (3, True), (1, False)):
        sizes = info.width, info.height, info.components
        written = jls_salvage.write(picture.samples, info.precision, *sizes, restart_interval=interval, interleaved=interleaved)
        again = jls_salvage.read(written)
        differ(name, "written and read", list(again.samples) == list(picture.samples) and again.info.settled == info.lines, True)
        how = ["--ri", str(interval)] + (["--ilv", "line"] if interleaved and info.components > 1 else [])
        with tempfile.TemporaryDirectory() as folder:
            out = os.path.join(folder, "out.jls")
            run(program, "write", "--as", "jls", *how, out, name)
            differ(name, f"a file like that of the program's write {how}:", os.path.exists(out) and content(out) == written, True)


def rows():
    """Small partial pictures of 1x1: two readings, one under a source, and none."""
    head = bytes.fromhex("4A4C535002080001000101010000000100000000000000000000")
    one, other = head + bytes.fromhex("0100030000000000000001 00000007"), head + bytes.fromhex("010005 0000000000000000")
    both = head + bytes.fromhex("020003000000000000000100000007 00050000000000000000")
    differ("rows", "a join", jls_salvage.join(one, other, one).hex(), both.hex())
    shown = jls_salvage.lines(both)
    differ("rows", "lines", (list(shown.statuses), shown.readings, list(shown.samples)), ([jls_salvage.DISPUTED], [2], [0]))
    differ("rows", "a line", list(jls_salvage.lines(one).line(0, 0)), [3])
    for bytes_, fault, offset in ((both[:-1], "it ends too early", 50), (both + b"x", "bytes after the last line", 51), (b"x", None, 0)):
        try:
            jls_salvage.join(one, bytes_)
            print(f"{bytes_}: a partial picture")
        except jls_salvage.NoPartial as why:
            differ("rows", "fault", (str(why.fault), why.offset), (fault or "no partial picture, or of an unknown version", offset))
    try:
        jls_salvage.join(one, bytes.fromhex("4A4C5350010800010001020102 00000000"))
        print("a join of two shapes")
    except jls_salvage.ShapesDiffer:
        pass


BY_SAMPLE = "FFD8 FFF70011 0C 0002 0003 03 011100 021100 031100 FFDA000C 03 0100 0200 0300 00 02 00 1234"
GREY = "FFD8 FFF7000B 08 0002 0003 01 011100 FFDA0008 01 0100 00 00 00"


def headers():
    """What the headers say without scan data, and codings that aren't read."""
    told = jls_salvage.header(bytes.fromhex(GREY))
    differ("headers", "sizes", (told.width, told.height, told.components, told.precision), (3, 2, 1, 8))
    differ("headers", "coding", jls_salvage.header(bytes.fromhex(BY_SAMPLE)).coding, jls_salvage.Coding.BY_SAMPLE)
    for call in (lambda copy: jls_salvage.read(copy, strict=True), lambda copy: jls_salvage.partial(copy, 1, strict=True)):
        try:
            call(bytes.fromhex(BY_SAMPLE))
            print("headers: colour by sample is read strictly")
        except jls_salvage.Unsupported as why:
            differ("headers", "coding", (why.coding, why.offset), (jls_salvage.Coding.BY_SAMPLE, 21))


def buffers(name):
    """The same of each kind of buffer, and a path is refused."""
    copy = content(name)
    wanted = jls_salvage.check(copy)
    with open(name, "rb") as file, mmap.mmap(file.fileno(), 0, access=mmap.ACCESS_READ) as mapped:
        every_other = memoryview(bytes(byte for pair in zip(copy, copy) for byte in pair))[::2]
        for buffer in (bytearray(copy), memoryview(copy), memoryview(bytearray(copy)), array.array("B", copy), mapped, every_other):
            differ(name, f"of a buffer that is {type(buffer).__name__}:", jls_salvage.check(buffer), wanted)
    differ(name, "as a file", str(jls_salvage.read_file(name).info if wanted.coding == 0 else wanted), str(replaced(wanted)))
    try:
        jls_salvage.read(name)
        print("a path is read as bytes")
    except TypeError as why:
        differ("a path", "refusal", "read_file" in str(why), True)


def replaced(info):
    """Without pieces, as `read` tells it."""
    return info if info.coding else dataclasses.replace(info, pieces=())


def not_written():
    """Lines that are lost, and numbers that are none of samples, are never written."""
    cut = bytes.fromhex(GREY) + b"\x80"
    lost = read(cut)
    calls = [lambda: jls_salvage.write(lost, 8)] if lost.info.settled < lost.info.lines else []
    try:
        import numpy
    except ImportError:
        numpy = None
    if numpy is not None:
        arrays = [numpy.ones((2, 2)), numpy.full((2, 2), 1j), numpy.full((2, 2), numpy.nan)]
        arrays += [numpy.ones((2, 2), bool), -numpy.ones((2, 2), int)]
        arrays += [numpy.full((2, 2), 256), numpy.zeros((2, 2, 5), int), numpy.zeros((1, 2, 2, 2), int), lost.array()]
        arrays += [numpy.ma.masked_array(numpy.ones((2, 2), int), [[0, 1], [0, 0]])]
        calls += [lambda it=it: jls_salvage.write(it, 8) for it in arrays]
    for number, call in enumerate(calls):
        try:
            call()
            print(f"not_written: number {number} is written")
        except jls_salvage.NotWritable:
            pass


def refusals():
    for bytes_, fault in ((b"", "the input ends too early"), (b"nonsense", "no start of image"), (b"\xff\xd8\xff\xd9", "no frame")):
        try:
            jls_salvage.read(bytes_)
            print(f"{bytes_}: a picture")
        except jls_salvage.NoPicture as why:
            differ(bytes_, "fault", str(why.fault), fault)


def main():
    program, *names = sys.argv[1:]
    for name in names:
        compare(program, name)
        compare_writes(program, name)
    compare_joins(program, names)
    rows()
    headers()
    buffers(names[0])
    not_written()
    refusals()


if __name__ == "__main__":
    main()
