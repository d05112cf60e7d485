"""tests/library_mend.py PROGRAM FOLDER: does `mend` of the Python package give what jls-splice gives? FOLDER is that of the examples.

PROGRAM is jls-splice. It is called by hand on the same copies: lines, partial picture and files have to be the same. Pictures that were
made and damaged here come back as they were. The rare lines, and ends of the program, come from programs that stand in for it. Each call
takes its files away. It prints each difference.
"""
from __future__ import annotations

import array
import os
import random
import re
import signal
import subprocess
import sys
import tempfile
import threading
import time
from typing import Any, Callable, Optional, Sequence

import jls_salvage
from jls_salvage import Differ, Edit, Fault, Mended, Promise

GROUPS = 24
differing: list[str] = []


def differ(what: str, found: object, wanted: object) -> None:
    if found != wanted:
        differing.append(what)
        print(f"{what}: {found!r:.200}, and {wanted!r:.200} is wanted")


def raised(call: Callable[[], object]) -> object:
    """What a call raises: its type and its words; or None."""
    try:
        call()
    except Exception as why:  # any: its type is what is looked at
        return type(why), str(why)
    return None


def kind(found: object) -> object:
    """The type alone of what was raised."""
    return found[0] if isinstance(found, tuple) else found


def content(folder: str, name: str) -> Optional[bytes]:
    path = os.path.join(folder, name)
    if not os.path.exists(path):
        return None
    with open(path, "rb") as file:
        return file.read()


def by_hand(program: str, copies: Sequence[bytes], words: Sequence[str], bad: Sequence[tuple[int, bytes]] = (),
            ) -> tuple[int, str, object, object, list[bytes]]:  # fmt: skip
    """What the program gives: its status, what it prints, OUT, the single file and all files."""
    with tempfile.TemporaryDirectory() as folder:
        names = [f"copy{number}" for number in range(len(copies))]
        lists = [f"places{number}" for number in range(len(bad))]
        for name, copy in zip([*names, *lists], [*copies, *(text for _, text in bad)]):
            with open(os.path.join(folder, name), "wb") as file:
                file.write(copy)
        words = [*words, *(word for name, (copy, _) in zip(lists, bad) for word in ("--bad", f"{copy + 1}:{name}"))]
        ran = subprocess.run([program, "--file", "one", "--files", "all", *words, "o", *names], cwd=folder, capture_output=True, text=True)
        files = (content(folder, f"all-{number}") for number in range(1, 65))
        return ran.returncode, ran.stdout, content(folder, "o"), content(folder, "one"), [file for file in files if file is not None]


def lines_of(mended: Mended) -> list[str]:
    """The lines of places, codings and copies that the values stand for."""
    found = [f"differ {offset} {length}" for offset, length in mended.differs]
    found += [f"differ more {mended.more_differs}"] * (mended.more_differs > 0)
    found += [f"splices {mended.splices}"]
    found += [f"coding {at}, copies {' '.join(str(copy + 1) for copy in copies)}" for at, copies in enumerate(mended.codings, 1)]
    found += [f"copy {copy + 1} left out" for copy in mended.left_out]
    found += [f"copy {copy + 1} agrees with no other" for copy in mended.strangers]
    found += [f"copy {edit.copy + 1} differs {edit.offset} {edit.length} {edit.new}" for edit in mended.edits]
    return found + [f"promise picture if {mended.premise}" if mended.is_promised else "promise lines"]


def same(name: str, program: str, copies: Sequence[bytes], words: Sequence[str] = (), **options: Any) -> Mended:
    """What `mend` gives, after a comparison with the program."""
    mended = jls_salvage.mend(copies, **options)
    status, printed, partial, single, files = by_hand(program, copies, words, options.get("bad", ()))
    differ(f"{name}: lines", mended.printed, printed)
    differ(f"{name}: partial picture, file and files", (mended.partial, mended.file, list(mended.files)), (partial, single, files))
    differ(f"{name}: promise", mended.is_promised, status == 0)
    kinds = ("differ ", "splices ", "coding ", "copy ", "promise ")
    differ(f"{name}: values", sorted(lines_of(mended)), sorted(line for line in printed.splitlines() if line.startswith(kinds)))
    info = mended.picture.info
    counts = f"\nsettled {info.settled}, missing {info.missing}, disputed {info.disputed}\n"
    differ(f"{name}: counts", counts in printed, True)
    return mended


def made(chance: random.Random) -> tuple[bytes, list[int]]:
    """A file and its samples: a slope with noise."""
    width, height = chance.randrange(8, 60), chance.randrange(8, 60)
    precision, components = chance.choice((8, 12, 16)), chance.choice((1, 3))
    most = 2**precision - 1
    places = [(x, y) for _ in range(components) for y in range(height) for x in range(width)]
    samples = [min(most, (x + y) * most // 160 + chance.randrange(1 + most // 60)) for x, y in places]
    interleaved, interval = components > 1 and chance.random() < 0.5, chance.choice((0, 0, 5))
    file = jls_salvage.write(samples, precision, width, height, components, interleaved=interleaved, restart_interval=interval)
    return file, samples


def groups(program: str) -> None:
    """Copies that are damaged at places of their own: where the picture is promised, it is the true one."""
    chance, promised = random.Random(7), 0
    for number in range(GROUPS):
        true, samples = made(chance)
        begin = true.index(b"\xff\xda") + 20
        copies = []
        for part in range(number % 2 + 2):
            at, copy = begin + part * (len(true) - begin) // 4 + chance.randrange(4), bytearray(true)
            copy[at : at + 6] = bytes(6) if number % 3 else chance.randbytes(6)
            copies.append(bytes(copy))
        mended = same(f"group {number}", program, copies)
        promised += mended.promise == Promise.PICTURE
        if mended.is_promised:
            differ(f"group {number}: the true file", mended.file == true, True)
            differ(f"group {number}: the true picture", list(mended.picture.samples) == samples, True)
    differ("half of the groups are promised", promised * 2 >= GROUPS, True)


def examples(program: str, folder: str) -> None:
    """Those of docs/GUIDE.md, with the values that stand there."""
    def pair(name: str) -> list[bytes]:
        return [content(folder, f"{name}{which}.jls") or b"" for which in ("first", "second")]

    plain = same("plain", program, pair("plain-"))
    differ("plain: places", list(plain.differs), [Differ(60, 8), Differ(120, 8)])
    differ("plain: splices and promise", (plain.splices, plain.promise), (1, Promise.PICTURE))
    coded = same("coded", program, pair("coded-"))
    differ("coded: codings", (list(coded.codings), coded.promise), ([[0], [1]], Promise.PICTURE_OF_CODINGS))
    differ("coded: edits", list(coded.edits), [Edit(0, 4096, 512, 512), Edit(1, 10240, 512, 512)])
    differ("coded: files", (coded.file == coded.files[0], len(coded.files)), (True, 2))
    for way in (array.array("B", pair("plain-")[0]), bytearray(pair("plain-")[0]), memoryview(pair("plain-")[0][::-1])[::-1]):
        differ(f"a copy of {type(way).__name__}", jls_salvage.mend((way, pair("plain-")[1])) == plain, True)
    words = ["--max", "255", "--tries", "9", "--source", "3"]
    same("options", program, pair("plain-"), words, max_sample=255, tries=9, source=3)
    same("few tries", program, [*pair("coded-"), *pair("head-")], ["--tries", "1"], tries=1)
    without_eoi = [copy[:-2] for copy in pair("plain-")]
    differ("EOI is added", same("without EOI", program, without_eoi).is_eoi_added, True)
    found: list[object] = []
    running = [threading.Thread(target=lambda: found.append(jls_salvage.mend(pair("plain-")) == plain)) for _ in range(4)]
    for each in running:
        each.start()
    for each in running:
        each.join()
    differ("four threads", found, [True] * 4)


def bad_places(program: str) -> None:
    """Lists of bad places: what a search of one try doesn't mend, they do. One copy with a list is enough."""
    chance = random.Random(9)
    for number in range(GROUPS // 3):
        true, samples = made(chance)
        begin = true.index(b"\xff\xda") + 20
        copies, lists = [], []
        for part in range(2):
            places = [begin + (4 * at + 2 * part) * (len(true) - begin - 8) // 16 for at in range(4)]
            copy = bytearray(true)
            for place in places:
                copy[place : place + 3] = bytes(3) if number % 2 else chance.randbytes(3)
            copies.append(bytes(copy))
            lists.append((part, "".join(f"{place} 3\n" for place in places).encode()))
        one_try = ["--tries", "1"]
        differ(f"bad places {number}: one try", same(f"bad places {number}, none", program, copies, one_try, tries=1).is_promised, False)
        mended = same(f"bad places {number}", program, copies, one_try, tries=1, bad=lists[:: 1 - 2 * (number % 2)])
        differ(f"bad places {number}: promise", mended.promise, Promise.PICTURE)
        differ(f"bad places {number}: the true file", (mended.file == true, list(mended.picture.samples) == samples), (True, True))
        same(f"bad places {number}, one copy", program, copies[1:], bad=[(0, lists[1][1])])
        view = memoryview(bytearray(lists[0][1]))
        same(f"bad places {number}, of the first copy", program, copies, bad=[(0, view)])
    whole = jls_salvage.write([1] * 4, 8, 2, 2)
    differ("one copy, and nothing bad", same("one copy", program, [whole], bad=[(0, b"")]).file == whole, True)
    for what, bad, wanted in (
        ("a list that is none", [(0, b"# none\n"), (0, b"1 1\nat 3\n")],
         (jls_salvage.NotMendable, "list 1: is no list of bad places, by line 2")),
        ("a partial picture as a list", [(0, b"JLSP")], (jls_salvage.NotMendable, "list 0: is a partial picture")),
        ("a list of no copy", [(1, b"")], (ValueError, "a list of bad places is of copy 1, and there are 1")),
        ("a list of copy -1", [(-1, b"")], (ValueError, "a list of bad places is of copy -1, and there are 1")),
    ):  # fmt: skip
        differ(what, raised(lambda: jls_salvage.mend([whole], bad=bad)), wanted)
    name: Any = "map"
    differ("a name as a list", kind(raised(lambda: jls_salvage.mend([whole], bad=[(0, name)]))), TypeError)
    differ("no list", kind(raised(lambda: jls_salvage.mend([whole], bad=[]))), ValueError)
    differ("a list without a copy", kind(raised(lambda: jls_salvage.mend([], bad=[(0, b"")]))), ValueError)


def witnesses() -> None:
    """A witness's lines stand in the mended file, and in nothing else."""
    chance = random.Random(11)
    true, samples = made(chance)
    info = jls_salvage.read(true).info
    other = jls_salvage.write(samples, info.precision, info.width, info.height, info.components, restart_interval=1)
    begin = true.index(b"\xff\xda") + 20
    at = begin + (len(true) - begin) // 2
    damaged = true[:at] + bytes(6) + true[at + 6 :]
    mended = jls_salvage.mend([damaged], witnesses=[memoryview(other)])
    differ("a witness: the mended file", list(mended.files), [true])
    differ("a witness: nothing is promised", (mended.is_promised, mended.file, list(mended.codings)), (False, None, [[0]]))
    differ("a witness: edits are where bytes were lost", all(at <= edit.offset < at + 6 for edit in mended.edits), True)
    differ("a witness: no line behind the damage", mended.picture.info.settled < mended.picture.info.lines, True)
    name: Any = "file"
    differ("a name as a witness", kind(raised(lambda: jls_salvage.mend([true], witnesses=[name]))), TypeError)
    differ("names as witnesses", kind(raised(lambda: jls_salvage.mend([true], witnesses=name))), TypeError)
    partial = jls_salvage.partial(true, 1)
    wanted = (jls_salvage.NotMendable, "witness 0: is a partial picture")
    differ("a partial picture as a witness", raised(lambda: jls_salvage.mend([true], witnesses=[partial])), wanted)
    differ("an undamaged copy", jls_salvage.mend([true], witnesses=[b""]).file == true, True)


def codings(program: str) -> None:
    """A coding that isn't read is refused where all copies say it. Where one alone says it, the other mends it."""
    true = jls_salvage.write(list(range(60)), 8, 10, 6)
    scan = true.index(b"\xff\xda")

    def copy(**changes: int) -> bytes:
        """The file with another NEAR or interleave mode, or another byte of its code."""
        data, places = bytearray(true), {"near": scan + 7, "interleave": scan + 8, "code": scan + 20}
        for name, value in changes.items():
            data[places[name]] = value
        return bytes(data)

    for coding, name in ((jls_salvage.Coding.NEAR_LOSSLESS, "near"), (jls_salvage.Coding.BY_SAMPLE, "interleave")):
        try:
            jls_salvage.mend([copy(**{name: 2}), copy(**{name: 2}, code=7)])
            differ(f"{coding} in both copies", "mended", "Unsupported")
        except jls_salvage.Unsupported as why:
            differ(f"{coding} in both copies", (why.coding, why.offset), (coding, scan))
    one = same("two codings that aren't read", program, [copy(near=2), copy(interleave=2)])
    differ("the true file of two codings", one.file == true, True)
    headers = scan + 11  # and a byte or two of the code
    for what, copies in {
        "two codings, and no code": [copy(near=2)[:headers], copy(interleave=2)[: headers + 1]],
        "no code": [true[:headers], true[: headers + 1]],
    }.items():
        none = same(what, program, copies)
        differ(f"{what}: lines", (none.promise, none.picture.info.missing), (Promise.LINES, 6))
    differ("a copy of a coding that isn't read", same("one coding", program, [copy(near=2), copy(code=9)]).file == true, True)


def helped() -> None:
    """`help` names each value of what comes of copies, and each promise."""
    for names, where in ((Mended.__dataclass_fields__, Mended), (Promise.__members__, Promise)):
        differ(f"help({where.__name__})", set(names) - set(re.findall(r"\w+", where.__doc__ or "")), set())


def refusals() -> None:
    one, flat = jls_salvage.write([1] * 4, 8, 2, 2), jls_salvage.write([1] * 4, 8, 4, 1)
    name: Any = "first.jls"
    number: Any = 5
    half: Any = 0.5
    calls: dict[str, tuple[Callable[[], object], object]] = {
        "no picture": (lambda: jls_salvage.mend([b"", b"x"]), jls_salvage.NoPicture),
        "other shapes": (lambda: jls_salvage.mend([one, flat]), jls_salvage.ShapesDiffer),
        "a partial picture": (lambda: jls_salvage.mend([one, jls_salvage.partial(one, 1)]), jls_salvage.NotMendable),
        "one copy": (lambda: jls_salvage.mend([one]), ValueError),
        "no copy": (lambda: jls_salvage.mend([]), ValueError),
        "bytes": (lambda: jls_salvage.mend(one), TypeError),
        "a name": (lambda: jls_salvage.mend(name), TypeError),
        "names": (lambda: jls_salvage.mend([name, name]), TypeError),
        "numbers": (lambda: jls_salvage.mend([number, number]), TypeError),
        "0 tries": (lambda: jls_salvage.mend([one, one], tries=0), ValueError),
        "a large sample": (lambda: jls_salvage.mend([one, one], max_sample=65536), ValueError),
        "half a source": (lambda: jls_salvage.mend([one, one], source=half), TypeError),
    }
    for what, (call, wanted) in calls.items():
        differ(what, kind(raised(call)), wanted)
    try:
        jls_salvage.mend([b"", b"x"])
    except jls_salvage.NoPicture as why:
        differ("the fault of no picture", (why.fault, why.offset), (Fault.ENDED, 0))
    differ("the copy that is none", "copy 1" in str(raised(lambda: jls_salvage.mend([one, jls_salvage.partial(one, 1)]))), True)


RARE = """differ 10 2
differ more 77
splices 3
tries used up
limit 362
by groups 2, tries used up
before 120, samples up to 362
coding 1, copies 1 3
coding 2, copies 2
copy 4 left out
copy 5 agrees with no other
copy 1 differs 7 0 9
copy 1 differs more 12
copy 3 differs more 30
a line of a later version
files 2
no single file
promise picture if the true file has what one copy has at each differ, and what all have elsewhere and samples are up to 362
"""


class StandIns:
    """Programs in the place of jls-splice, which mend no copies."""

    def __init__(self, place: str, copies: Sequence[bytes]) -> None:
        self.place, self.copies, self.number = place, copies, 0
        with open(os.path.join(place, "lines"), "wb") as out:
            out.write(jls_salvage.partial(jls_salvage.write([1] * 4, 8, 2, 2), 1))

    def put(self, text: str, version: str = "9.0.0") -> None:
        """Puts a script that does this in the program's place. Before that LINES becomes a command that writes the lines of OUT."""
        self.number += 1
        path = os.path.join(self.place, f"program{self.number}")
        text = text.replace("LINES", f"cp '{self.place}/lines' out.jlsp")
        with open(path, "w") as file:
            file.write(f"#!/bin/sh\n[ \"$1\" != --version ] || exec echo jls-splice {version}\n{text}\n")
        os.chmod(path, 0o755)
        os.environ["JLS_SPLICE"] = path

    def call(self, text: str, version: str = "9.0.0", timeout: float = 60) -> Mended:
        """What `mend` makes of such a script."""
        self.put(text, version)
        return jls_salvage.mend(self.copies, timeout=timeout)


def rare_lines(programs: StandIns) -> None:
    rare = programs.call(f"LINES\ncat << 'END'\n{RARE}END")
    differ("rare lines: counts", (rare.differs, rare.more_differs, rare.splices), ([Differ(10, 2)], 77, 3))
    differ("rare lines: search", (rare.is_cut_off, rare.limit, rare.before), (True, 362, 120))
    differ("rare lines: copies", (rare.codings, rare.left_out, rare.strangers), ([[0, 2], [1]], [3], [4]))
    differ("rare lines: edits", (rare.edits, rare.more_edits), ([Edit(0, 7, 0, 9)], 42))
    differ("rare lines: promise", (rare.promise, rare.premise.endswith("up to 362")), (Promise.PICTURE, True))
    differ("rare lines: files", (rare.file, rare.files, list(rare.picture.samples)), (None, [], [1] * 4))


def ends(programs: StandIns) -> None:
    """How a program can end: badly, too late, or not begin."""
    of_text: dict[str, tuple[str, object]] = {
        "no promise": ("LINES; echo splices 1", jls_salvage.Error),
        "a premise of a later version": ("LINES; echo promise picture if it is well", jls_salvage.Error),
        "a promise beside status 1": ("LINES; echo promise picture if the true file has it; exit 1", jls_salvage.Error),
        "none beside status 0": ("LINES; echo promise lines", jls_salvage.Error),
        "no file of lines": ("echo promise lines", jls_salvage.Error),
        "a full disk": ("echo 'jls-splice: out.jlsp: cannot be written' >&2; exit 4", OSError),
        "no memory": ("exit 5", MemoryError),
        "a status that isn't known": ("LINES; echo promise lines; exit 77", jls_salvage.Error),
        "a signal": ("kill -9 $$", jls_salvage.Error),
    }
    for what, (text, wanted) in of_text.items():
        differ(what, kind(raised(lambda: programs.call(text))), wanted)
    differ("an older program", kind(raised(lambda: programs.call("exit 0", "1.1.9"))), jls_salvage.MissingProgram)
    begun = time.monotonic()
    differ("a slow program", kind(raised(lambda: programs.call("exec sleep 60", timeout=0.3))), TimeoutError)
    differ("a slow program is stopped", time.monotonic() - begun < 30, True)
    with open(os.path.join(programs.place, "of another processor"), "wb") as file:
        file.write(b"\x7fELF")
        os.fchmod(file.fileno(), 0o755)
    for name in ("none", "lines", "of another processor"):
        os.environ["JLS_SPLICE"] = os.path.join(programs.place, name)
        found = raised(lambda: jls_salvage.mend(programs.copies))
        differ(f"no program: {name}", kind(found), jls_salvage.MissingProgram)
        if name == "none":
            differ("its variable is named", "JLS_SPLICE can name jls-splice" in str(found), True)


INTERRUPTED = """import os, signal, subprocess, time, jls_salvage
os.mkdir("folder")
os.environ["TMPDIR"] = os.path.abspath("folder")
signal.signal(signal.SIGINT, signal.default_int_handler)
"""
CALL = 'jls_salvage.mend([b"one", b"other"])\n'
#: Ctrl-C comes when the program runs, and Popen doesn't know of it yet.
EARLY = """own = subprocess.Popen._execute_child
def begin(self, words, *rest, **named):
    own(self, words, *rest, **named)
    while "--version" not in words and not os.path.exists("number"):
        time.sleep(0.01)
    if "--version" not in words:
        os.kill(os.getpid(), signal.SIGINT)
subprocess.Popen._execute_child = begin
"""


def is_running(number: int) -> bool:
    """Whether a process runs: one that has ended may not be taken away yet."""
    try:
        with open(f"/proc/{number}/stat") as file:
            return file.read().rpartition(")")[2].split()[0] not in "ZX"
    except FileNotFoundError:
        return False


def interrupted(what: str, programs: StandIns, text: str, times: int, before: str = "") -> None:
    """Ctrl-C, of which only Python hears, ends a call and its program, and takes the folder away."""
    words = [sys.executable, "-c", INTERRUPTED + before + CALL]
    number, folder = (os.path.join(programs.place, name) for name in ("number", "folder"))
    programs.put(f"echo $$ > '{number}-'; mv '{number}-' '{number}'; {text}")
    with subprocess.Popen(words, cwd=programs.place, stderr=subprocess.PIPE, text=True) as calling:
        begun = time.monotonic()
        while not os.path.exists(number) and calling.poll() is None and time.monotonic() - begun < 60:
            time.sleep(0.02)
        begun = time.monotonic()
        for _ in range(times):
            calling.send_signal(signal.SIGINT)
            time.sleep(1)
        told = calling.communicate(timeout=60)[1]
    differ(f"{what}: an end at once", time.monotonic() - begun < 9, True)
    differ(f"{what}: an end by it", (calling.returncode, told.rstrip().rpartition("\n")[2]), (-signal.SIGINT, "KeyboardInterrupt"))
    with open(number) as file:
        differ(f"{what}: the program runs", is_running(int(file.read())), False)
    differ(f"{what}: what is left", os.listdir(folder), [])
    os.remove(number)
    os.rmdir(folder)


def stand_ins(folder: str) -> None:
    own = dict(os.environ)
    with tempfile.TemporaryDirectory() as place:
        programs = StandIns(place, [content(folder, f"plain-{which}.jls") or b"" for which in ("first", "second")])
        rare_lines(programs)
        interrupted("Ctrl-C", programs, "exec sleep 60", 1)
        interrupted("Ctrl-C at the beginning", programs, "exec sleep 60", 0, EARLY)
        interrupted("Ctrl-C twice", programs, "trap '' TERM; while :; do sleep 0.1; done", 2)
        ends(programs)
    os.environ.clear()
    os.environ.update(own)


def main() -> int:
    program, folder = (os.path.abspath(word) for word in sys.argv[1:])
    with tempfile.TemporaryDirectory() as place:
        tempfile.tempdir = place
        groups(program)
        examples(program, folder)
        refusals()
        codings(program)
        bad_places(program)
        witnesses()
        helped()
        stand_ins(folder)
        differ("files that are left behind", os.listdir(place), [])
        tempfile.tempdir = None
    return 1 if differing else 0


if __name__ == "__main__":
    sys.exit(main())
