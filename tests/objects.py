"""The objects in dist/: which crates each program is made of, whether dist/ is of these sources, and how the toolchain makes an object.

An object is a whole program as the toolchain compiles it. dist/SOURCES names what the objects are made of: the line of the toolchain, and
for each program the sum of src, specs and proofs of its crates. That sum is of the lines that sha256sum prints for these files, in the
order of their names.
"""
from __future__ import annotations

import glob
import gzip
import hashlib
import os
import re
import shutil
import subprocess
import sys
from collections.abc import Sequence
from typing import Optional

TOP = os.path.dirname(os.path.dirname(os.path.realpath(__file__)))
PROGRAMS = ("jls-salvage", "jls-splice")
LIBRARY = "libjls_salvage"  # for C: its crate is a static library
LIBRARY_CRATE = "jls_c"
PROCESSORS = ("x86_64", "aarch64")
PARTS = ("src", "specs", "proofs")
VERSION = re.compile(r'const VERSION: &str = "[0-9.]+ \((.*)\)"')


class Missing(Exception):
    """What is not there, in a line."""


def path(*names: str) -> str:
    return os.path.join(TOP, *names)


def content(name: str) -> bytes:
    with open(name, "rb") as file:
        return file.read()


# The crates ------------------------------------------------------------------


def libraries() -> dict[str, list[str]]:
    """Each crate of crates.txt, with the libraries that it names."""
    found = {}
    with open(path("crates.txt"), encoding="utf-8") as file:
        for line in file:
            name, colon, names = line.partition("#")[0].partition(":")
            if colon:
                found[name.split()[0]] = names.split()
    return found


def made() -> tuple[str, ...]:
    """What dist/ has objects of: the programs, and the library if crates.txt lists its crate."""
    return (*PROGRAMS, LIBRARY) if LIBRARY_CRATE in libraries() else PROGRAMS


def crate_of(program: str) -> str:
    """The crate of a program has its name. That of the library is its own."""
    return LIBRARY_CRATE if program == LIBRARY else program.replace("-", "_")


def crates_of(crate: str) -> list[str]:
    """The crates that a crate depends on, each after those below it, and the crate itself at the end."""
    named = libraries()
    order: list[str] = []

    def add(name: str) -> None:
        for low in named[name]:
            if low in named and low not in order:
                add(low)
        if name not in order:
            order.append(name)

    add(crate)
    return order


def of_toolchain(crates: Sequence[str]) -> list[str]:
    """The libraries of the toolchain that these crates name."""
    named = libraries()
    return sorted({low for crate in crates for low in named[crate] if low not in named})


def files_of(crates: Sequence[str]) -> list[str]:
    """The files that these crates are made of, from the top, in the order of their names."""
    found: list[str] = []
    for crate in crates:
        for part in PARTS:
            for folder, _, names in os.walk(path("crates", crate, part)):
                found += [os.path.relpath(os.path.join(folder, name), TOP) for name in names]
    return sorted(found)


def sum_of(program: str) -> tuple[str, int, int]:
    """The sum of the sources of a program, with how many crates and files there are."""
    crates = crates_of(crate_of(program))
    files = files_of(crates)
    lines = [f"{hashlib.sha256(content(path(file))).hexdigest()}  {file}\n" for file in files]
    return hashlib.sha256("".join(lines).encode()).hexdigest(), len(crates), len(files)


# What dist/ was made of ------------------------------------------------------


def toolchain() -> Optional[str]:
    """The line of the toolchain, or None if there is none."""
    try:
        return subprocess.run(["rt", "version"], capture_output=True, text=True, check=True).stdout.strip()
    except OSError:
        return None


def sources() -> str:
    """What dist/SOURCES says if dist/ is made of these sources by this toolchain."""
    lines = [f"toolchain  {toolchain()}\n"]
    for program in made():
        total, crates, files = sum_of(program)
        lines.append(f"{program}  {total}  {files} files of {crates} crates\n")
    return "".join(lines)


def told() -> list[str]:
    """The lines of a toolchain that `--version` of the programs tells, by their sources. There is one."""
    sources = (content(name).decode() for name in glob.glob(path("crates", "*", "src", "*.rt")))
    return [line for source in sources for line in VERSION.findall(source)]


def said() -> dict[str, str]:
    """What dist/SOURCES says: the line of the toolchain, and the sum of each program's sources."""
    rows: dict[str, str] = {}
    if os.path.exists(path("dist", "SOURCES")):
        with open(path("dist", "SOURCES"), encoding="utf-8") as file:
            for line in file:
                name, total = line.rstrip("\n").split("  ")[:2]
                rows[name] = total
    return rows


def newer(names: Sequence[str] = PROGRAMS) -> list[str]:
    """What is newer than dist/, in words: the sources of one of these, or the toolchain. Without a toolchain only sources are compared."""
    rows, here = said(), toolchain()
    found = [f"the sources of {program}" for program in names if rows.get(program) != sum_of(program)[0]]
    return found + (["the toolchain"] if here and rows.get("toolchain") != here else [])


def is_made_after(made: str, crate: str) -> bool:
    """Whether a file or folder is there, and was made after each source of a crate and of those below it."""
    if not os.path.exists(made):
        return False
    files = [path("crates.txt"), *(path(file) for file in files_of(crates_of(crate)))]
    return all(os.stat(file).st_mtime_ns <= os.stat(made).st_mtime_ns for file in files)


def proved(crate: str, end: str = "") -> Optional[str]:
    """The program of a crate as the proof left it, or with the end ".o" its object. None if it is not there or older than a source."""
    found = path("crates", crate, "out", crate + end)
    return found if is_made_after(found, crate) else None


def member_of(archive: str) -> bytes:
    """The object in an archive of one object, as that of a static library is."""
    data, at = content(archive), 8
    found: list[bytes] = []
    while at + 60 <= len(data):
        name, size = data[at : at + 16], int(data[at + 48 : at + 58])
        if not name.startswith((b"/ ", b"// ", b"/SYM64/")):
            found.append(data[at + 60 : at + 60 + size])
        at += 60 + size + size % 2
    if len(found) != 1:
        raise Missing(f"{archive} has {len(found)} objects, and not one")
    return found[0]


def packed(processor: str, program: str) -> str:
    return path("dist", processor, f"{program}.o.gz")


def unpacked(processor: str, program: str) -> bytes:
    """The object of a program in dist/."""
    with gzip.open(packed(processor, program)) as file:
        return file.read()


# Making them -----------------------------------------------------------------


def kit() -> str:
    """The folder of the toolchain."""
    try:
        page = subprocess.run(["rt", "doc"], capture_output=True, text=True, check=True).stdout.strip()
    except OSError:
        raise Missing("the command rt of the Rattle toolchain is not on the PATH") from None
    return os.path.dirname(page)


def rlib(crate: str) -> str:
    return path("crates", crate, "out", "rlib", f"{crate}.rlib")


def lacks_libraries(crate: str) -> bool:
    """Whether a library below a crate is not built, or older than a source."""
    return not all(is_made_after(rlib(low), low) for low in crates_of(crate)[:-1])


def words(crate: str, processor: str, to: str) -> list[str]:
    """The toolchain's command that proves a crate over the libraries as they were built, and makes its object, or the library's archive."""
    home, named, below = kit(), libraries(), crates_of(crate)[:-1]
    kind = ["src/lib.rt", "--crate-type", "staticlib"] if crate == LIBRARY_CRATE else ["src/main.rt"]
    found = [f"{home}/bin/rattle", "build", "--crate-name", crate, *kind]
    for name in ["std", *(low for low in named[crate] if low not in named)]:
        found += ["--extern", f"{name}={home}/rlibs/{name}.rlib"]
    found += ["-L", f"dependency={home}/rlibs"]
    for name in (low for low in named[crate] if low in named):
        found += ["--extern", f"{name}={rlib(name)}"]
    for name in below:
        found += ["-L", f"dependency={os.path.dirname(rlib(name))}"]
    found += ["--antt-project", f"{home}/rattle/logic/antt-project.json", "--logic-built", f"{home}/logic_built", "--jobs", "2"]
    return found + ["--links", f"{crate}=", "--target", f"{processor}-unknown-linux-gnu", "--toolchain", f"{home}/toolchain", "-o", to]


def make_object(program: str, processor: str, to: str) -> None:
    """Makes the object of a program or of the library for a processor. The libraries below have to be built."""
    crate = crate_of(program)
    ran = subprocess.run(words(crate, processor, to), cwd=path("crates", crate), capture_output=True, text=True, errors="replace")
    if ran.returncode:
        raise Missing(f"{program} for {processor} could not be built: {(ran.stdout + ran.stderr).strip()[-1500:]}")
    if crate == LIBRARY_CRATE:
        inside = member_of(to)
        with open(to, "wb") as file:
            file.write(inside)


def link(made: str, to: str) -> None:
    """Links an object for x86-64 as the toolchain links its own programs."""
    home = kit()
    command = [f"{home}/bin/rattle-link", "--target", "x86_64-unknown-linux-gnu", "--toolchain", f"{home}/toolchain", "-o", to, made]
    subprocess.run([*command, f"{home}/c/libos_c.a", f"{home}/c/liblibc_c.a"], capture_output=True, check=True)


# What the tests run ----------------------------------------------------------


def tested(name: str) -> str:
    """The program of this name that the tests run, as tests/program says."""
    named = os.environ.get(name.upper().replace("-", "_"))
    if named:
        return os.path.abspath(named)
    what_is_newer = newer()
    if not what_is_newer and shutil.which(os.environ.get("CC", "cc").split()[0]):
        subprocess.run(["make", "--silent", "-C", TOP, f"bin/{name}"], stdout=sys.stderr, check=True)
        return path("bin", name)
    found = proved(crate_of(name))
    if not found:
        why = f"{' and '.join(what_is_newer)} are newer than dist/" if what_is_newer else "there is no C compiler"
        raise Missing(f"{why}, and the proof left no program: call make proved")
    return found


def program(name: str) -> str:
    """The same, for a script that can't do without."""
    try:
        return tested(name)
    except (Missing, subprocess.CalledProcessError) as why:
        sys.exit(f"{name}: {why}")
