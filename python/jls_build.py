"""Makes wheels of the package jls_salvage, without any other package: pip calls it as pyproject.toml says, and `make wheel` by hand.

    python3 python/jls_build.py FOLDER [LIBRARY [PROGRAM]]

writes a wheel into FOLDER. LIBRARY is libjls_salvage.so and PROGRAM jls-splice, which then are in the wheel: its name says for which
processor and from which glibc on (PEP 600). The same files give the same bytes.
"""
from __future__ import annotations

import base64
import hashlib
import io
import os
import re
import sys
import tarfile
import zipfile
from typing import Any, Iterator

HERE = os.path.dirname(os.path.abspath(__file__))
PACKAGE = "jls_salvage"
PROGRAM = f"{PACKAGE}/jls-splice"
LICENCES = ("LICENSE", "dist/NOTICES")
DATE = (2026, 1, 1, 0, 0, 0)
# e_machine of ELF: the processor, and the first glibc whose wheels pip knows there
MACHINES = {0x3E: ("x86_64", (2, 5)), 0xB7: ("aarch64", (2, 17))}


class Refused(Exception):
    """What can't be put into a wheel, in a line."""


def content(path: str) -> bytes:
    with open(path, "rb") as file:
        return file.read()


def field(name: str) -> str:
    """What pyproject.toml says of the project."""
    found = re.search(rf'^{name} = "(.*)"$', content(os.path.join(HERE, "pyproject.toml")).decode(), re.M)
    if not found:
        raise Refused(f"pyproject.toml has no {name}")
    return found.group(1)


def metadata() -> bytes:
    lines = ["Metadata-Version: 2.1", f"Name: {field('name')}", f"Version: {field('version')}", f"Summary: {field('description')}"]
    return "\n".join([*lines, "License: MIT", f"Requires-Python: {field('requires-python')}", ""]).encode()


def machine_of(what: str, binary: bytes) -> int:
    """The processor of a library or program, by its number."""
    machine = int.from_bytes(binary[18:20], "little")
    if binary[:6] != b"\x7fELF\x02\x01" or machine not in MACHINES:
        raise Refused(f"the {what} is no ELF file of x86-64 or aarch64")
    return machine


def platform_of(library: bytes, program: bytes | None) -> str:
    """The platform tag of a shared object and a program: the newest version of glibc that they name. A static program names none."""
    machine = machine_of("library", library)
    if b"\0libc.so.6\0" not in library:
        raise Refused("the library needs another C library than glibc")
    if program is not None and machine_of("program", program) != machine:
        raise Refused("the program is for another processor than the library")
    processor, first = MACHINES[machine]
    named = re.findall(rb"\0GLIBC_(\d+)\.(\d+)", library + (program or b""))
    major, minor = max([first, *((int(major), int(minor)) for major, minor in named)])
    return f"manylinux_{major}_{minor}_{processor}"


def modules() -> Iterator[tuple[str, bytes]]:
    for name in sorted(os.listdir(os.path.join(HERE, PACKAGE))):
        if name.endswith((".py", ".typed")):
            yield f"{PACKAGE}/{name}", content(os.path.join(HERE, PACKAGE, name))


def licences() -> Iterator[tuple[str, bytes]]:
    """Those beside this folder, where it stands in its tree."""
    for name in LICENCES:
        path = os.path.join(os.path.dirname(HERE), name)
        if os.path.exists(path):
            yield os.path.basename(name), content(path)


def record(files: dict[str, bytes], own: str) -> bytes:
    """The sums of all files but the record itself."""
    lines = []
    for name, data in files.items():
        digest = base64.urlsafe_b64encode(hashlib.sha256(data).digest()).rstrip(b"=").decode()
        lines.append(f"{name},sha256={digest},{len(data)}")
    return "\n".join([*lines, f"{own},,", ""]).encode()


def binaries(library: str, program: str | None) -> tuple[str, dict[str, bytes]]:
    """The tag of a wheel that has these, and where they stand in it."""
    shared, called = content(library), content(program) if program else None
    files = {f"{PACKAGE}/libjls_salvage.so": shared, **({PROGRAM: called} if called is not None else {})}
    return f"py3-none-{platform_of(shared, called)}", files


def make_wheel(folder: str, library: str | None = None, program: str | None = None) -> str:
    """Writes the wheel, and answers its name."""
    tag, files = "py3-none-any", dict(modules())
    if library:
        tag, found = binaries(library, program)
        files.update(found)
    base = f"{PACKAGE}-{field('version')}"
    about = f"{base}.dist-info"
    files[f"{about}/METADATA"] = metadata()
    lines = ["Wheel-Version: 1.0", "Generator: jls_build", f"Root-Is-Purelib: {str(not library).lower()}", f"Tag: {tag}", ""]
    files[f"{about}/WHEEL"] = "\n".join(lines).encode()
    files.update((f"{about}/licenses/{name}", data) for name, data in licences())
    files[f"{about}/RECORD"] = record(files, f"{about}/RECORD")
    name = f"{base}-{tag}.whl"
    with zipfile.ZipFile(os.path.join(folder, name), "w", zipfile.ZIP_DEFLATED) as wheel:
        for path, data in files.items():
            entry = zipfile.ZipInfo(path, DATE)
            entry.external_attr = (0o100755 if path == PROGRAM else 0o100644) << 16
            entry.compress_type = zipfile.ZIP_DEFLATED
            wheel.writestr(entry, data)
    return name


# What pip calls (PEP 517) ----------------------------------------------------


def build_wheel(wheel_directory: str, config_settings: Any = None, metadata_directory: str | None = None) -> str:
    return make_wheel(wheel_directory)


def build_sdist(sdist_directory: str, config_settings: Any = None) -> str:
    base = f"{PACKAGE}-{field('version')}"
    files = {name: content(os.path.join(HERE, name)) for name in ("pyproject.toml", "jls_build.py")}
    files.update(modules())
    files["PKG-INFO"] = metadata()
    with tarfile.open(os.path.join(sdist_directory, f"{base}.tar.gz"), "w:gz", format=tarfile.PAX_FORMAT) as archive:
        for path, data in files.items():
            entry = tarfile.TarInfo(f"{base}/{path}")
            entry.size = len(data)
            archive.addfile(entry, io.BytesIO(data))
    return f"{base}.tar.gz"


def main(words: list[str]) -> int:
    if len(words) not in (1, 2, 3):
        print("usage: jls_build.py FOLDER [LIBRARY [PROGRAM]]", file=sys.stderr)
        return 2
    try:
        os.makedirs(words[0], exist_ok=True)
        print(os.path.join(words[0], make_wheel(*words)))
    except (OSError, Refused) as fault:
        print(f"jls_build.py: {fault}", file=sys.stderr)
        return 1
    return 0


if __name__ == "__main__":
    sys.exit(main(sys.argv[1:]))
