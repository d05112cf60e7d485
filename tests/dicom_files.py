"""DICOM files that tests make, and a bench on which copies of them are mended. The frames are written by `jls-salvage write`."""
from __future__ import annotations

import contextlib
import io
import itertools
import os
import random
import struct
import subprocess
import sys
import traceback
from collections.abc import Sequence

import objects

HERE = os.path.dirname(os.path.dirname(os.path.abspath(__file__)))
COMMAND = os.path.join(HERE, "commands", "jls-dicom")
os.environ.update({"JLS_SALVAGE": objects.program("jls-salvage"), "JLS_SPLICE": objects.program("jls-splice")})
PROGRAMS = os.environ
sys.path.append(os.path.join(HERE, "commands"))
from jls_tools.dicom import command  # noqa: E402

CLASS, UID, SYNTAX = "1.2.840.10008.5.1.4.1.1.7", "1.2.3.4.5.6.7", "1.2.840.10008.1.2.4.80"
LONG = ("OB", "SQ", "OV")


def element(tag: int, vr: str, value: bytes | str | int) -> bytes:
    value = struct.pack("<H", value) if isinstance(value, int) else value.encode() if isinstance(value, str) else value
    value += (b"\0" if vr in ("UI", "OB") else b" ") * (len(value) % 2)
    length = b"\0\0" + struct.pack("<I", len(value)) if vr in LONG else struct.pack("<H", len(value))
    return struct.pack("<HH", tag >> 16, tag & 0xFFFF) + vr.encode() + length + value


def item(value: bytes) -> bytes:
    return b"\xfe\xff\x00\xe0" + struct.pack("<I", len(value)) + value


def frame(rng: random.Random, bits: int, width: int, height: int, folder: str) -> bytes:
    """A codestream of noise on a slope."""
    top = (1 << bits) - 1
    text = b"JLSP\2" + struct.pack(">BHHB", bits, width, height, 1) + b"\1" + struct.pack(">I", height)
    for line in range(height):
        samples = [min(top, (x * 3 + line * 5) * top // 400 + rng.randrange(top // 16 + 2)) for x in range(width)]
        text += struct.pack(">BHQ", 0, line, 1) + struct.pack(f">{width}H", *samples) + bytes(8)
    with open(f"{folder}/frame.jlsp", "wb") as file:
        file.write(text)
    words = [PROGRAMS["JLS_SALVAGE"], "write", "--as", "jls", f"{folder}/frame.jls", f"{folder}/frame.jlsp"]
    subprocess.run(words, check=True, stdout=subprocess.DEVNULL)
    with open(f"{folder}/frame.jls", "rb") as file:
        return file.read()


class File:
    """A DICOM file with these frames, an icon, a private element, and padding after Pixel Data."""

    def __init__(
        self,
        frames: list[bytes],
        bits: int,
        width: int,
        height: int,
        uid: str = UID,
        syntax: str = SYNTAX,
        stored: int | None = None,
        samples: int = 1,
    ) -> None:
        meta = element(0x20001, "OB", b"\0\1") + element(0x20002, "UI", CLASS) + element(0x20003, "UI", uid)
        meta += element(0x20010, "UI", syntax)
        meta = element(0x20000, "UL", struct.pack("<I", len(meta))) + meta
        data = element(0x80008, "CS", "ORIGINAL\\PRIMARY") + element(0x80016, "UI", CLASS) + element(0x80018, "UI", uid)
        data += element(0x80020, "DA", "20200131") + element(0x90010, "LO", "PRIVATE") + element(0x91001, "OB", bytes(range(64)))
        data += element(0x100010, "PN", "Doe^Jane") + element(0x280002, "US", samples)
        data += element(0x280004, "CS", "MONOCHROME2" if samples == 1 else "RGB")
        data += element(0x280008, "IS", str(len(frames))) + element(0x280010, "US", height) + element(0x280011, "US", width)
        stored = stored or bits
        data += element(0x280100, "US", 8 if bits <= 8 else 16) + element(0x280101, "US", stored) + element(0x280102, "US", stored - 1)
        data += element(0x280103, "US", 1 if bits > 8 else 0)
        data += element(0x880200, "SQ", item(element(0x280010, "US", 8) + element(0x7FE00010, "OB", b"\xff\xd8\xff\xf7" + bytes(60))))
        self.name_at = 132 + len(meta) + data.index(b"Doe^Jane")
        even = [stream + b"\0" * (len(stream) % 2) for stream in frames]
        starts = [0, *itertools.accumulate(8 + len(stream) for stream in even)][: len(even)]
        head = bytes(128) + b"DICM" + meta + data + b"\xe0\x7f\x10\x00OB\0\0\xff\xff\xff\xff"
        self.table_at = len(head) + 8
        head += item(struct.pack(f"<{len(starts)}I", *starts))
        self.items = [len(head) + start for start in starts]
        tail = element(0xFFFCFFFC, "OB", bytes(30))
        self.bytes = head + b"".join(map(item, even)) + b"\xfe\xff\xdd\xe0\0\0\0\0" + tail
        self.frames = frames


def changed(data: bytes, *changes: tuple[int, bytes]) -> bytes:
    """A copy with other bytes at some places."""
    copy = bytearray(data)
    for at, new in changes:
        copy[at : at + len(new)] = new
    return bytes(copy)


class Bench:
    """A folder in which copies are mended."""

    def __init__(self, folder: str) -> None:
        self.folder = folder
        self.count = 0

    def mend(self, copies: Sequence[bytes], *words: str) -> tuple[int | str, bytes | None, str, str, str]:
        """(status, OUT or nothing, what was printed, fault lines, its name)."""
        self.count += 1
        names = [f"{self.folder}/{self.count}-{at}.dcm" for at in range(len(copies))]
        for name, data in zip(names, copies):
            with open(name, "wb") as file:
                file.write(data)
        out = f"{self.folder}/{self.count}-out.dcm"
        named = [word.replace("COPY0", names[0]).replace("COPY1", names[min(1, len(names) - 1)]) for word in words]
        status, printed, faults = called("mend", *named, out, *names)
        got = [get(name) for name in names] == list(copies)
        return status if got else "a copy was changed", get(out), printed, faults, out


def called(*words: str) -> tuple[int | str, str, str]:
    """(status, what was printed, fault lines) of jls-dicom, in this process: to start Python anew takes longer than most mends."""
    status: int | str | None
    printed, faults = io.StringIO(), io.StringIO()
    with contextlib.redirect_stdout(printed), contextlib.redirect_stderr(faults):
        try:
            status = command.run(command.parser().parse_args(words))
        except SystemExit as ended:
            status = ended.code
        except Exception:
            status = "Traceback"
            traceback.print_exc()
    return status or 0, printed.getvalue(), faults.getvalue()


def get(path: str) -> bytes | None:
    if not os.path.isfile(path):
        return None
    with open(path, "rb") as file:
        return file.read()


def with_value(made: File, value: bytes) -> tuple[bytes, int]:
    """A file with another private value, and where that begins."""
    at = made.bytes.index(bytes(range(64)))
    data = made.bytes[: at - 4] + struct.pack("<I", len(value)) + value + made.bytes[at + 64 :]
    return data, at
