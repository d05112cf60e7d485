"""Writes PNG files, without filters."""
from __future__ import annotations

import os
import struct
import zlib
from collections.abc import Iterable, Iterator, Sequence
from typing import Optional

GRAY, RGB, INDEXED = 0, 2, 3
Palette = Sequence[tuple[int, int, int]]


class Form:
    """Width, height, bits of a sample, and the type of colour."""

    def __init__(self, width: int, height: int, bits: int, colour: int) -> None:
        self.width = width
        self.height = height
        self.bits = bits
        self.colour = colour


def chunk(kind: bytes, data: bytes) -> bytes:
    return struct.pack(">I", len(data)) + kind + data + struct.pack(">I", zlib.crc32(data, zlib.crc32(kind)))


def chunks(form: Form, rows: Iterable[bytes], palette: Optional[Palette] = None, level: int = 1) -> Iterator[bytes]:
    """The bytes of a PNG in turn. Rows are the bytes of their samples."""
    head = struct.pack(">IIBBBBB", form.width, form.height, form.bits, form.colour, 0, 0, 0)
    yield b"\x89PNG\r\n\x1a\n" + chunk(b"IHDR", head)
    if palette:
        yield chunk(b"PLTE", b"".join(bytes(colour) for colour in palette))
    packer = zlib.compressobj(level)
    for row in rows:
        packed = packer.compress(b"\0" + row)
        if packed:
            yield chunk(b"IDAT", packed)
    yield chunk(b"IDAT", packer.flush())
    yield chunk(b"IEND", b"")


def encoded(form: Form, rows: Iterable[bytes], palette: Optional[Palette] = None) -> bytes:
    """A whole PNG in memory, packed as small as it gets."""
    return b"".join(chunks(form, rows, palette, 9))


def write(path: str, form: Form, rows: Iterable[bytes]) -> None:
    """A PNG file; it is there whole, or not at all. Until then its bytes are in a file beside it that the owner alone can read."""
    part = f"{path}.part-{os.getpid()}"
    mask = os.umask(0)
    os.umask(mask)
    handle = os.open(part, os.O_WRONLY | os.O_CREAT | os.O_EXCL, 0o600)
    try:
        with open(handle, "wb") as file:
            for piece in chunks(form, rows):
                file.write(piece)
            file.flush()
            os.fsync(file.fileno())
        os.chmod(part, 0o666 & ~mask)
        os.replace(part, path)
    except BaseException:
        os.unlink(part)
        raise
