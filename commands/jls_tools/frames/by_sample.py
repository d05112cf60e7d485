"""Which codestreams have a scan that is interleaved by sample (ILV 2). jls-splice reads such scans, and jls-salvage ends at them."""
from __future__ import annotations

import os
import re
from typing import Optional

MOST_READ = 1 << 26  # bytes of a file in which such a scan is sought
# A scan header of two components or more, with ILV 2 and without loss (T.87, C.2.3). No byte of 80 or more follows FF in scan data.
SCAN = re.compile(rb"\xff\xda\x00(?:\x0a\x02.{4}|\x0c\x03.{6}|\x0e\x04.{8})\x00(\x02).", re.S)
BY_LINE = b"\1"


def scan_of(stream: bytes) -> Optional[re.Match[bytes]]:
    """The first scan header that says by sample; nothing if there is none. Nor has a text one, such as a partial picture."""
    return SCAN.search(stream) if stream[:1] == b"\xff" else None


def is_by_sample(stream: bytes) -> bool:
    return scan_of(stream) is not None


def headers_by_line(stream: bytes) -> bytes:
    """What stands before the first scan data by sample, with a scan header that says by line: so another fault of it is found."""
    found = scan_of(stream)
    return stream[: found.start(1)] + BY_LINE + stream[found.end(1) : found.end()] if found else stream


def read_by_sample(path: str) -> Optional[bytes]:
    """The bytes of a file that has such a scan; nothing of any other. One that can't be read is for the programs to tell."""
    try:
        if not os.path.isfile(path):
            return None
        with open(path, "rb") as file:
            begin = file.read(1)
            stream = begin + file.read(MOST_READ) if begin == b"\xff" else b""
    except OSError:
        return None
    return stream if is_by_sample(stream) else None
