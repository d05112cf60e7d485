"""tests/library_old.py: does each function of the Python package raise OldProcessor, with a library that answers JLS_PROCESSOR?"""
from __future__ import annotations

import sys
from typing import Callable

import jls_salvage

CALLS: dict[str, Callable[[], object]] = {
    "check": lambda: jls_salvage.check(b"copy"),
    "header": lambda: jls_salvage.header(b"copy"),
    "read": lambda: jls_salvage.read(b"copy"),
    "partial": lambda: jls_salvage.partial(b"copy", 1),
    "join": lambda: jls_salvage.join(b"one", b"two"),
    "lines": lambda: jls_salvage.lines(b"text"),
    "write": lambda: jls_salvage.write([0] * 4, 8, 2, 2),
}


def raises(call: Callable[[], object]) -> bool:
    try:
        call()
    except jls_salvage.OldProcessor as refusal:
        return "x86-64-v2" in str(refusal)
    return False


def main() -> int:
    quiet = [name for name, call in CALLS.items() if not raises(call)]
    for name in quiet:
        print(f"jls_salvage.{name} doesn't raise OldProcessor")
    return 1 if quiet else 0


if __name__ == "__main__":
    sys.exit(main())
