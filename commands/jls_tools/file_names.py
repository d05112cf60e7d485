"""Names of files as they are printed, and as parts of other names."""
from __future__ import annotations

import os
import re
from typing import List, Match, Sequence

# What would move the cursor or turn the direction of a line: docs/GUIDE.md, What the programs print
CONTROL = re.compile("[\x00-\x1f\x7f-\x9f\u200e\u200f\u202a-\u202e\u2066-\u2069\\\\]")


def escaped(found: Match[str]) -> str:
    character = found.group()
    return "\\\\" if character == "\\" else f"\\u{{{ord(character):x}}}"


def printable(name: str) -> str:
    """A name for a line: control characters by their code, a backslash twice, a byte that is no UTF-8 as \\xNN."""
    shown = CONTROL.sub(escaped, name)
    return re.sub("[\udc80-\udcff]", lambda found: f"\\x{ord(found.group()) - 0xDC00:02x}", shown)


def labels_of(trees: Sequence[str]) -> List[str]:
    """A short name for each tree: that of its folder, with a number before it if two are alike."""
    names = [os.path.basename(tree) or "tree" for tree in trees]
    if len(set(names)) == len(names):
        return names
    return [f"{number}-{name}" for number, name in enumerate(names, 1)]
