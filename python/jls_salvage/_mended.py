"""What copies come to together, as jls-splice prints it."""
from __future__ import annotations

import enum
import re
from dataclasses import dataclass, field
from typing import Callable, Dict, List, NamedTuple, Optional, Sequence, Tuple

from ._types import Error, Picture


class Promise(enum.IntEnum):
    """What is promised of copies that were mended. `Mended.premise` has the words on which it rests.

    LINES               no picture is promised: lines are missing or disputed, the search was cut off, or lines aren't held
    PICTURE             it is the picture, if the true file has what one copy has where they differ, and what all have elsewhere
    PICTURE_OF_CODINGS  it is the picture, if the copies of each coding are of one file of it, true outside of `edits`
    """

    LINES = 0
    PICTURE = 1
    PICTURE_OF_CODINGS = 2


class Differ(NamedTuple):
    """A place where the copies differ, as the first copy has it. With `bad`, copies are those whose bad places were filled."""

    offset: int
    length: int


class Edit(NamedTuple):
    """A place of a copy, by its number from 0, where its mended file has `new` bytes in place of `length`.

    With `bad`, it is a place of the copy whose bad places were filled: the copy that was given may have other bytes there.
    """

    copy: int
    offset: int
    length: int
    new: int


@dataclass(frozen=True)
class Mended:
    """What copies give together. Copies count from 0, in the order in which they were given.

    promise, premise  what is promised, and the words on which it rests. Without a promise a wrong line that decodes isn't noticed
    picture, partial  the lines of all that was found, and the same as the bytes of a .jlsp file
    file              the only file that decodes whole, or of several codings, where none does and the picture is promised, the first mended
                      one; or None
    files             all that decode whole, at most 64, or of several codings first the mended file of each, which may not decode
    differs           the places where the copies differ; more_differs: how many there are beyond the first 4,096
    splices           how many files were found that are no copies
    is_cut_off        whether the search ended before it had tried all splices
    limit             samples up to it were searched, where the search of all was cut off; or None
    before            up to this offset of the first copy one prefix alone fits, where no file decodes whole; or None
    is_eoi_added      whether a file ended without the marker EOI, and got it
    codings           the copies of each coding, where there are several
    left_out          the copies of which no mended file is made, where there are several codings
    strangers         the copies that agree with no other
    edits             where mended files differ from copies; more_edits: how many there are beyond the first 4,096 of a copy
    printed           all lines of the program
    """

    promise: Promise
    premise: str
    picture: Picture = field(repr=False)
    partial: bytes = field(repr=False)
    file: Optional[bytes] = field(repr=False)
    files: Sequence[bytes] = field(repr=False)
    differs: Sequence[Differ]
    more_differs: int
    splices: int
    is_cut_off: bool
    limit: Optional[int]
    before: Optional[int]
    is_eoi_added: bool
    codings: Sequence[Sequence[int]]
    left_out: Sequence[int]
    strangers: Sequence[int]
    edits: Sequence[Edit]
    more_edits: int
    printed: str = field(repr=False)

    @property
    def is_promised(self) -> bool:
        """Whether the picture is promised, if the premise is true."""
        return self.promise != Promise.LINES


class Report:
    """The lines that jls-splice prints before the report of OUT, and whether its status says that a picture is promised."""

    def __init__(self, printed: str, is_promised: bool) -> None:
        self.printed = printed
        self.differs: List[Differ] = []
        self.edits: List[Edit] = []
        self.codings: List[Sequence[int]] = []
        self.left_out: List[int] = []
        self.strangers: List[int] = []
        self.more_differs = self.more_edits = self.splices = 0
        self.limit: Optional[int] = None
        self.before: Optional[int] = None
        self.promise: Optional[Promise] = None
        self.premise = ""
        lines = printed.splitlines()
        self.is_cut_off = any(line.endswith("tries used up") for line in lines)
        self.is_eoi_added = "eoi added" in lines
        for line in lines:
            self._take(line)
        if self.promise is None or (self.promise != Promise.LINES) != is_promised:
            raise Error("jls-splice prints no promise that this version of the package knows")

    def _take(self, line: str) -> None:
        for pattern, take in _LINES.items():
            found = re.fullmatch(pattern, line)
            if found:
                take(self, found.groups())
                return

    def take_numbers(self, words: Sequence[str]) -> None:
        self.codings.append([int(word) - 1 for word in words[0].split()])

    def take_edit(self, words: Sequence[str]) -> None:
        copy, offset, length, new = map(int, words)
        self.edits.append(Edit(copy - 1, offset, length, new))

    def take_more_edits(self, words: Sequence[str]) -> None:
        self.more_edits += int(words[1])

    def take_promise(self, words: Sequence[str]) -> None:
        self.premise = words[0]
        self.promise = next((promise for begin, promise in _PREMISES.items() if self.premise.startswith(begin)), None)

    def set(self, **values: object) -> None:
        self.__dict__.update(values)


#: How the premises begin that this version of the package knows.
_PREMISES = {"the true file has ": Promise.PICTURE, "copies of one coding are ": Promise.PICTURE_OF_CODINGS}

#: What to do with a line, by the whole line.
_LINES: Dict[str, Callable[[Report, Tuple[str, ...]], None]] = {
    r"differ (\d+) (\d+)": lambda report, words: report.differs.append(Differ(int(words[0]), int(words[1]))),
    r"differ more (\d+)": lambda report, words: report.set(more_differs=int(words[0])),
    r"splices (\d+)": lambda report, words: report.set(splices=int(words[0])),
    r"limit (\d+)": lambda report, words: report.set(limit=int(words[0])),
    r"before (\d+)(?:, .*)?": lambda report, words: report.set(before=int(words[0])),
    r"coding \d+, copies ([\d ]+)": Report.take_numbers,
    r"copy (\d+) left out": lambda report, words: report.left_out.append(int(words[0]) - 1),
    r"copy (\d+) agrees with no other": lambda report, words: report.strangers.append(int(words[0]) - 1),
    r"copy (\d+) differs (\d+) (\d+) (\d+)": Report.take_edit,
    r"copy (\d+) differs more (\d+)": Report.take_more_edits,
    r"promise picture if (.*)": Report.take_promise,
    r"promise lines": lambda report, words: report.set(promise=Promise.LINES),
}
