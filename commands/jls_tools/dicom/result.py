"""What mending a DICOM file came to: the words between `jls-dicom mend` and whoever calls it."""
from __future__ import annotations

from collections.abc import Callable, Sequence
from dataclasses import dataclass, field

# The statuses that a MendResult has; a ProgramFailed of programs.py stands for all others
WHOLE, NOT_WHOLE, USAGE, REFUSED, FAILED = 0, 1, 2, 3, 4
NOT_SUPPORTED = "not supported"  # a frame that these programs don't read, which can be intact


@dataclass
class MendOptions:
    """What the command line says. `header` is the path of the copy whose header counts; `with_gaps` is the sample of lost lines."""

    most: int | None = None  # --max N, handed on to jls-splice
    header: str | None = None
    same: bool = False
    sha256: str | None = None
    with_gaps: int | None = None
    tries: int | None = None
    bad: Sequence[tuple[int, str]] = ()  # (a copy by its place, from 0; a list of bad places in it)
    progress: Callable[[int, int], object] | None = None  # called with (frames done, frames)
    bad_ranges: Sequence[tuple[int, Sequence[tuple[int, int]]]] = ()  # (a copy; bad places in it)
    stands: str | None = None  # the path of a copy whose coding the file gets, where copies are of several


@dataclass
class FrameResult:
    """A frame, counted from 0: `kind` is whole, lines (some are missing), disputed, missing (there is nothing of it) or not supported."""

    number: int
    kind: str
    settled: int = 0
    missing: int = 0
    disputed: int = 0
    promise: str = ""  # the words that jls-splice printed, or what stands for them
    note: str = ""

    def line(self) -> str:
        if self.kind == NOT_SUPPORTED:
            return f"frame {self.number} {self.kind}: {self.note}"
        counts = f"settled {self.settled}, missing {self.missing}, disputed {self.disputed}"
        words = [f"frame {self.number} {self.kind}, {counts}"]
        words += [f"promise {self.promise}"] if self.promise else []
        words += [self.note] if self.note else []
        return ", ".join(words)


@dataclass
class Place:
    """A place outside of the frames where the copies differ: what each copy has there, and which was taken (None: undecided)."""

    offset: int
    length: int
    tag: str
    values: list[tuple[list[str], bytes]]  # (names of the copies, the bytes that they have)
    taken: int | None = None  # an index of values
    why: str = ""

    @property
    def is_decided(self) -> bool:
        return self.taken is not None


@dataclass
class VersionTable:
    """Headers of one picture that all read whole: (name, the copies) of each, which was taken, and what stands where they differ by tag."""

    versions: list[tuple[str, list[str]]]
    taken: str | None
    rows: list[tuple[str, list[bytes | None]]]


@dataclass
class MendResult:
    """Status 0: OUT is written and whole. 1: not whole, or undecided. 3: refused, as `refusal` says. 4: a file can't be read or written."""

    status: int = FAILED
    written: bool = False
    in_place: bool = False  # OUT is the merged file, with each byte where it was
    is_guessed: bool = False  # bytes of no element, as of the preamble, were taken for which nothing speaks
    frames: list[FrameResult] = field(default_factory=list)
    places: list[Place] = field(default_factory=list)
    versions: VersionTable | None = None
    characters: str = ""  # Specific Character Set, by which values of places and versions are texts
    is_short_of_frames: bool = False  # OUT isn't written, as frames are not whole
    folder: str | None = None  # where the frames stand that came back, if OUT isn't written
    sha256: str | None = None  # the sum of OUT
    matched: bool = False  # --sha256 matched
    left_out: list[tuple[str, str]] = field(default_factory=list)  # (path, why)
    other_codings: list[list[str]] = field(default_factory=list)  # the copies of each coding that OUT hasn't
    notes: list[str] = field(default_factory=list)
    refusal: str | None = None
    is_unsupported: bool = False  # refused for what these programs don't read: nothing says that it is damaged

    def why_short(self) -> str:
        """Which frames are not whole."""
        lost = [frame.number for frame in self.frames if frame.kind != "whole"]
        return f"frame {lost[0]} is not whole" if len(lost) == 1 else f"{len(lost)} frames are not whole"

    def count(self, kind: str) -> int:
        return sum(frame.kind == kind for frame in self.frames)

    @property
    def settled(self) -> int:
        return sum(frame.settled for frame in self.frames)

    @property
    def missing(self) -> int:
        return sum(frame.missing for frame in self.frames)

    @property
    def disputed(self) -> int:
        return sum(frame.disputed for frame in self.frames)

    @property
    def undecided(self) -> list[Place]:
        return [place for place in self.places if not place.is_decided]


class Refused(Exception):
    """Why nothing is written, and the status."""

    def __init__(self, text: str, status: int = REFUSED) -> None:
        super().__init__(text)
        self.status = status


class Unsupported(Refused):
    """These programs don't read the frames. Nothing says that they are damaged."""
