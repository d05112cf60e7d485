"""Finds jls-salvage and jls-splice, calls them, and takes apart what they print (docs/GUIDE.md)."""
from __future__ import annotations

import os
import re
import shutil
import subprocess
import sys
import tempfile
from typing import Any, Sequence

from jls_tools import library
from jls_tools.frames.by_sample import headers_by_line, is_by_sample, read_by_sample

PICTURE = re.compile(r"picture (\d+)x(\d+), (\d+) bits, components (\d+(?:,\d+)*)$")
FAULT = re.compile(r"^end fault (\d+)|no picture, fault (\d+)", re.M)
COUNTS = re.compile(r"settled (\d+), missing (\d+), disputed (\d+)$")
CODING = re.compile(r"coding \d+, copies((?: \d+)+)$")
DIFFERS = re.compile(r"copy (\d+) differs (\d+) (\d+) (\d+)$")
# No verdict on a picture: out of memory, not built, not executable, not there
NO_VERDICT = {5, 125, 126, 127}


class ProgramFailed(Exception):
    """A program could not say anything of a picture: it is not there, had no memory, or was stopped. `status` is what it ended with."""

    def __init__(self, text: str, status: int) -> None:
        super().__init__(text)
        self.status = status


class Report:
    """The lines that check, show and jls-splice print. Counts are 0 and the shape is empty if the lines have no report."""

    def __init__(self, text: str) -> None:
        self.lines = text.splitlines()
        self.width = self.height = self.bits = 0
        self.components: list[int] = []
        self.settled = self.missing = self.disputed = 0
        self.missing_lines: list[tuple[int, ...]] = []  # (component, first, last)
        self.disputed_lines: list[tuple[int, ...]] = []  # (component, line, readings)
        self.promise: str | None = None  # the words after "promise", if that line is there
        self.before: int | None = None  # the offset of the line "before", if it is there
        self.end: str | None = None  # the words after "end"
        self.codings: list[list[int]] = []  # copies of each coding, from 1 on, where copies of several gave each other lines
        self.differs: dict[int, list[tuple[int, int, int]]] = {}  # (offset, length, new length) by copy, from 1 on
        for line in self.lines:
            self.take(line)

    def take(self, line: str) -> None:
        word, _, rest = line.partition(" ")
        picture, counts = PICTURE.match(line), COUNTS.match(line)
        if picture:
            self.width, self.height, self.bits = (int(picture.group(at)) for at in (1, 2, 3))
            self.components = [int(name) for name in picture.group(4).split(",")]
        elif word in ("coding", "copy"):
            self.take_coding(line)
        elif counts:
            self.settled, self.missing, self.disputed = map(int, counts.groups())
        elif word == "missing":
            component, lines = rest.split()
            self.missing_lines.append((int(component), *map(int, lines.split("-"))))
        elif word == "disputed":
            self.disputed_lines.append(tuple(map(int, rest.split())))
        elif word in ("promise", "end"):
            setattr(self, word, rest)
        elif word == "before":
            offset = rest.partition(",")[0]
            self.before = int(offset) if offset.isdigit() else None

    def take_coding(self, line: str) -> None:
        """A line of copies in several codings: which are of one, and where one of them differs from the mended file of its coding."""
        coding, differs = CODING.match(line), DIFFERS.match(line)
        if coding:
            self.codings.append([int(copy) for copy in coding.group(1).split()])
        elif differs:
            copy, offset, length, new = map(int, differs.groups())
            self.differs.setdefault(copy, []).append((offset, length, new))

    @property
    def shape(self) -> str:
        """The words after "picture", or nothing."""
        if not self.width:
            return ""
        return f"{self.width}x{self.height}, {self.bits} bits, components {','.join(map(str, self.components))}"

    def has(self, begin: str) -> bool:
        """Whether a line begins so."""
        return any(line.startswith(begin) for line in self.lines)


class Outcome:
    """How a call ended: its status, what it printed as text and as a report, and its fault lines."""

    def __init__(self, status: int, printed: str, faults: str) -> None:
        self.status = status
        self.printed = printed
        self.faults = faults
        self.report = Report(printed)

    @property
    def fault(self) -> int | None:
        """The number of the fault at which the reading of a copy ended; nothing if there is none."""
        found = FAULT.search(self.printed) or FAULT.search(self.faults)
        return int(found.group(1) or found.group(2)) if found else None


class Splice(Outcome):
    """What jls-splice came to. `promises_picture` says whether its mended file is promised to be the picture."""

    def __init__(self, outcome: Outcome, file_written: bool) -> None:
        super().__init__(outcome.status, outcome.printed, outcome.faults)
        self.file_written = file_written

    @property
    def promises(self) -> bool:
        """Whether the line "promise" says so. Status 0 comes with it."""
        return bool(self.status == 0 and (self.report.promise or "").split()[:1] == ["picture"])

    @property
    def promises_picture(self) -> bool:
        """Whether the picture is promised, and exactly one file decodes."""
        return bool(self.file_written and self.promises)


def find(name: str) -> str:
    """The path of a program: what JLS_SALVAGE or JLS_SPLICE names, the one beside the command, in bin, or on PATH."""
    named = os.environ.get(name.upper().replace("-", "_"))
    if named:
        return os.path.abspath(named)
    top = os.path.dirname(os.path.dirname(os.path.dirname(os.path.realpath(__file__))))
    folders = [os.path.dirname(os.path.realpath(sys.argv[0])), os.path.dirname(os.path.abspath(sys.argv[0])), os.path.join(top, "bin")]
    for path in [*(os.path.join(folder, name) for folder in folders), shutil.which(name)]:
        if path and os.path.isfile(path) and os.access(path, os.X_OK):
            return os.path.abspath(path)
    raise ProgramFailed(f"{name} is neither beside this command nor on PATH", 127)


class Programs:
    """The two programs. Names of files are taken from `folder`: they have to be UTF-8, and not to begin with a hyphen.

    jls-salvage reads no scan by sample, and jls-splice does. So `check`, `reads` and `join` ask jls-splice of a copy that has one, and no
    caller needs to know.
    """

    def __init__(self) -> None:
        self.salvage = find("jls-salvage")
        self.splice_program = find("jls-splice")
        self.help: str | None = None
        self.library = library.find(self.salvage)

    def run(self, words: Sequence[str], folder: str | None = None, given: bytes | None = None) -> Outcome:
        """Runs words, of which the first is a path of a program. A ProgramFailed is raised where it can't say anything of a picture."""
        name = os.path.basename(words[0])
        try:
            stdin: dict[str, Any] = {"stdin": subprocess.DEVNULL} if given is None else {"input": given}
            done = subprocess.run(words, cwd=folder, capture_output=True, **stdin)
        except OSError as fault:
            raise ProgramFailed(f"{words[0]}: {fault.strerror}", 127) from fault
        printed, faults = (text.decode("utf-8", "surrogateescape") for text in (done.stdout, done.stderr))
        if done.returncode < 0:
            raise ProgramFailed(f"{name} was stopped by signal {-done.returncode}", 128 - done.returncode)
        if done.returncode in NO_VERDICT:
            raise ProgramFailed(faults.strip() or f"{name} ended with status {done.returncode}", done.returncode)
        return Outcome(done.returncode, printed, faults)

    def has_option(self, option: str) -> bool:
        """Whether jls-splice has an option. It is asked once."""
        if self.help is None:
            self.help = self.run([self.splice_program, "--help"]).printed
        return option in self.help

    def check(self, name: str, folder: str | None = None) -> Outcome:
        """What a copy is. Of one that is whole the library says the same as the program, without a process."""
        path = os.path.join(folder or ".", name)
        whole = self.library.whole_at(path) if self.library else None
        if whole:
            return Outcome(0, whole.printed(), "")
        stream = read_by_sample(path)
        found = self.check_by_sample(stream, name, folder) if stream is not None else None
        return found or self.run([self.salvage, "check", name], folder)

    def check_by_sample(self, stream: bytes, name: str, folder: str | None) -> Outcome | None:
        """What a copy with a scan by sample is: the lines that it gives, else what its headers say; nothing if they don't read."""
        alone = self.alone(os.devnull, name, folder)
        if alone.report.settled or alone.report.disputed:
            return alone
        headers = self.run([self.salvage, "check", "-"], given=headers_by_line(stream))
        return headers if headers.report.width else None

    def alone(self, out: str, name: str, folder: str | None) -> Outcome:
        """The lines that one copy gives, by jls-splice: it is its own second copy. The status is that of `check` and `join`."""
        done = self.run([self.splice_program, out, name, name], folder)
        report = done.report
        is_settled = bool(report.settled) and not (report.missing or report.disputed)
        return Outcome(0 if is_settled and done.status == 1 else done.status, done.printed, done.faults)

    def reads(self, stream: bytes) -> bool:
        """Whether a codestream is whole."""
        if self.library and self.library.whole(stream):
            return True
        if not is_by_sample(stream):
            return self.run([self.salvage, "check", "-"], given=stream).status == 0
        with tempfile.TemporaryDirectory(prefix="jls-dicom-") as folder:
            with open(os.path.join(folder, "frame.jls"), "wb") as file:
                file.write(stream)
            return self.check("frame.jls", folder).status == 0

    def show(self, name: str, folder: str | None = None) -> Outcome:
        return self.run([self.salvage, "show", name], folder)

    def join(self, out: str, names: Sequence[str], folder: str | None = None) -> Outcome:
        """Joins copies and partial pictures. A copy with a scan by sample is joined as the partial picture that jls-splice makes of it."""
        given, made = [], []
        try:
            for name in names:
                given.append(self.part_by_sample(name, folder) or name)
                made += given[-1:] if given[-1] != name else []
            return self.run([self.salvage, "join", out, *given], folder)
        finally:
            for part in made:
                os.remove(os.path.join(folder or ".", part))

    def part_by_sample(self, name: str, folder: str | None) -> str | None:
        """The name of the partial picture of a copy with a scan by sample; nothing for any other, or where there is no picture."""
        if read_by_sample(os.path.join(folder or ".", name)) is None:
            return None
        part = f"{name}.by-sample"
        self.alone(part, name, folder)
        return part if os.path.exists(os.path.join(folder or ".", part)) else None

    def write_jls(self, out: str, name: str, folder: str | None = None, by_line: bool = False) -> Outcome:
        """Writes a whole picture as JPEG-LS; by line, if its components shall be interleaved so."""
        ways = ["--ilv", "line"] if by_line else []
        return self.run([self.salvage, "write", "--as", "jls", *ways, out, name], folder)

    def splice(
        self, out: str, names: Sequence[str], file: str | None = None, folder: str | None = None, options: Sequence[str] = ()
    ) -> Splice:
        """Mends copies: OUT gets the partial picture, and `file` the mended file. Options are further words, such as --tries 100."""
        words = [self.splice_program, *options, *(["--file", file] if file else []), out, *names]
        outcome = self.run(words, folder)
        written = file is not None and file != "" and os.path.exists(os.path.join(folder or ".", file))
        return Splice(outcome, written)
