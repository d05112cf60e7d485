"""The command line of jls-dicom, and what it prints."""
from __future__ import annotations

import argparse
import io
import os
import signal
import sys
from collections.abc import Iterator, Sequence
from dataclasses import replace
from typing import Optional

from jls_tools.dicom.info import frames, info
from jls_tools.dicom.mend import mend
from jls_tools.dicom.read.elements import tag_name
from jls_tools.dicom.read.tags import CHARACTER_SET
from jls_tools.dicom.result import FAILED, NOT_WHOLE, USAGE, WHOLE, MendOptions, MendResult, Place, VersionTable
from jls_tools.dicom.told_values import ToldValues
from jls_tools.dicom.write.build import USER_MASK
from jls_tools.dicom.write.outputs import put_log
from jls_tools.file_names import printable
from jls_tools.programs import ProgramFailed, Programs
from jls_tools.signals import SIGNALS

LONG_VALUES = (1024, 512)  # bytes of a value in OUT.log, as a text and in hex
DESCRIPTION = """jls-dicom mends DICOM files whose frames are JPEG-LS lossless, from damaged copies of them.
It calls jls-salvage and jls-splice, and is tested, not proved."""
STATUSES = """exit status:
  0  done; each frame is whole
  1  a frame is not whole, or the header is undecided or does not read
  2  the command line is wrong
  3  a file is refused, and the line says why
  4  a file can't be read, created or written
  5  out of memory
  127  jls-salvage or jls-splice isn't there, or Python is older than 3.9"""


class Stopped(Exception):
    """A signal ends the run."""

    def __init__(self, number: int) -> None:
        super().__init__(number)
        self.number = number


def stop(number: int, _: object) -> None:
    for each in SIGNALS:  # a second one must not stop the removal of temporary files
        signal.signal(each, signal.SIG_IGN)
    raise Stopped(number)


def say(text: str) -> None:
    print(f"jls-dicom: {text}", file=sys.stderr)


def sum_of(text: str) -> str:
    text = text.strip().lower()
    if len(text) != 64 or any(letter not in "0123456789abcdef" for letter in text):
        raise argparse.ArgumentTypeError("a SHA-256 has 64 hex digits")
    return text


def bad_of(text: str) -> tuple[int, str]:
    """(a copy by its place, from 0; the path of a list)."""
    number, colon, path = text.partition(":")
    if not (colon and path and number.isascii() and number.isdigit() and 0 < int(number[:9])):
        raise argparse.ArgumentTypeError(f"{text} is not the number of a copy, from 1 on, a colon and a list")
    return int(number[:9]) - 1, path


def sample_of(text: str) -> int:
    if not text.isdigit() or int(text) > 65535:
        raise argparse.ArgumentTypeError("a sample is a number from 0 to 65535")
    return int(text)


class PrintVersion(argparse.Action):
    """Prints the version of jls-salvage, and ends."""

    def __call__(self, parser: argparse.ArgumentParser, *_: object) -> None:
        programs = Programs()
        print(programs.run([programs.salvage, "--version"]).printed, end="")
        parser.exit()


def parser() -> argparse.ArgumentParser:
    top = argparse.ArgumentParser(
        prog="jls-dicom", description=DESCRIPTION, epilog=STATUSES, formatter_class=argparse.RawDescriptionHelpFormatter, allow_abbrev=False
    )
    top.add_argument("--version", action=PrintVersion, nargs=0, help="print the version of jls-salvage")
    commands = top.add_subparsers(dest="command", metavar="COMMAND", required=True)
    add_mend(commands.add_parser("mend", help="write one file from damaged copies of it", allow_abbrev=False))
    taking = commands.add_parser("frames", help="take the frames of one file out", allow_abbrev=False)
    taking.add_argument("file", metavar="FILE")
    taking.add_argument("dir", metavar="DIR", help="a folder that isn't there yet")
    looking = commands.add_parser("info", help="say what a file is, and how its frames read", allow_abbrev=False)
    looking.add_argument("file", metavar="FILE")
    for command in (taking, looking):
        command.add_argument("--quiet", action="store_true", help="no progress on a terminal")
    return top


def add_mend(command: argparse.ArgumentParser) -> None:
    command.add_argument("--max", type=sample_of, metavar="N", help="the largest sample that the picture can have, for jls-splice")
    command.add_argument("--tries", type=int, metavar="N", help="the most that jls-splice tries for a frame")
    command.add_argument("--header", metavar="COPY", help="where copies differ and nothing decides, take what this copy has")
    command.add_argument("--same", action="store_true", help="the copies are of one instance, whatever their UIDs say")
    command.add_argument("--bad", type=bad_of, action="append", default=[], metavar="N:LIST", help="a list of bad places of the Nth copy")
    command.add_argument("--sha256", type=sum_of, metavar="SUM", help="the checksum that the undamaged file had")
    command.add_argument("--with-gaps", type=sample_of, metavar="VALUE", help="write a file with lost lines filled, under new UIDs")
    command.add_argument("--no-names", action="store_true", help="leave values that can have a name out of lines and OUT.log")
    command.add_argument("--quiet", action="store_true", help="no progress on a terminal, and no lines on places and whole frames")
    command.add_argument("out", metavar="OUT", help="the file to write; it must not be there")
    command.add_argument("copies", metavar="COPY", nargs="+", help="files; of one copy alone no header is taken without --header")


class Progress:
    """A line on a terminal that says how far the work is."""

    def __init__(self, is_quiet: bool) -> None:
        self.is_shown = not is_quiet and sys.stderr.isatty()
        self.is_open = False

    def __call__(self, done: int, count: int) -> None:
        if self.is_shown:
            print(f"\rframe {done} of {count}", end="", file=sys.stderr, flush=True)
            self.is_open = True

    def end(self) -> None:
        if self.is_open:
            print("\r\x1b[K", end="", file=sys.stderr, flush=True)
            self.is_open = False


def place_line(place: Place, values: ToldValues) -> str:
    """A place where copies differ."""
    shown = values.told(place.tag, [value for _, value in place.values])
    names = [", ".join(printable(name) for name in holders) or "none" for holders, _ in place.values]
    lines = [f"{name}: {value}" for name, value in zip(names, shown)]
    verdict = "undecided" if place.taken is None else f"taken: {shown[place.taken]} ({place.why})"
    return f"differ {place.offset} {place.length} {place.tag}, {verdict}; {'; '.join(lines)}"


def version_lines(table: VersionTable, told: ToldValues) -> Iterator[str]:
    """The headers that read whole, and a line for each tag where they differ."""
    counts = [f"{len(paths)} {'copy' if len(paths) == 1 else 'copies'}" for _, paths in table.versions]
    copies = [f"{name}: {count}, {', '.join(map(printable, paths))}" for count, (name, paths) in zip(counts, table.versions)]
    yield f"versions, {'undecided' if table.taken is None else f'taken: {table.taken}'}; {'; '.join(copies)}"
    if any(tag == tag_name(CHARACTER_SET) for tag, _ in table.rows):
        told = replace(told, characters="")
    for tag, values in table.rows:
        shown = zip(table.versions, told.told(tag, values))
        yield f"version {tag}, {'; '.join(f'{name}: {each}' for (name, _), each in shown)}"


def mended_lines(
    result: MendResult, out: str, is_quiet: bool = False, has_names: bool = True, sizes: Sequence[int] = ()
) -> Iterator[str]:
    """What a run came to, a line for each copy that was left out, place, frame and note. `sizes` are those of values (ToldValues)."""
    values = ToldValues(has_names, result.characters, *sizes)
    yield from (f"left out {printable(path)}: {why}" for path, why in result.left_out)
    yield from (place_line(place, values) for place in result.places if not (is_quiet and place.is_decided))
    yield from version_lines(result.versions, values) if result.versions else ()
    yield from (frame.line() for frame in result.frames if not (is_quiet and frame.kind == "whole"))
    yield from map(printable, result.notes)
    if result.written:
        in_place = "header and frames in their places" if result.is_guessed else "each byte in its place"
        how = in_place if result.in_place else "packed anew"
        yield f"{printable(out)} {how}, sha256 {result.sha256}{', which matched' if result.matched else ''}"
    if result.is_short_of_frames:
        yield f"OUT is not written: {result.why_short()}"
    if result.folder:
        yield f"frames are in {printable(result.folder)}"


def check_words(words: argparse.Namespace, programs: Programs) -> Optional[str]:
    """What argparse doesn't see; a text, or nothing."""
    for at, path in words.bad:
        if at >= len(words.copies):
            copies = "one copy" if len(words.copies) == 1 else f"{len(words.copies)} copies"
            return f"--bad {at + 1}:{printable(path)}: {copies} named"
    if words.tries is not None and words.tries < 1:
        return "--tries takes a number from 1 on"
    if words.max is not None and not programs.has_option("--max"):
        return "--max: this jls-splice does not have it"
    return None


def run_mend(words: argparse.Namespace, programs: Programs) -> int:
    fault = check_words(words, programs)
    if fault:
        say(fault)
        return USAGE
    progress = Progress(words.quiet)
    options = MendOptions(words.max, words.header, words.same, words.sha256, words.with_gaps, words.tries, words.bad, progress)
    try:
        result = mend(words.copies, words.out, options, programs)
    finally:
        progress.end()
    for line in mended_lines(result, words.out, words.quiet, not words.no_names):
        print(line)
    if result.refusal:
        say(printable(result.refusal))
    elif result.status in (WHOLE, NOT_WHOLE):
        copies = (f"copy {printable(path)}" for path in words.copies)
        put_log(words.out, [*copies, *mended_lines(result, words.out, False, not words.no_names, LONG_VALUES)], USER_MASK)
    return result.status


def run(words: argparse.Namespace) -> int:
    programs = Programs()
    if words.command == "mend":
        return run_mend(words, programs)
    progress = Progress(words.quiet)
    try:
        if words.command == "info":
            lines, refusal, status = info(words.file, programs, progress)
        else:
            lines, refusal, status = frames(words.file, words.dir, programs)
    finally:
        progress.end()
    for line in lines:
        print(printable(line))
    if refusal:
        say(printable(refusal))
    return status


def main(arguments: Sequence[str]) -> int:
    for number in SIGNALS:
        signal.signal(number, stop)
    for stream in (sys.stdout, sys.stderr):
        if isinstance(stream, io.TextIOWrapper):
            stream.reconfigure(errors="backslashreplace")
    os.umask(0o077)
    try:
        return run(parser().parse_args(arguments))
    except Stopped as stopped:
        say(f"stopped by signal {stopped.number}")
        return 128 + stopped.number
    except ProgramFailed as fault:
        say(str(fault))
        return fault.status
    except MemoryError:
        say("out of memory")
        return 5
    except OSError as fault:
        say(f"{printable(str(fault.filename))}: {fault.strerror}" if fault.filename else fault.strerror)
        return FAILED
