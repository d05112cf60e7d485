"""The words of jls-archive."""
from __future__ import annotations

import argparse
import os
import re
from typing import Any, NoReturn, Sequence, Tuple

from jls_tools.archive import lists, places, sums
from jls_tools.dicom.axis import bad_lists

TEXT = """\
jls-archive mends an archive from backups of it. TREEs are backups of one folder. For each path that any of them has, OUT gets the
file: as it is where all copies are equal, and mended from the copies where these are JPEG-LS pictures, DICOM files or partial
pictures that differ. Nothing in a TREE is changed, and no symbolic link is followed.

Beside OUT stand:
  OUT.differ/TREE/..  copies that differ and could not be mended, or are no pictures
  OUT.partial/..      what there is of pictures that aren't whole
  OUT.report/         pictures.csv, a row for each path; report.html, a page of those that aren't whole or were mended; and logs

--bad names bytes of the Nth TREE that are bad. PLACE is a folder that has for PATH a list PATH or PATH.map: a mapfile of GNU ddrescue,
or lines with an offset and a length. Or it is the mapfile of the disk or image that TREE is mounted from. If the file system begins
later on it, @OFFSET follows. Bytes that are bad in one copy are taken from others.

With --folders, each folder of IN has copies of one picture, and OUT gets a picture for each folder.

A run that was stopped goes on if it is called again. --report makes its table and its page, also while it goes on.

The status is 0 if all is whole, and 1 if some path isn't; 2: the words are wrong; 4: something can't be read or written; 130, 143: it was
ended by a signal; 5, 125, 127 and above: a program could not do its work, and the run stopped.
"""


class Parser(argparse.ArgumentParser):
    def error(self, message: str) -> NoReturn:
        raise places.Refused(f"{message}\nTry jls-archive --help.")


def number(text: str) -> int:
    if not re.fullmatch(r"[1-9]\d{0,9}", text):
        raise argparse.ArgumentTypeError(f"{text} is no number from 1 on")
    return int(text)


def part(text: str) -> Tuple[int, int]:
    """(K, N) of K/N."""
    found = re.fullmatch(r"(\d{1,9})/(\d{1,9})", text)
    index, parts = (int(found.group(1)), int(found.group(2))) if found else (0, 0)
    if not 1 <= index <= parts:
        raise argparse.ArgumentTypeError(f"{text} is no part K/N with K from 1 to N")
    return index, parts


def bad(text: str) -> Tuple[int, str]:
    """(N, PLACE) of N:PLACE."""
    try:
        return lists.of_word(text)
    except ValueError as fault:
        raise argparse.ArgumentTypeError(f"{text} is not N:PLACE, the number of a TREE from 1 on, and where its lists are") from fault


def parser() -> Parser:
    made = Parser(
        prog="jls-archive",
        usage="jls-archive [OPTIONS] OUT TREE TREE..\n       jls-archive --folders [OPTIONS] IN OUT\n       jls-archive --report OUT",
        description=TEXT,
        formatter_class=argparse.RawDescriptionHelpFormatter,
        allow_abbrev=False,
    )
    made.add_argument("words", nargs="*", metavar="OUT TREE TREE..", help="the new folder, and the backups")
    add = made.add_argument
    add("--folders", action="store_true", help="each folder of IN has the copies of one picture")
    add("--sums", action="append", default=[], metavar="FILE", help="lines of sha256sum, md5sum or BagIt: is each file the one?")
    add("--bad", type=bad, action="append", default=[], metavar="N:PLACE", help="bad places in the Nth TREE: lists, or ddrescue's map")
    add("--jobs", type=number, default=len(os.sched_getaffinity(0)), metavar="N", help="how many at once; all processors unless told")
    add("--tries", type=number, default=4096, metavar="N", help="how much jls-splice tries for a picture; 4096 unless told")
    add("--seconds", type=number, default=60, metavar="N", help="how long the work on a path may take; 60 seconds unless told")
    add("--part", type=part, default=(1, 1), metavar="K/N", help="only the Kth of N parts of the paths, for a job array")
    add("--ssh", metavar="HOST,..", help="share the work with these machines, by GNU parallel")
    add("--report", action="store_true", help="make the table and the page of OUT anew, also while a run goes on")
    add("--no-names", action="store_true", help="leave names of patients out of logs, the table and the page")
    add("--quiet", action="store_true", help="no progress on the terminal, and no summary")
    add("--version", action="store_true", help="print the version of jls-salvage")
    # a part that --ssh gave away: no table, and status 0 when the part is done
    add("--shared", action="store_true", help=argparse.SUPPRESS)
    return made


def read(words: Sequence[str]) -> Any:
    """The options of a call. A Refused says what is wrong with them."""
    options = parser().parse_args(words)
    options.sums_read, options.lists = sums.Sums(), lists.Lists()
    if options.version:
        return options
    if options.report:
        if len(options.words) != 1 or options.folders or options.sums or options.bad or options.ssh:
            raise places.Refused("--report takes OUT alone")
        options.out = options.words[0]
        return options
    if options.folders:
        if len(options.words) != 2:
            raise places.Refused("--folders takes IN and OUT")
        if options.sums:
            raise places.Refused("--sums goes with trees, not with --folders")
        if options.bad:
            raise places.Refused("--bad goes with trees, not with --folders")
        options.out, options.trees = options.words[1], options.words[:1]
    else:
        if not options.words:
            raise places.Refused("it takes OUT and two TREEs or more; try jls-archive --help")
        options.out, options.trees = options.words[0], options.words[1:]
        if len(options.trees) < 2:
            many = "one TREE alone is" if options.trees else "no TREE is"
            raise places.Refused(f"{many} named: it takes two or more backups")
    read_lists(options)
    for file in options.sums:
        try:
            options.sums_read.read(file)
        except OSError as fault:
            raise places.Refused(f"{file}: {fault.strerror}", 4) from fault
        except sums.BadManifest as fault:
            raise places.Refused(f"{file}: {fault}") from fault
    return options


def read_lists(options: Any) -> None:
    """Takes the lists of bad places of trees."""
    for tree, place in options.bad:
        if tree > len(options.trees):
            raise places.Refused(f"--bad {tree}: there are {len(options.trees)} TREEs")
        try:
            options.lists.add(tree - 1, place)
        except OSError as fault:
            raise places.Refused(f"{place}: {fault.strerror}", 4) from fault
        except bad_lists.BadList as fault:
            raise places.Refused(str(fault)) from fault
