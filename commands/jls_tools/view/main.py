"""jls-view: from the words to the exit status."""
from __future__ import annotations

import argparse
import io
import os
import shutil
import sys
import tempfile
from collections.abc import Sequence
from typing import NoReturn, Optional

from jls_tools import partial_picture, signals
from jls_tools.file_names import printable
from jls_tools.partial_picture import PartialPicture
from jls_tools.programs import ProgramFailed, Programs
from jls_tools.view import canvas, png, sources, splice

TEXT = """\
jls-view draws IN as a PNG: a partial picture, a JPEG-LS copy, damaged or not, or a frame of a DICOM file.

Several copies are drawn side by side, and then what jls-splice makes of them. In each copy the lines are orange whose bytes are damaged
there: other bytes than the mended file has. If no file came of them, each copy is drawn as the lines that it gives by itself.

A line without a reading is orange. A line on which copies disagree is striped with blue, over the first of its readings. The bar on the
right has the same colours, line by line, and is gray where a line is settled. People who are colour-blind can tell them apart.

Three components are shown as red, green and blue. Other components stand below one another. Up to 8 bits all that the precision allows
is shown. Above, the least sample of the settled lines is black and the greatest white, unless --window says else.
"""


class Unusable(Exception):
    """The call can't be done; the text is for the person, and `status` for the shell."""

    def __init__(self, text: str, status: int) -> None:
        super().__init__(text)
        self.status = status


class Parser(argparse.ArgumentParser):
    def error(self, message: str) -> NoReturn:
        raise Unusable(f"{message}\nTry jls-view --help.", 2)


def number(text: str) -> float:
    try:
        value = float(text)
    except ValueError:
        value = float("nan")
    if not abs(value) <= 1 << 20:
        raise argparse.ArgumentTypeError(f"{text} is no number of samples")
    return value


def count(text: str) -> int:
    if not text.isascii() or not text.isdigit() or len(text) > 9:
        raise argparse.ArgumentTypeError(f"{text} is no number of a frame")
    return int(text)


def scale(text: str) -> int:
    if not text.isascii() or not text.isdigit() or not 1 <= int(text[:9]) <= 64:
        raise argparse.ArgumentTypeError(f"{text} is no number from 1 to 64")
    return int(text)


def parser() -> Parser:
    made = Parser(
        prog="jls-view",
        usage="jls-view [OPTIONS] IN.. [OUT.png]",
        description=TEXT,
        formatter_class=argparse.RawDescriptionHelpFormatter,
        allow_abbrev=False,
    )
    what = "a partial picture, copies, or DICOM files; the last of several names is OUT.png, the picture with its holes"
    made.add_argument("files", nargs="*", metavar="IN.. [OUT.png]", help=what)
    made.add_argument("--window", nargs=2, type=number, metavar=("CENTRE", "WIDTH"), help="which samples are shown, as DICOM defines it")
    made.add_argument("--signed", action="store_true", help="samples are signed, as in some DICOM files; the header of one is believed")
    made.add_argument("--frame", type=count, default=0, metavar="N", help="which frame of a DICOM file, counted from 0")
    made.add_argument("--scale", type=scale, default=1, metavar="N", help="draw each sample as N times N pixels, up to 64")
    made.add_argument("--mask", metavar="MASK.png", help="of each line a gray: 0 settled, 128 disputed, 255 missing")
    made.add_argument("--map", action="store_true", help="print a line of text for each component: . settled, ? disputed, # missing")
    made.add_argument("--version", action="store_true", help="print the version of jls-salvage")
    return made


def check(words: argparse.Namespace) -> None:
    """Whether the call can be done. Of the files the last is OUT.png, if there are several."""
    if not words.files:
        raise Unusable("it takes IN and OUT.png; try jls-view --help", 2)
    words.sources, words.out = (words.files[:-1], words.files[-1]) if len(words.files) > 1 else (words.files, None)
    if not (words.out or words.mask or words.map):
        raise Unusable("nothing to do: name OUT.png, --mask or --map", 2)
    if words.window and words.window[1] < 1:
        raise Unusable("the WIDTH of --window is 1 or more", 2)
    if words.out and words.mask and os.path.realpath(words.out) == os.path.realpath(words.mask):
        raise Unusable(f"{printable(words.out)} is named as OUT.png and by --mask", 2)
    for place in (words.out, words.mask):
        if place and os.path.exists(place):
            if any(os.path.exists(source) and os.path.samefile(place, source) for source in words.sources):
                raise Unusable(f"{printable(place)} is IN", 2)
            with open(place, "rb") as file:
                if file.read(2) in (b"\xff\xd8", b"JL") or sources.is_dicom(place):
                    raise Unusable(f"{printable(place)} is a picture to salvage, and is not replaced", 4)


def window_of(picture: PartialPicture, words: argparse.Namespace, is_signed: bool) -> canvas.Window:
    if words.window:
        centre, width = words.window
        return canvas.centred(picture, centre, width, is_signed)
    return canvas.default(picture, is_signed)


def draw(words: argparse.Namespace, pictures: Sequence[PartialPicture], is_signed: bool) -> None:
    """Draws pictures side by side. The last is the result: it says which samples are black and white, and has the mask and the map."""
    picture = pictures[-1]
    if words.out:
        window = window_of(picture, words, is_signed)
        panels = splice.Canvases([canvas.Canvas(each, window, words.scale) for each in pictures], words.scale)
        form = png.Form(panels.width() * words.scale, panels.height() * words.scale, 8, png.RGB)
        png.write(words.out, form, canvas.enlarged(panels.rows(), words.scale))
    if words.mask:
        form = png.Form(picture.width, picture.height * len(picture.ids), 8, png.GRAY)
        png.write(words.mask, form, canvas.mask_rows(picture))
    if words.map:
        for component in range(len(picture.ids)):
            print(canvas.map_line(picture, component))


def made_beside(folder: Optional[str]) -> str:
    """A new hidden folder in this one. A fault names the one that was told."""
    try:
        return tempfile.mkdtemp(prefix=".jls-view-", dir=folder)
    except OSError as fault:
        fault.filename = folder
        raise


def run(words: argparse.Namespace) -> int:
    if words.version:
        programs = Programs()
        print(programs.run([programs.salvage, "--version"]).printed, end="")
        return 0
    check(words)
    # what isn't complete holds pictures: it stands where the result will, for the owner alone
    beside = os.path.dirname(os.path.abspath(words.out or words.mask)) if words.out or words.mask else None
    folder = None
    try:
        folder = made_beside(beside)
        if len(words.sources) > 1:
            pictures, is_signed = sources.read_splice(words.sources, words.frame, folder)
        else:
            picture, is_signed = sources.read(words.sources[0], words.frame, folder)
            pictures = [picture]
        draw(words, pictures, words.signed or is_signed)
    finally:
        if folder:
            shutil.rmtree(folder, ignore_errors=True)
    return 0


def main() -> int:
    signals.catch_signals()
    if isinstance(sys.stdout, io.TextIOWrapper):
        sys.stdout.reconfigure(errors="backslashreplace")
    try:
        return run(parser().parse_intermixed_args())
    except (Unusable, sources.NoPicture) as fault:
        text, status = str(fault), fault.status
    except partial_picture.NotAPartialPicture as fault:
        text, status = str(fault), 3
    except ProgramFailed as fault:
        text, status = str(fault), fault.status
    except OSError as fault:
        text, status = f"{printable(fault.filename or 'a file')}: {fault.strerror}", 4
    except MemoryError:
        text, status = "out of memory", 5
    print(f"jls-view: {text}", file=sys.stderr)
    return status
