"""What a damaged lossless JPEG-LS file still gives (ITU-T T.87), by the library libjls_salvage.

    import jls_salvage
    picture = jls_salvage.read(open("damaged.jls", "rb").read())
    picture.info.missing            # how many lines can't be read
    picture.line(0, 17)             # the samples of a line, or None
    picture.array()                 # wants numpy: (height, width), or (height, width, components); lost lines are masked

    mended = jls_salvage.mend([one, other])         # what jls-splice makes of damaged copies
    mended.promise, mended.file, mended.picture     # is the picture promised, the mended file, and what it shows

`mend` calls the program jls-splice, which has to be there. `help(jls_salvage.Mended)` lists what is told.

`check` tells the same without the samples, and `header` without reading any. A copy without a frame raises `NoPicture`, and one of a coding
that isn't read raises `Unsupported`. With `strict=True` that is so of scans that are interleaved by sample too.

    first, second = jls_salvage.partial(one, 1), jls_salvage.partial(other, 2)
    jls_salvage.lines(jls_salvage.join(first, second))   # what both copies give together

A partial picture is the bytes of a .jlsp file. One that is damaged raises `NoPartial`, and two of different shapes raise `ShapesDiffer`.

    jls_salvage.write(picture.array(), 8)           # a JPEG-LS file

Samples that no such file can have raise `NotWritable`, and so do lines that are missing or disputed. On a processor below x86-64-v2 each
function raises `OldProcessor`.
"""
import sys

if sys.version_info < (3, 9):  # here, before a module that an older Python can't read
    raise ImportError("Python 3.9 or later is needed, and this is %d.%d" % tuple(sys.version_info[:2]))

from ._mended import Differ, Edit, Mended, Promise  # noqa: E402
from ._mending import mend  # noqa: E402
from ._reading import check, header, join, lines, partial, read, read_file  # noqa: E402
from ._types import (  # noqa: E402
    BEYOND,
    BROKEN,
    DISPUTED,
    LONG,
    MISSING,
    SETTLED,
    Answer,
    Coding,
    End,
    Error,
    Fault,
    Faulty,
    Header,
    Info,
    MissingLibrary,
    MissingProgram,
    NoPartial,
    NoPicture,
    NotMendable,
    NotWritable,
    OldProcessor,
    Picture,
    Piece,
    ShapesDiffer,
    Unsupported,
)
from ._writing import write  # noqa: E402

__version__ = "1.2.0"

__all__ = [
    "BEYOND",
    "BROKEN",
    "DISPUTED",
    "LONG",
    "MISSING",
    "SETTLED",
    "Answer",
    "Coding",
    "Differ",
    "Edit",
    "End",
    "Error",
    "Fault",
    "Faulty",
    "Header",
    "Info",
    "Mended",
    "MissingLibrary",
    "MissingProgram",
    "NoPartial",
    "NoPicture",
    "NotMendable",
    "NotWritable",
    "OldProcessor",
    "Picture",
    "Piece",
    "Promise",
    "ShapesDiffer",
    "Unsupported",
    "check",
    "header",
    "join",
    "lines",
    "mend",
    "partial",
    "read",
    "read_file",
    "write",
]
