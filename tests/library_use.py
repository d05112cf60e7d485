"""tests/library_use.py FILE.jls: does the Python package take and refuse what a programmer gives it? FILE has lines that are lost.

It calls each function with many kinds of buffers, sequences and arrays, at once from four threads, and through pickle. A call lets other
threads run. What is refused raises an error of the package, or TypeError or ValueError, and never one of ctypes. Without numpy or pydicom
these are left out. It prints each difference.
"""
from __future__ import annotations

import array
import ctypes
import logging
import mmap
import os
import pickle
import pydoc
import sys
import threading
import time
from typing import Any, Callable

import jls_salvage
from jls_salvage import NotWritable, _library, _writing, pydicom_decoder, pydicom_handler

TOP = os.path.dirname(os.path.dirname(os.path.realpath(__file__)))


def optional(name: str) -> Any:
    try:
        return __import__(name)
    except ImportError:
        return None


numpy, pydicom = optional("numpy"), optional("pydicom")
#: The first number of pydicom's version, or 0: frames come to version 2 by a handler, and from 3 on by a decoder.
PYDICOM = int(pydicom.__version__.partition(".")[0]) if numpy is not None and pydicom is not None else 0
differing = []


def differ(what: str, found: object, wanted: object) -> None:
    if found != wanted:
        differing.append(what)
        print(f"{what}: {found}, and {wanted} is wanted")


def raised(call: Callable[[], object]) -> object:
    """The type of what a call raises, or what it answers."""
    try:
        return call()
    except ctypes.ArgumentError as why:
        return f"ctypes.ArgumentError: {why}"
    except Exception as why:  # any: its type is what is looked at
        return type(why)


def pickled(copy: bytes) -> None:
    """Errors and what is read come back from another process as they went there."""
    picture = jls_salvage.read(copy)
    fault, coding = jls_salvage.Fault.ENDED, jls_salvage.Coding.BY_SAMPLE
    errors = [
        jls_salvage.NoPicture(fault, 3),
        jls_salvage.NoPartial(fault, 3),
        jls_salvage.Unsupported(coding, 4, picture),
        jls_salvage.ShapesDiffer(),
        jls_salvage.OldProcessor(),
        jls_salvage.MissingLibrary("none"),
        NotWritable("no"),
        pydicom_handler.DamagedFrame(2, [(0, 1)]),
    ]
    for error in errors:
        again = pickle.loads(pickle.dumps(error))
        differ(f"{type(error).__name__} pickled", (type(again), str(again), vars(again)), (type(error), str(error), vars(error)))
    for value in (picture, picture.info, jls_salvage.header(copy), fault, coding, jls_salvage.Fault(200)):
        differ(f"{type(value).__name__} pickled", pickle.loads(pickle.dumps(value)) == value, True)
    differ("a picture and another", picture == jls_salvage.read(jls_salvage.write([1], 8, 1, 1)), False)
    differ("a fault of a later version", str(jls_salvage.Fault(200)), "number 200")


def buffers(copy: bytes) -> None:
    wanted = jls_salvage.check(copy)
    kinds: dict[str, Any] = {"reversed twice": memoryview(copy[::-1])[::-1], "array": array.array("b", array.array("B", copy).tobytes())}
    if numpy is not None:
        whole = numpy.frombuffer(copy + b"\0" * (len(copy) % 2), numpy.uint8)
        even = jls_salvage.check(whole)
        kinds.update(read_only=whole, doubled=numpy.repeat(whole, 2)[::2])
        for name, each in {
            ">u2": whole.view(">u2"),
            ">u2 with a stride": numpy.repeat(whole.view(">u2"), 2)[::2],
            "fields": whole.view([("a", "u1"), ("b", "u1")]),
            "Fortran": numpy.asfortranarray(whole.reshape(2, -1)),
        }.items():
            differ(name, jls_salvage.check(each), even)
        differ("no dimension", raised(lambda: jls_salvage.check(numpy.array(5, numpy.uint8))), jls_salvage.NoPicture)
        differ("no row", raised(lambda: jls_salvage.check(numpy.zeros((0, 3), numpy.uint8))), jls_salvage.NoPicture)
    for name, each in kinds.items():
        differ(name, raised(lambda: jls_salvage.check(each)), wanted if name != "read_only" or len(copy) % 2 == 0 else even)
    for none in (b"", bytearray(), memoryview(b""), array.array("B")):
        differ(f"no bytes of {type(none).__name__}", raised(lambda: jls_salvage.check(none)), jls_salvage.NoPicture)
    calls: list[Callable[..., object]] = [jls_salvage.check, jls_salvage.header, jls_salvage.read, jls_salvage.lines, jls_salvage.join]
    for wrong in ([1, 2], None, 5, "name", 1.5):
        for call in calls:
            differ(f"{call} of {wrong!r}", raised(lambda: call(wrong)), TypeError)


def sources(copy: bytes) -> None:
    wrong: list[Any] = [1.0, "1", None]
    for each in wrong:
        differ(f"source {each!r}", raised(lambda: jls_salvage.partial(copy, each)), TypeError)
    for source in (-1, 2**32):
        differ(f"source {source}", raised(lambda: jls_salvage.partial(copy, source)), ValueError)
    if numpy is not None:
        differ("source of numpy", jls_salvage.partial(copy, numpy.int64(7)) == jls_salvage.partial(copy, 7), True)


def samples_of(*words: Any, **more: Any) -> object:
    return list(jls_salvage.read(jls_salvage.write(*words, **more)).samples)


#: What stands for four samples, or is refused.
SEQUENCES: dict[str, tuple[Any, object]] = {
    "a list": ([1, 2, 3, 4], [1, 2, 3, 4]),
    "a generator": ((value for value in (1, 2, 3, 4)), [1, 2, 3, 4]),
    "bytes": (b"\1\2\3\4", [1, 2, 3, 4]),
    "a bytearray": (bytearray(b"\1\2\3\4"), [1, 2, 3, 4]),
    "a view": (memoryview(b"\1\2\3\4"), [1, 2, 3, 4]),
    "bytes of two bytes a sample": (b"\0\1\0\1\0\1\0\1", NotWritable),
    "an odd number of bytes": (b"\1\2\3", NotWritable),
    "an array of bytes": (array.array("B", [1, 2, 3, 4]), [1, 2, 3, 4]),
    "an array of integers": (array.array("q", [1, 2, 3, 4]), [1, 2, 3, 4]),
    "an array of fractions": (array.array("d", [1, 2, 3, 4]), NotWritable),
    "an array with a negative number": (array.array("h", [1, -2, 3, 4]), NotWritable),
    "a negative number": ([1, -2, 3, 4], NotWritable),
    "a number of 17 bits": ([1, 65536, 3, 4], NotWritable),
    "a number of 70 bits": ([1, 2**70, 3, 4], NotWritable),
    "a fraction": ([1.0, 2, 3, 4], NotWritable),
    "lists": ([[1, 2], [3, 4]], NotWritable),
    "no number": ([None] * 4, NotWritable),
    "a text": ("abcd", NotWritable),
    "three": ([1, 2, 3], NotWritable),
    "none": ([], NotWritable),
    "nothing": (None, TypeError),
    "a number": (4, TypeError),
}


def written() -> None:
    for name, (samples, wanted) in SEQUENCES.items():
        differ(f"samples that are {name}", raised(lambda: samples_of(samples, 8, 2, 2)), wanted)
    four = [1, 2, 3, 4]
    of_types: list[Any] = [(8.0, 2, 2), ("8", 2, 2), (None, 2, 2), (8, 2.0, 2)]
    of_ranges: list[Any] = [(0, 2, 2), (300, 2, 2), (8, -2, -2), (8, 70000, 1), (8, 1, 1, 256)]
    for words, wanted in [(each, TypeError) for each in of_types] + [(each, NotWritable) for each in of_ranges]:
        differ(f"written with {words}", raised(lambda: jls_salvage.write(four, *words)), wanted)
    for interval in (-1, 65536):
        differ(f"interval {interval}", raised(lambda: jls_salvage.write(four, 8, 2, 2, restart_interval=interval)), NotWritable)
    is_true: Any = 256
    together = jls_salvage.header(jls_salvage.write(four, 8, 2, 1, 2, interleaved=is_true))
    differ("interleaved by another true value", together.interleave, 1)


class Offers:
    """What numpy takes for an array and is none."""

    def __init__(self, values: Any) -> None:
        self.values = values

    @property
    def __array_interface__(self) -> Any:
        return self.values.__array_interface__


def arrays() -> None:
    square = numpy.array([[1, 2], [3, 4]], numpy.uint16)
    big = numpy.repeat(numpy.repeat(square, 2, 0), 2, 1)
    same = [square.astype(">u2"), square.astype(">i8"), numpy.asfortranarray(square), big[::2, ::2], square[::-1, ::-1].copy()[::-1, ::-1]]
    same += [numpy.ma.masked_array(square), numpy.matrix(square), Offers(square), memoryview(square), square[:, :, None]]
    for number, each in enumerate(same):
        differ(f"array {number}", raised(lambda: samples_of(each, 8)), [1, 2, 3, 4])
    differ("a flat one", samples_of(square.ravel(), 8, numpy.int64(2), numpy.int64(2)), [1, 2, 3, 4])
    differ("one sample", samples_of(numpy.array(5), 8, 1, 1), [5])
    wrong = [numpy.array(5), square.astype(float), square > 1, square.astype(object), -square.astype(int), square.astype("u8") + 2**63]
    wrong += [numpy.zeros((0, 3), int), numpy.zeros((2, 3, 0), int), numpy.zeros((1, 1, 1, 1), int), numpy.zeros((1, 70000), int)]
    wrong += [numpy.array([["a"]]), numpy.zeros((2, 2), [("a", "u1")]), numpy.ma.masked_array(square, [[1, 0], [0, 0]])]
    for number, each in enumerate(wrong):
        differ(f"array {number} that is wrong", raised(lambda: jls_salvage.write(each, 8)), NotWritable)
    differ("another size", raised(lambda: jls_salvage.write(square, 8, 4, 1)), NotWritable)
    vast = numpy.broadcast_to(numpy.uint8(0), (65535, 65535))
    differ("an interval of 2^32 samples", raised(lambda: jls_salvage.write(vast, 8)), NotWritable)


def masks(copy: bytes) -> None:
    """The mask is that of the statuses, by pixel."""
    picture = jls_salvage.read(copy)
    values, mask = picture.array(), picture.mask()
    differ("the shape", (values.shape, mask.shape), ((picture.info.height, picture.info.width),) * 2)
    lost = [line for _, line in picture.unsettled()]
    differ("masked lines", [line for line in range(picture.info.height) if mask[line].all()], lost)
    differ("lines with a mask", [line for line in range(picture.info.height) if values.mask[line].any()], lost)
    colour = numpy.arange(24, dtype=numpy.uint16).reshape(2, 4, 3)
    differ("colour", (jls_salvage.read(jls_salvage.write(colour, 8)).array() == colour).all(), True)
    parts = jls_salvage.lines(jls_salvage.partial(copy, 1))
    differ("the same of a partial picture", (parts.array().filled(9) == values.filled(9)).all(), True)


def uncopied(name: str) -> None:
    """Buffers without gaps are read where they stand, arrays show the samples that were read, and are written where they stand."""
    with open(name, "rb") as file, mmap.mmap(file.fileno(), 0, access=mmap.ACCESS_READ) as mapped:
        whole = bytearray(mapped)
        for each in (mapped, whole, memoryview(whole), memoryview(bytes(whole))[1:], array.array("B", whole)):
            where = numpy.frombuffer(each, numpy.uint8)
            differ(f"{type(each).__name__} is copied", _library.Buffer(each).address != where.ctypes.data, False)
        picture = jls_salvage.read(mapped)
        del where
    colour = jls_salvage.read(jls_salvage.write(range(24), 8, 4, 2, 3))
    for found in (picture, colour, jls_salvage.lines(jls_salvage.partial(bytes(whole), 1))):
        differ("samples are copied to an array", numpy.shares_memory(numpy.ma.getdata(found.array()), found.samples), True)
        differ("samples are copied to be written", _writing._planes(found.samples)[1] == found.samples.ctypes.data, True)
        line = found.line(0, found.info.height - 1) if found is colour else None
        differ("a line is copied", line is None or numpy.shares_memory(line, found.samples), True)
    square = numpy.arange(12, dtype=numpy.uint16).reshape(3, 4)
    differ("an array is copied to be written", _writing._planes(square)[1] == square.ctypes.data, True)


def threads(copy: bytes) -> None:
    """Four threads at once: calls let the others run."""
    wanted, found = jls_salvage.read(copy), []

    def reads() -> None:
        again = [jls_salvage.read(copy) for _ in range(100)]
        found.append(all(each == wanted for each in again))

    running = [threading.Thread(target=reads) for _ in range(4)]
    for each in running:
        each.start()
    for each in running:
        each.join()
    differ("four threads", found, [True] * 4)


def lets_go() -> None:
    """While a call runs, this thread runs on: it keeps no lock of Python's. Else no moment of its own would be amid the call."""
    big = jls_salvage.write(array.array("H", range(65536)) * 64, 16, 2048, 2048)
    began, ended = threading.Event(), threading.Event()
    moments: list[float] = []

    def reads() -> None:
        data, info = _library.Buffer(big), _library.info_struct()
        began.set()
        start = time.perf_counter()
        _library.library().jls_check_under(data.address, data.size, _library.WIDE, ctypes.byref(info), None, 0)
        moments.extend((start, time.perf_counter()))
        ended.set()

    running = threading.Thread(target=reads)
    own: list[float] = []
    running.start()
    began.wait()
    while not ended.is_set():
        own.append(time.perf_counter())
    running.join()
    first, last = moments
    amid = [at for at in own if first + (last - first) / 4 < at < last - (last - first) / 4]
    differ("a call lets other threads run", len(amid) > 10, True)


class Runner:
    """What pydicom 3 gives a decoder of a frame."""

    def __init__(self, rows: int, columns: int, samples_per_pixel: int = 1, is_signed: bool = False) -> None:
        self.rows, self.columns, self.samples_per_pixel = rows, columns, samples_per_pixel
        self.pixel_representation = int(is_signed)
        self.options: dict[str, int] = {}

    def set_option(self, name: str, value: int) -> None:
        self.options[name] = value


def decoded(copy: bytes) -> None:
    """What the decoder makes of frames, called as pydicom 3 does."""
    decode = pydicom_decoder._decode_frame
    rows = ((12, "<u2", [0, 7, 2047, 2048, 4095, 9]), (8, "u1", [0, 7, 127, 128, 255, 9]), (5, "u1", [0, 15, 16, 31, 1, 2]))
    for precision, kind, values in rows:
        frame, runner = jls_salvage.write(values, precision, 3, 2), Runner(2, 3)
        differ(f"{precision} bits decoded", list(numpy.frombuffer(decode(frame, runner), kind)), values)
        bits = 8 * numpy.dtype(kind).itemsize
        differ(f"{precision} bits: what is set", runner.options, {"bits_allocated": bits, "planar_configuration": 0})
        signed = numpy.frombuffer(decode(frame, Runner(2, 3, is_signed=True)), kind.replace("u", "i"))
        differ(f"{precision} bits, signed", list(signed), [it - 2**precision if it >= 2 ** (precision - 1) else it for it in values])
    pixels = jls_salvage.write(list(range(18)), 8, 3, 2, 3)
    differ("colour", decode(pixels, Runner(2, 3, 3)), bytes(at + 6 * k for at in range(6) for k in range(3)))
    for height, width, count in ((3, 2, 3), (2, 3, 1)):
        differ("another shape", raised(lambda: decode(pixels, Runner(height, width, count))), jls_salvage.Error)
    said = jls_salvage.header(copy)
    differ("lines that are lost", raised(lambda: decode(copy, Runner(said.height, said.width))), pydicom_handler.DamagedFrame)
    of_uids = [pydicom_decoder.is_available(f"1.2.840.10008.1.2.4.{number}") for number in (80, 81)]
    differ("which transfer syntaxes", of_uids, [True, False])


def data_set(samples: list[bytes], **fields: Any) -> Any:
    """One with these frames, of 5 rows and 7 columns if nothing else is said."""
    from pydicom.encaps import encapsulate

    found = pydicom.dcmread(os.path.join(TOP, "examples", "first.dcm"))
    for name, value in {"Rows": 5, "Columns": 7, "BitsAllocated": 16, "BitsStored": 12, "HighBit": 11, **fields}.items():
        setattr(found, name, value)
    found.PixelData = encapsulate(samples)
    return found


def decoder_frames() -> None:
    """What pydicom 3 gets from the plugin, by its public functions."""
    from pydicom.pixels import pixel_array

    pydicom_decoder.register()
    pydicom_decoder.register()
    logging.getLogger("pydicom").setLevel(logging.CRITICAL)
    by_plugin: dict[str, Any] = {"decoding_plugin": "jls_salvage"}
    values = numpy.arange(35, dtype=numpy.uint16).reshape(5, 7) * 100
    deep = jls_salvage.write(values, 12)
    differ("12 bits by the plugin", (pixel_array(data_set([deep]), **by_plugin) == values).all(), True)
    differ("two frames by the plugin", pixel_array(data_set([deep, deep], NumberOfFrames=2), **by_plugin).shape, (2, 5, 7))
    signed = data_set([jls_salvage.write(values & 0 | 4095, 12)], PixelRepresentation=1)
    differ("signed by the plugin", (pixel_array(signed, **by_plugin) == -1).all(), True)
    pixels = numpy.arange(105, dtype=numpy.uint8).reshape(5, 7, 3)
    colour = {"SamplesPerPixel": 3, "PhotometricInterpretation": "RGB", "PlanarConfiguration": 0}
    eight = {"BitsAllocated": 8, "BitsStored": 8, "HighBit": 7}
    rgb = data_set([jls_salvage.write(pixels, 8, interleaved=True)], **colour, **eight)
    differ("colour by the plugin", (pixel_array(rgb, raw=True, **by_plugin) == pixels).all(), True)
    lost = pydicom.dcmread(os.path.join(TOP, "examples", "first.dcm"))
    turned = data_set([deep], Rows=7, Columns=5)
    for name, dataset, words in (("lines that are lost", lost, "is damaged"), ("another shape", turned, "shape")):
        try:
            differ(f"{name}, by the plugin", pixel_array(dataset, **by_plugin), "a refusal")
        except Exception as why:  # any: pydicom puts its own around those of plugins
            differ(f"{name}, by the plugin", words in str(why), True)


def frames() -> None:
    """What pydicom 2 gets: frames that don't fit are refused before room is taken."""
    pydicom.config.pixel_data_handlers = [pydicom_handler]
    values = numpy.arange(35, dtype=numpy.uint16).reshape(5, 7) * 100
    deep = jls_salvage.write(values, 12)
    vast = bytes.fromhex("FFD8FFF7000B08FFFFFFFF01011100FFDD00040001FFDA00080101000000008000FFD9")
    differ("12 bits in 16", (data_set([deep]).pixel_array == values).all(), True)
    differ("masked", (pydicom_handler.masked_array(data_set([deep])) == values).all(), True)
    differ("two frames", data_set([deep, deep], NumberOfFrames=2).pixel_array.shape, (2, 5, 7))
    signed = data_set([jls_salvage.write(values & 0 | 4095, 12)], PixelRepresentation=1).pixel_array
    differ("signed", (signed == -1).all(), True)
    wrong = {
        "12 bits in 8": data_set([deep], BitsAllocated=8),
        "Bits Allocated 32": data_set([deep], BitsAllocated=32),
        "another shape": data_set([deep], Rows=7, Columns=5),
        "more components": data_set([deep], SamplesPerPixel=3),
        "a vast frame": data_set([vast]),
        "a frame that isn't there": data_set([deep], NumberOfFrames=2),
    }
    for name, dataset in wrong.items():
        differ(name, raised(lambda: dataset.pixel_array), jls_salvage.Error)
        differ(f"{name}, masked", raised(lambda: pydicom_handler.masked_array(dataset)), jls_salvage.Error)
    lost = pydicom.dcmread(os.path.join(TOP, "examples", "first.dcm"))
    differ("lines that are lost", raised(lambda: lost.pixel_array), pydicom_handler.DamagedFrame)
    differ("masked ones", pydicom_handler.masked_array(lost).mask.any(), True)


def main() -> int:
    with open(sys.argv[1], "rb") as file:
        copy = file.read()
    pickled(copy)
    buffers(copy)
    sources(copy)
    written()
    threads(copy)
    lets_go()
    if numpy is not None:
        arrays()
        masks(copy)
        uncopied(sys.argv[1])
        decoded(copy)
    if PYDICOM == 2:
        frames()
    if PYDICOM >= 3:
        decoder_frames()
    for name in jls_salvage.__all__:
        differ(f"help({name})", bool(pydoc.render_doc(getattr(jls_salvage, name))), True)
    differ("help", all(name in pydoc.render_doc(jls_salvage) for name in ("read(", "NoPicture", "Picture")), True)
    return 1 if differing else 0


if __name__ == "__main__":
    sys.exit(main())
