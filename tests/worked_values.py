"""The copies, texts and answers of `tests/worked`.

Copies are hex, and blanks divide what belongs together. The sample in a picture of one sample is coded as an empty run that is
interrupted at once: a zero, then the code of the error. At the start of an interval of 8 bits that is zeros, a one, and two bits.
"""

SOI, EOI = "FFD8", "FFD9"


def frame(width, height, precision=8, ids=(1,)):
    """The frame header: marker, length, precision, height, width, components without subsampling."""
    components = "".join(f"{number:02X}1100" for number in ids)
    return f"FFF7 {8 + 3 * len(ids):04X} {precision:02X} {height:04X} {width:04X} {len(ids):02X} {components}"


def report_of(width, height, precision=8, ids=(1,), missing=(), disputed=()):
    """The report. `missing` has ranges of lines and `disputed` lines with their number of readings, both of component 1."""
    gone = sum(last - first + 1 for first, last in missing)
    lines = [f"picture {width}x{height}, {precision} bits, components {','.join(map(str, ids))}"]
    lines += [f"settled {height * len(ids) - gone - len(disputed)}, missing {gone}, disputed {len(disputed)}"]
    entries = [(first, f"missing 1 {first}-{last}") for first, last in missing]
    entries += [(line, f"disputed 1 {line} {readings}") for line, readings in disputed]
    return "".join(f"{line}\n" for line in lines + [entry for _, entry in sorted(entries)])


def missing_of(height, lines):
    """The ranges of the lines that are not among these."""
    ranges = []
    for line in range(height):
        if line not in lines and ranges and ranges[-1][1] == line - 1:
            ranges[-1] = (ranges[-1][0], line)
        elif line not in lines:
            ranges.append((line, line))
    return ranges


def text_of(width, height, lines, sources=None):
    """The text of a picture of 8 bits and component 1: its readings by line, and sources by line and first sample (docs/FORMAT.md)."""
    text = bytes.fromhex(f"4A4C5350 02 08 {width:04X} {height:04X} 01 01 {len(lines):08X}")
    for line, readings in sorted(lines.items()):
        text += bytes.fromhex(f"00 {line:04X} {len(readings):016X}")
        for reading in readings:
            numbers = (sources or {}).get((line, reading[0]), [])
            text += bytes.fromhex("".join(f"{sample:04X}" for sample in reading) + f"{len(numbers):016X}")
            text += bytes.fromhex("".join(f"{number:08X}" for number in numbers))
    return text


def made(*parts):
    """The bytes of these pieces of hex."""
    return bytes.fromhex(" ".join(parts))


# the scan header of component 1 alone
SCAN = "FFDA 0008 01 0100 00 00 00"
ONE = f"{SOI} {frame(1, 1)}"
RESTART_EACH_LINE = "FFDD 0004 0001"

# 4x4 without restart intervals, 30 bytes of scan data
FOUR_SAMPLES = [0, 0, 90, 74, 68, 50, 43, 205, 64, 145, 145, 145, 100, 145, 145, 145]
FOUR_CODE = "C000006C80208E01C00000574000006EE6000001BC18000005D800009160"
FOUR_LINES = made(SOI, frame(4, 4), SCAN, FOUR_CODE, EOI)
FOUR_PNM = b"P5\n4 4\n255\n" + bytes(FOUR_SAMPLES)

# ten lines of one sample, 0 to 9, a restart interval for each; scan data begins at 31
TEN_HEADERS = f"{SOI} {frame(1, 10)} {RESTART_EACH_LINE} {SCAN}"
TEN_CODE = "80 FFD0 50 FFD1 70 FFD2 28 FFD3 38 FFD4 14 FFD5 1C FFD6 0A FFD7 0E FFD0 05"
TEN_LINES = made(TEN_HEADERS, TEN_CODE, EOI)
TEN_PNM = b"P5\n1 10\n255\n" + bytes(range(10))
TEN_LINES_TEXT = text_of(1, 10, {line: [[line]] for line in range(10)})


def ten(code, restarts=RESTART_EACH_LINE):
    """A copy of ten lines of one sample with this scan data."""
    return made(SOI, frame(1, 10), restarts, SCAN, code, EOI)


def two(precision, first, second):
    """1x1 of two components: what stands before the first scan is of that scan, and the other likewise."""
    return made(SOI, frame(1, 1, precision, (1, 2)), first, second, EOI)


BY_LINE = two(8, "FFDA 000A 02 0100 0200 00 01 00 0716", "")
IN_TWO_SCANS = two(8, f"{SCAN} 07", "FFDA 0008 01 0200 00 00 00 07")
TWO_COMPONENTS = (report_of(1, 1, ids=(1, 2)), b"P7\nWIDTH 1\nHEIGHT 1\nDEPTH 2\nMAXVAL 255\nENDHDR\n\x0a\x0a")
IN_BOTH_FORMS = [("--ilv line", BY_LINE), ("--ilv none", IN_TWO_SCANS), ("", IN_TWO_SCANS)]
MAXVAL_15 = "FFF8 000D 01 000F 0000 0000 0000 0000"
DEFAULTS = "FFF8 000D 01 0000 0000 0000 0000 0000"
THREE = frame(4, 1, 8, (1, 2, 3))

# J by RUNindex (A.7.1)
ORDERS = [0] * 4 + [1] * 4 + [2] * 4 + [3] * 4 + [4, 4, 5, 5, 6, 6, 7, 7] + list(range(8, 16))


def runs_of_each_order():
    """A line of zeros, behind which RUNindex is 31, and a line with a run for each RUNindex from 31 down, interrupted halfway."""
    second, at = [0] * 65535, 0
    for index in range(31, -1, -1):
        at += 2 ** ORDERS[index] // 2
        second[at] = 7 * index + 11
        at += 2  # the sample between is coded in regular mode
    return [0] * 65535 + second


def long_lines(precision, code):
    """The two lines as a copy with this scan data, and where its EOI stands, its report and its PNM file."""
    copy = made(SOI, frame(65535, 2, precision), SCAN, code, EOI)
    size = 1 if precision == 8 else 2
    raster = b"".join(sample.to_bytes(size, "big") for sample in runs_of_each_order())
    pnm = b"P5\n65535 2\n%d\n" % (2**precision - 1) + raster
    return copy, len(copy) - 2, report_of(65535, 2, precision), pnm, [("", copy)]


# the scan data that CharLS 2.4.1 wrote of them, in 8 and in 16 bits
LONG_8 = """FF7FFF7FD000004D4001D000050268001917A00040768002E13A007C7340094FE802C12D00CC57403A18D00846F40281ED01784741D829
A1F42FA1EAEB473BDD1B2FC465BB117ADC4AF66250AF124D5890A9C7DD18F4FE3B7D8E6EE2FF18B1BC518022554FFF7FFF78"""
LONG_16 = """FF7FFF7FD0002E3DC840016E6DC2001D5F50800E7798400E3F88401C0EF0806E7B420365D610357D210349CE106779420CB718411F42
10447F0840FD08FAF613CFC84ECEE1397A84DEE616BF10B4378593B42C2D61BBC786D31A1ADCB0D36484FE7098CA1238C22B05BFFF7FFF60"""

# what it is; the copy; where its EOI stands; the report; its PNM file; and its JPEG-LS files by the options of `write`
WHOLE = [
    ("four lines", FOUR_LINES, 55, report_of(4, 4), FOUR_PNM, [("", FOUR_LINES), ("--ilv line", FOUR_LINES)]),
    ("one component by line", made(SOI, frame(4, 4), "FFDA 0008 01 0100 00 01 00", FOUR_CODE, EOI), 55, report_of(4, 4), FOUR_PNM, []),
    ("a skipped segment", made(SOI, "FFE8 0004 AABB", frame(4, 4), SCAN, FOUR_CODE, EOI), 61, report_of(4, 4), FOUR_PNM, []),
    ("bytes behind the end", FOUR_LINES + b"\xff\xd8", 55, report_of(4, 4), FOUR_PNM, [("", FOUR_LINES)]),
    ("ten lines", TEN_LINES, 59, report_of(1, 10), TEN_PNM, [("--ri 1", TEN_LINES)]),
    ("a restart interval of 3 bytes", ten(TEN_CODE, "FFDD 0005 000001"), 60, report_of(1, 10), TEN_PNM, [("--ri 1", TEN_LINES)]),
    ("a restart interval of 4 bytes", ten(TEN_CODE, "FFDD 0006 00000001"), 61, report_of(1, 10), TEN_PNM, []),
    ("fill of 100,000 bytes", made(TEN_HEADERS, "80", "FF" * 100000, TEN_CODE[5:], EOI), 100058, report_of(1, 10), TEN_PNM, []),
    ("2 bits", made(SOI, frame(1, 1, 2), SCAN, "40", EOI), 26, report_of(1, 1, 2), b"P5\n1 1\n3\n\x03", []),
    ("16 bits", made(SOI, frame(1, 1, 16), SCAN, "4000", EOI), 27, report_of(1, 1, 16), b"P5\n1 1\n65535\n\xff\xff", []),
    # an error of -1 is coded 40; of 15, with the default parameters: a zero, seven zeros, a one, two bits
    ("MAXVAL 15", made(ONE, MAXVAL_15, SCAN, "40", EOI), 41, report_of(1, 1), b"P5\n1 1\n255\n\x0f", [("", made(ONE, SCAN, "00A0", EOI))]),
    ("two components by line", BY_LINE, 32, *TWO_COMPONENTS, IN_BOTH_FORMS),
    ("two components in two scans", IN_TWO_SCANS, 40, *TWO_COMPONENTS, IN_BOTH_FORMS),
    ("parameters for one scan alone", two(8, f"{MAXVAL_15} {SCAN} 40", f"{DEFAULTS} FFDA 0008 01 0200 00 00 00 40"), 70,
     report_of(1, 1, ids=(1, 2)), b"P7\nWIDTH 1\nHEIGHT 1\nDEPTH 2\nMAXVAL 255\nENDHDR\n\x0f\xff", []),
    ("three components by line", made(SOI, THREE, "FFDA 000C 03 0100 0200 0300 00 01 00 FF78", EOI), 37,
     report_of(4, 1, ids=(1, 2, 3)), b"P6\n4 1\n255\n" + bytes(12), []),
    ("runs of each order, written by CharLS", *long_lines(8, LONG_8)),
    ("runs of each order in 16 bits, written by CharLS", *long_lines(16, LONG_16)),
]

# width, height, scan data, and its samples or its fault
PIECES = [
    (1, 1, "80", [0]), (1, 1, "40", [255]), (1, 1, "50", [1]), (1, 1, "60", [254]), (1, 1, "28", [3]),
    (12, 1, "FF00", [0] * 12),  # eight ones, and so a stuffed bit behind them
    (16, 1, "FF40", [0] * 16), (13, 1, "FF40", [0] * 13),  # the ninth one stands behind the stuffed bit
    (5, 1, "F000001B20", [0, 0, 0, 0, 90]), (5, 1, "F8", [0] * 5),
    (5, 1, "F4", "broken"),  # a zero, and a count that reaches the end of the line
    (1, 1, "C0", [0]), (1, 2, "C0", [0, 0]),  # a bit of one as padding; two lines
    (1, 1, "8000", "long"), (1, 1, "8000FF00", "long"), (1, 1, "8000FF90", "broken"), (1, 1, "", "broken"),
    (1, 1, "00000100", "broken"),  # the long code for a number that has a short one
    (1, 1, "000001FF00", "broken"),  # a number to which no error maps
    (3, 2, "C5D0", [0, 0, 5, 0, 0, 5]), (3, 2, "C5E0", [0, 0, 5, 0, 0, 0]),
    (3, 2, "C5C5", "broken"),  # a run that its own value interrupts
    (4, 4, FOUR_CODE + "00", "long"),
    (1, 2, "5000", "broken"), (1, 2, "50000C", [1, 34]),
]

ALL_TEN = {line: line for line in range(10)}


def without(*lines):
    """The ten lines but for these."""
    return {line: line for line in range(10) if line not in lines}


LOST_MARKER = ten("80 FFD0 50 FFD1 70 FFD2 28      38 FFD4 14 FFD5 1C FFD6 0A FFD7 0E FFD0 05")
LOST_LINE = ten("80 FFD0 50 FFD1 70 FFA3 FFD2 28 FFD3 38 FFD4 14 FFD5 1C FFD6 0A FFD7 0E FFD0 05")
CHANGED = ten("80 FFD0 50 FFD1 70 FFD2 28 FFD3 38 FFD4 14 FFD5 0E FFD6 0A FFD7 0E FFD0 05")  # line 6 is 8

# ten lines of one sample, damaged: what it is; the copy; the trace; the lines that are left
DAMAGED = [
    ("seven markers lost", ten("80 FFD7 0E FFD0 05"), "end eoi 38\n", {0: 0, 8: 8, 9: 9}),
    ("eight markers lost: the marker says line 1", ten("80 FFD0 05"), "end eoi 35\n", {0: 0, 1: 9}),
    ("a marker lost", LOST_MARKER, "piece 0 3 40 long\nend eoi 57\n", without(3, 4)),
    ("an unknown marker", LOST_LINE, "piece 0 2 37 broken\nend eoi 61\n", without(2)),
    ("a marker too many", ten(f"{TEN_CODE} FFD5"), "piece 0 14 61 beyond\nend eoi 61\n", ALL_TEN),
    ("near-lossless", TEN_LINES[:28] + b"\x01" + TEN_LINES[29:], "end fault 6 21\n", {}),
    ("nothing behind the fifth line but FF", TEN_LINES[:45], "end input 45\n", without(5, 6, 7, 8, 9)),
    ("no code behind the headers", ten(""), "piece 0 0 31 broken\nend eoi 31\n", {}),
]

# other pictures: what it is; the copy; what `check` prints
# 65535x4096 zeros, of whose code 120 ones are there: the first line takes 32 of them, and each other line 2, since the runs have grown
LARGE = f"{SOI} {frame(65535, 4096)} {SCAN} {'FF7F' * 8}"
ODD = [
    ("a large frame", made(LARGE, EOI), "piece 0 0 25 broken\nend eoi 41\n" + report_of(65535, 4096, missing=[(0, 4095)])),
    ("a large frame, cut off", made(LARGE), "piece 0 0 25 broken\nend input 41\n" + report_of(65535, 4096, missing=[(45, 4095)])),
    ("a marker without restart intervals", made(ONE, SCAN, "80 FFD0 80", EOI), "piece 0 1 28 beyond\nend eoi 29\n" + report_of(1, 1)),
    ("two scans that differ", made(ONE, SCAN, "50", SCAN, "40", EOI), "end eoi 37\n" + report_of(1, 1, disputed=[(0, 2)])),
]

# what it is; the copy; the fault; the offset
NO_PICTURE = [
    ("nothing", "", 19, 0),
    ("half of a marker", "FF", 19, 1),
    ("no marker at the front", "00", 18, 0),
    ("another marker at the front", "FFD9", 18, 0),
    ("no frame", "FFD8 FFD9", 4, 2),
    ("a scan before the frame", f"FFD8 {SCAN}", 4, 2),
    ("1 bit", f"FFD8 {frame(1, 1, 1)}", 2, 2),
    ("17 bits", f"FFD8 {frame(1, 1, 17)}", 2, 2),
    ("height 0", f"FFD8 {frame(1, 0)}", 2, 2),
    ("width 0", f"FFD8 {frame(0, 1)}", 2, 2),
    ("five components", f"FFD8 {frame(1, 1, 8, (1, 2, 3, 4, 5))}", 2, 2),
    ("an identifier twice", f"FFD8 {frame(1, 1, 8, (1, 1))}", 2, 2),
    ("subsampling", "FFD8 FFF7 000B 08 0001 0001 01 012100", 3, 2),
    ("a length below 2", "FFD8 FFF7 0001", 1, 2),
    ("an LSE of ID 4", "FFD8 FFF8 0003 04", 13, 2),
    ("a baseline frame", "FFD8 FFC0 000B 08 0001 0001 01 011100", 14, 2),
    ("the first marker twice, with fill", "FFD8 FFFFD8", 14, 3),
    ("no marker behind the first", "FFD8 00", 17, 2),
]

# the same for 1x1 with a frame, and then a fault before any line is read
NO_SCAN = [
    ("a second frame", f"{ONE} {frame(1, 1)}", 5, 15),
    ("lines interleaved by sample", f"{ONE} FFDA 0008 01 0100 00 02 00 80 {EOI}", 7, 15),
    ("a mapping table", f"{ONE} FFDA 0008 01 0101 00 00 00 80 {EOI}", 8, 15),
    ("a point transform", f"{ONE} FFDA 0008 01 0100 00 00 01 80 {EOI}", 9, 15),
    ("a component that is not there", f"{ONE} FFDA 0008 01 0200 00 00 00 80 {EOI}", 10, 15),
    ("a component twice", f"{ONE} FFDA 000A 02 0100 0100 00 01 00 80 {EOI}", 11, 15),
    ("MAXVAL above 8 bits", f"{ONE} FFF8 000D 01 0100 0000 0000 0000 0000 {SCAN} 80 {EOI}", 12, 30),
    ("a restart marker in the headers", f"{ONE} FFD0", 14, 15),
]

HUGE = f"{SOI} {frame(65535, 65535)}"
ALL_GONE = report_of(65535, 65535, missing=[(0, 65534)])
# what it is; the copy; the trace; the report
SCANS = [
    ("a scan of more than 2^28 samples", f"{HUGE} {SCAN}", "end fault 15 15\n", ALL_GONE),
    ("4,096 lines in an interval", f"{HUGE} FFDD 0004 1000 {SCAN}", "piece 0 0 31 broken\nend input 31\n", ALL_GONE),
    ("4,097 lines in an interval", f"{HUGE} FFDD 0004 1001 {SCAN}", "end fault 15 21\n", ALL_GONE),
    ("sixteen scans", f"{ONE} {f'{SCAN} 40 ' * 16} {EOI}", f"end eoi {15 + 16 * 11}\n", report_of(1, 1)),
    ("the seventeenth scan", f"{ONE} {f'{SCAN} 40 ' * 17} {EOI}", f"end fault 16 {15 + 16 * 11}\n", report_of(1, 1)),
]

# 1x2, the samples 1 and 34 (code 50 00 0C): bytes before the cut, and the lines that stand
TWO_LINE_CUTS = [("", 0), ("50", 1), ("5000", 1), ("50000015", 1), ("50000010", 0), ("5000000000", 0)]

# joins of these copies
COPIES = {"marker": LOST_MARKER, "line": LOST_LINE, "changed": CHANGED}
JOIN_ORDERS = [("marker", "line"), ("line", "marker"), ("marker", "line", "marker")]
DISPUTED_ORDERS = [("marker", "line", "changed"), ("changed", "line", "marker"), ("line", "changed", "marker", "changed")]
DISPUTED_TEXT = text_of(1, 10, {line: [[6], [8]] if line == 6 else [[line]] for line in range(10)})

# 1x1, the readings 3 and 5: version 1, which has no sources, and version 2
TWO_OLD = made("4A4C5350 01 08 0001 0001 01 01 00000001", "00 0000 0000000000000002", "0003 0005")
TWO = made("4A4C5350 02 08 0001 0001 01 01 00000001", "00 0000 0000000000000002", "0003 0000000000000000 0005 0000000000000000")
NO_READING = made("4A4C5350 02 08 0001 0001 01 01 00000000")
THREE_OLD = made("4A4C5350 01 08 0001 0001 01 01 00000001", "00 0000 0000000000000001", "0003")
THREE_ALONE = text_of(1, 1, {0: [[3]]})
TEXTS = [
    ("two readings", TWO, 1, TWO),
    ("two readings, version 1", TWO_OLD, 1, TWO),
    ("one reading, version 1", THREE_OLD, 0, THREE_ALONE),
    ("no reading", NO_READING, 1, NO_READING),
]
SOURCED = made("4A4C5350 02 08 0001 0001 01 01 00000001", "00 0000 0000000000000001", "0003 0000000000000002 00000002 00000007")


def bad_texts():
    """Changes of the texts above, each with its fault."""
    return [
        ("readings swapped", TWO_OLD[:27] + made("0005 0003"), "order at 29"),
        ("a reading doubled", TWO_OLD[:27] + made("0003 0003"), "order at 29"),
        ("readings swapped, version 2", TWO[:27] + TWO[37:47] + TWO[27:37], "order at 37"),
        ("a reading doubled, version 2", TWO[:37] + TWO[27:37], "order at 37"),
        ("cut off", TWO_OLD[:-1], "truncated at 30"),
        ("cut off, version 2", TWO[:-1], "truncated at 46"),
        ("a byte more", TWO_OLD + b"\x00", "trailing at 31"),
        ("a byte more, version 2", TWO + b"\x00", "trailing at 47"),
        ("version 2 without sources", TWO_OLD[:4] + b"\x02" + TWO_OLD[5:], "truncated at 31"),
        ("version 3", TWO[:4] + b"\x03" + TWO[5:], "magic at 4"),
        ("version 0", TWO[:4] + b"\x00" + TWO[5:], "magic at 4"),
        ("another magic", b"JLSQ" + TWO[4:], "magic at 3"),
        ("1 bit", TWO[:5] + b"\x01" + TWO[6:], "shape at 5"),
        ("a width of 0", TWO[:6] + made("0000") + TWO[8:], "shape at 5"),
        ("no components", TWO[:10] + b"\x00", "shape at 5"),
        ("an identifier twice", TWO[:10] + made("02 0101"), "shape at 5"),
        ("an entry without readings", TWO[:19] + bytes(8) + TWO[27:], "count at 19"),
        ("line 1 of one", TWO[:17] + made("0001") + TWO[19:], "place at 16"),
        ("component 1 of one", TWO[:16] + b"\x01" + TWO[17:], "place at 16"),
        ("a sample of 9 bits", TWO_OLD[:29] + made("0100"), "sample at 29"),
        ("2^32 - 1 entries", TWO[:12] + made("FFFFFFFF") + TWO[16:], "truncated at 47"),
        ("sources swapped", SOURCED[:37] + SOURCED[41:45] + SOURCED[37:41], "order at 41"),
        ("a source doubled", SOURCED[:37] + SOURCED[41:45] * 2, "order at 41"),
        ("a source cut off", SOURCED[:-1], "truncated at 44"),
        ("a byte behind the sources", SOURCED + b"\x00", "trailing at 45"),
    ]


BAD_TEXTS = bad_texts()


def three_by(*numbers):
    """The text of the reading 3 under these sources."""
    return text_of(1, 1, {0: [[3]]}, {(0, 3): list(numbers)})


# the copy is 1x1, and its sample is 3
SOURCE_FILES = {"copy": made(ONE, SCAN, "28", EOI), "by_7": three_by(7), "by_2": three_by(2), "two": TWO, "old": TWO_OLD}
BOTH_BY_7 = text_of(1, 1, {0: [[3], [5]]}, {(0, 3): [7]})
SOURCES = [
    ("a copy under 7", "join --source 7 OUT copy", 0, three_by(7)),
    ("a copy under 7", "join --source=7 OUT copy", 0, three_by(7)),
    ("a copy twice under 7", "join --source 7 OUT copy copy", 0, three_by(7)),
    ("a copy under none", "join OUT copy", 0, THREE_ALONE),
    ("a text keeps its numbers", "join --source 9 OUT by_7", 0, three_by(7)),
    ("a copy beside a text", "join --source 9 OUT by_7 copy", 0, three_by(7, 9)),
    ("a copy beside a text", "join --source 2 OUT copy by_7", 0, SOURCED),
    ("two texts", "join OUT by_7 by_2", 0, SOURCED),
    ("two texts, turned", "join OUT by_2 by_7", 0, SOURCED),
    ("a text twice", "join OUT by_7 by_2 by_7", 0, SOURCED),
    ("readings without sources", "join OUT two by_7", 1, BOTH_BY_7),
    ("a text of version 1", "join OUT old by_7", 1, BOTH_BY_7),
    ("a copy beside a text of version 1", "join --source 7 OUT old copy", 1, BOTH_BY_7),
    ("a text of version 1 alone", "join --source 7 OUT old", 1, TWO),
]
TAKEN_NUMBERS = ["0", "1", "4294967295"]
REFUSED_NUMBERS = ["4294967296", "-1", "x", "", "0x7", "7 ", "1" * 30]
REFUSED_WORDS = [
    "join --source 1 --source 2 OUT copy", "join --source OUT", "show --source 1 copy", "check --source 1 copy",
    "write --source 1 --as pnm OUT copy", "write --ri 65536 --as jls OUT copy", "write --as gif OUT copy", "write OUT copy", "join OUT",
]
