"""Changes of definitions of jls_copy that contracts and the laws above share, and the worked value that refuses each.

No law sees a mistake in such a definition, if the body has it too. Each row has the change of specs/, the change of the body that means the
same, and the name of the worked value in proofs/ that the change makes wrong. `function` is the one whose body changes. Where there is no
body, `why` says why.
"""
from typing import NamedTuple, Tuple


class Change(NamedTuple):
    """`specs`, and each of `body`, are a file of crates/jls_copy, the text there, which stands in it once, and the text in its place."""

    name: str
    example: str
    specs: Tuple[str, str, str]
    body: Tuple[Tuple[str, str, str], ...] = ()
    function: str = ""
    why: str = ""


SCAN_DATA, NUMBERS, COURSE, PIECES = (f"specs/{name}.antt" for name in ("ScanData", "Numbers", "Course", "Pieces"))
INTERVAL_OF, STATE = "specs/IntervalOf.antt", "specs/ReaderState.antt"
SCAN, FINDINGS, PIECE = "src/scan.rt", "src/findings.rt", "src/piece.rt"
CLASS = "b = if b == 0xFF then Fill else if is_restart_code b then Mark else "
TURN = "    ∷ placed components (if place + 1 == length components then row + 1 else row)"

CHANGES = [
    Change(
        "ends_scan_data leaves out LSE",
        "codes_that_close",
        (SCAN_DATA, "(code == 0xDD) || (code == 0xF8) ||", "(code == 0xDD) ||"),
        ((SCAN, "        || code == LSE\n", ""), (SCAN, "DRI, EOI, LSE, RST0", "DRI, EOI, RST0")),
        "scan::ends_scan_data",
    ),
    Change(
        "ends_scan_data has the frame's code",
        "codes_that_close",
        (SCAN_DATA, "(code == 0xDD) || (code == 0xF8)", "(code == 0xDD) || (code == 0xF7) || (code == 0xF8)"),
        ((SCAN, "        || code == LSE\n", "        || code == LSE\n        || code == 0xF7\n"),),
        "scan::ends_scan_data",
    ),
    Change(
        "is_restart_code leaves out RST7",
        "codes_that_close",
        (SCAN_DATA, "nat_le code 0xD7", "nat_le code 0xD6"),
        ((SCAN, "code >= RST0 && code <= RST7", "code >= RST0 && code < RST7"),),
        "scan::is_restart_code",
    ),
    Change(
        "closes_piece has the marks alone",
        "codes_that_close",
        (SCAN_DATA, "closes_piece code = is_restart_code code || ends_scan_data code", "closes_piece code = is_restart_code code"),
        (
            (STATE, f"class_of One {CLASS}if ends_scan_data b then Stop else Data", f"class_of One {CLASS}Data"),
            (STATE, f"class_of More {CLASS}if ends_scan_data b then Stop else Data", f"class_of More {CLASS}Data"),
            (SCAN, "    } else if ends_scan_data(byte) {\n        ByteClass::Stop\n", ""),
        ),
        "scan::class_after",
    ),
    Change(
        "IsPiece lets 0xFF be last",
        "ff_last_is_no_piece",
        (SCAN_DATA, "IsPiece (b ∷ []) = b ≢ 0xFF", "IsPiece (b ∷ []) = Unit {0}"),
        why="what the body takes for pieces are pieces still",
    ),
    Change(
        "closed_bytes leaves out the fill bytes",
        "closed_by_rst5",
        (SCAN_DATA, "(fill_bytes c.fill ++ (0xFF ∷ (0xD0 + c.mark) ∷ []))", "(0xFF ∷ (0xD0 + c.mark) ∷ [])"),
        why="no function puts a piece and its mark together",
    ),
    Change(
        "IsClosedPiece has RST8",
        "no_mark_above_seven",
        (SCAN_DATA, "IsPiece c.piece × (c.mark < 8)", "IsPiece c.piece × (c.mark ≤ 8)"),
        why="the body gives no mark above 7",
    ),
    Change(
        "next_number takes the mark before an interval for the one behind it",
        "after_0",
        (NUMBERS, "next_number last m = last + 1 + (m + 8 - last % 8) % 8", "next_number last m = last + 1 + (m + 7 - last % 8) % 8"),
        ((SCAN, "last + 1 + (u32::from(mark) + 8 - last % 8) % 8", "last + 1 + (u32::from(mark) + 7 - last % 8) % 8"),),
        "scan::next_number",
    ),
    Change(
        "numbered has one number too many",
        "numbers_of_three",
        (NUMBERS, "numbered intervals number = if nat_lt number intervals", "numbered intervals number = if nat_lt number (intervals + 1)"),
        ((PIECE, "if number >= plan.intervals() {", "if number > plan.intervals() {"),),
        "piece::OpenPiece::open",
    ),
    Change(
        "given_last gives a number beyond the last interval",
        "beyond_is_not_given",
        (NUMBERS, "given_last last (BeyondLast number) = last", "given_last last (BeyondLast number) = number"),
        ((SCAN, "        if number < count {\n            self.last = number;\n        }\n", "        self.last = number;\n"),),
        "scan::OpenScan::begin",
    ),
    Change(
        "numbers_after counts each mark from the first number",
        "numbers_of_three",
        (NUMBERS, "numbers_after intervals (given_last last number) marks", "numbers_after intervals last marks"),
        why="no function has the marks of a scan at once",
    ),
    Change(
        "RiseByEightAtMost lets numbers rise by nine",
        "eight_lost_do_not_rise",
        (NUMBERS, "(number ≤ last + 8)", "(number ≤ last + 9)"),
        why="no function computes it",
    ),
    Change(
        "RiseByEightAtMost has the number of intervals among the numbers",
        "beyond_does_not_rise",
        (NUMBERS, "(number < intervals) × RiseByEightAtMost", "(number ≤ intervals) × RiseByEightAtMost"),
        why="no function computes it",
    ),
    Change(
        "mark_before is the mark behind",
        "marks_before",
        (NUMBERS, "mark_before number = (number - 1) % 8", "mark_before number = number % 8"),
        why="no function of the crate computes it",
    ),
    Change(
        "interval_of gives the last interval the rows of the first",
        "last_interval",
        (INTERVAL_OF, "line_count = row_count s k * components", "line_count = row_count s 0 * components"),
        (
            (STATE, "rows = row_count s k;", "rows = row_count s 0;"),
            (PIECE, "let (_, rows) = plan.rows(number);", "let (_, rows) = plan.rows(0);"),
        ),
        "piece::OpenPiece::open",
    ),
    Change(
        "interval_of has a line for each row",
        "first_interval",
        (INTERVAL_OF, "line_count = row_count s k * components", "line_count = row_count s k"),
        why="a decoder of jls_interval counts the lines",
    ),
    Change(
        "placed begins a row with each line",
        "placed_by_turns",
        (PIECES, TURN, "    ∷ placed components (row + 1)"),
        ((FINDINGS, "            row += 1;\n        }\n    }\n", "        }\n        row += 1;\n    }\n"),),
        "findings::take_lines",
    ),
    Change(
        "placed counts components in the scan and not in the frame",
        "placed_by_turns",
        (PIECES, "reading_of (get_or components place 0) row line", "reading_of place row line"),
        ((FINDINGS, "take_line(partial, components[place], row, &line)?;", "take_line(partial, place as u8, row, &line)?;"),),
        "findings::take_lines",
    ),
    Change(
        "segment_unit_bytes has a length without its own two bytes",
        "lse_unit",
        (COURSE, "let size : ℕ = length payload + 2 in fill_bytes fill", "let size : ℕ = length payload in fill_bytes fill"),
        why="no function puts a segment together",
    ),
    Change(
        "unit_bytes leaves out the bytes 0xFF at the input's end",
        "scan_unit",
        (COURSE, "dropped_bytes (by_input count) = fill_bytes count", "dropped_bytes (by_input count) = []"),
        why="no function puts a unit together",
    ),
]
