"""A plain coder of one interval of JPEG-LS scan data, to compare with: slow, short, and written from ITU-T T.87, annex A, at NEAR 0.

`code` gives the bits that lines are written as, column by column as the standard's procedures say, and `write` packs them. `read` says
what a piece of scan data is: a list of lines, LONG or BROKEN. It looks for lines as a decoder that believes its bits, and then judges by
`code` alone. A piece reads as lines if and only if its data bits are their code and at most seven bits more. `head` says which lines are
complete in a piece that breaks off. It tries each event that can come next, and judges by `code` alone.
"""
import copy
import sys
from dataclasses import dataclass

LONG, BROKEN = "long", "broken"

ORDERS = [0] * 4 + [1] * 4 + [2] * 4 + [3] * 4 + [4, 4, 5, 5, 6, 6, 7, 7] + list(range(8, 16))  # J by RUNindex


class Params:
    """The parameters in force. A 0 asks for the default (C.2.4.1.1)."""

    def __init__(self, precision, maxval=0, t1=0, t2=0, t3=0, reset=0):
        def clamp(value, low):
            return low if value > self.maxval or value < low else value

        self.given = (precision, maxval, t1, t2, t3, reset)
        self.maxval = maxval or 2**precision - 1
        if self.maxval >= 128:
            factor = (min(self.maxval, 4095) + 128) // 256
            defaults = factor + 2, 4 * factor + 3, 17 * factor + 4
        else:
            factor = 256 // (self.maxval + 1)
            defaults = max(2, 3 // factor), max(3, 7 // factor), max(4, 21 // factor)
        self.t1 = t1 or clamp(defaults[0], 1)
        self.t2 = t2 or clamp(defaults[1], self.t1)
        self.t3 = t3 or clamp(defaults[2], self.t2)
        self.reset = reset or 64
        self.range = self.maxval + 1
        self.qbpp = self.maxval.bit_length()  # the least q with 2^q >= RANGE
        bpp = max(2, self.qbpp)
        self.limit = 2 * (bpp + max(8, bpp))


@dataclass
class Cell:
    """The variables of a context of regular mode (A.2)."""

    a: int
    b: int = 0
    c: int = 0
    n: int = 1

    def k(self):
        return least_k(self.n, self.a)

    def is_special(self):
        return self.k() == 0 and 2 * self.b <= -self.n

    def mapped(self, error):
        """A.5.2."""
        if self.is_special():
            return 2 * error + 1 if error >= 0 else -2 * (error + 1)
        return 2 * error if error >= 0 else -2 * error - 1

    def error(self, mapped):
        """The error that is mapped to this number."""
        if self.is_special():
            return mapped // 2 if mapped % 2 == 1 else -(mapped // 2) - 1
        return mapped // 2 if mapped % 2 == 0 else -(mapped // 2) - 1

    def update(self, error, reset):
        """A.6."""
        self.b += error
        self.a += abs(error)
        if self.n == reset:
            self.a //= 2
            self.b = self.b // 2 if self.b >= 0 else -((1 - self.b) // 2)
            self.n //= 2
        self.n += 1
        if self.b <= -self.n:
            self.b += self.n
            if self.c > -128:
                self.c -= 1
            if self.b <= -self.n:
                self.b = -self.n + 1
        elif self.b > 0:
            self.b -= self.n
            if self.c < 127:
                self.c += 1
            if self.b > 0:
                self.b = 0


@dataclass
class RunCell:
    """The variables of a context of run interruption (A.7.2)."""

    ritype: int
    a: int
    n: int = 1
    nn: int = 0

    def k(self):
        return least_k(self.n, self.a + (self.n // 2 if self.ritype == 1 else 0))

    def map(self, error):
        if self.k() == 0 and error > 0 and 2 * self.nn < self.n:
            return 1
        if error < 0 and 2 * self.nn >= self.n:
            return 1
        if error < 0 and self.k() != 0:
            return 1
        return 0

    def mapped(self, error):
        return 2 * abs(error) - self.ritype - self.map(error)

    def error(self, mapped):
        """The error that is mapped to this number."""
        size = (mapped + self.ritype + 1) // 2
        return size if self.mapped(size) == mapped else -size

    def update(self, error, reset):
        mapped = self.mapped(error)
        if error < 0:
            self.nn += 1
        self.a += (mapped + 1 - self.ritype) // 2
        if self.n == reset:
            self.a //= 2
            self.n //= 2
            self.nn //= 2
        self.n += 1


def least_k(n, a):
    k = 0
    while n << k < a:
        k += 1
    return k


class NoLines(Exception):
    """A decoder wants a bit where none is left, or meets a count that reaches the end of the line."""


class Interval:
    """The state of an interval that is coded: the variables of all contexts, and the lines so far."""

    def __init__(self, params, width, components):
        self.params, self.width, self.components = params, width, components
        self.first_a = max(2, (params.range + 32) // 64)
        self.cells = {}
        self.run_cells = [RunCell(ritype, self.first_a) for ritype in (0, 1)]
        self.run_index = [0] * components
        self.lines = []

    def above(self, lines_up, x):
        """Sample x of the line so many lines above the last one, in the same component; 0 above the interval."""
        at = len(self.lines) - 1 - lines_up * self.components
        return self.lines[at][x] if at >= 0 else 0

    def neighbours(self):
        """Ra, Rb, Rc, Rd round the next column of the last line (A.2)."""
        x = len(self.lines[-1])
        rb = self.above(1, x)
        ra = self.lines[-1][x - 1] if x > 0 else rb
        rc = self.above(1, x - 1) if x > 0 else self.above(2, 0)
        rd = self.above(1, x + 1) if x + 1 < self.width else rb
        return ra, rb, rc, rd

    def level(self, gradient):
        """A.3.3."""
        p = self.params
        size = 0 if gradient == 0 else 1 + sum(abs(gradient) >= t for t in (p.t1, p.t2, p.t3))
        return size if gradient > 0 else -size

    def context(self):
        """The cell and SIGN of the next column, or None in run mode (A.3)."""
        ra, rb, rc, rd = self.neighbours()
        levels = self.level(rd - rb), self.level(rb - rc), self.level(rc - ra)
        if levels == (0, 0, 0):
            return None
        sign = -1 if next(level for level in levels if level != 0) < 0 else 1
        levels = tuple(sign * level for level in levels)
        return self.cells.setdefault(levels, Cell(self.first_a)), sign

    def prediction(self, cell, sign):
        """A.4.1 and A.4.2."""
        ra, rb, rc, _ = self.neighbours()
        if rc >= max(ra, rb):
            edge = min(ra, rb)
        elif rc <= min(ra, rb):
            edge = max(ra, rb)
        else:
            edge = ra + rb - rc
        return max(0, min(self.params.maxval, edge + sign * cell.c))

    def interruption(self):
        """The cell, SIGN and prediction of the next column as a run's interrupting sample (A.7.2)."""
        ra, rb, _, _ = self.neighbours()
        return self.run_cells[1 if ra == rb else 0], -1 if ra > rb else 1, rb

    def reduced(self, error):
        """A.4.5."""
        error %= self.params.range
        return error - self.params.range if error >= (self.params.range + 1) // 2 else error


def golomb(k, g, qbpp, number):
    """The bits of LG(k, g) of a number (A.5.3)."""
    quotient = number >> k
    if quotient < g - qbpp - 1:
        return [0] * quotient + [1] + bits_of(number, k)
    return [0] * (g - qbpp - 1) + [1] + bits_of(number - 1, qbpp)


def bits_of(number, count):
    return [number >> at & 1 for at in reversed(range(count))]


# Writing ---------------------------------------------------------------------------------------------


def code(params, width, components, lines):
    """The bits that lines are written as; they stand row by row, and in a row by component."""
    interval, bits = Interval(params, width, components), []
    for line in lines:
        interval.lines.append([])
        while len(interval.lines[-1]) < width:
            found = interval.context()
            if found is None:
                bits += run_code(interval, line)
            else:
                bits += regular_code(interval, *found, line[len(interval.lines[-1])])
    return bits


def regular_code(interval, cell, sign, sample):
    params = interval.params
    error = interval.reduced(sign * (sample - interval.prediction(cell, sign)))
    bits = golomb(cell.k(), params.limit, params.qbpp, cell.mapped(error))
    cell.update(error, params.reset)
    interval.lines[-1].append(sample)
    return bits


def run_code(interval, line):
    """The bits of a run, with those of the sample that interrupts it (A.7.1)."""
    component = (len(interval.lines) - 1) % interval.components
    so_far, value, count, bits = interval.lines[-1], interval.neighbours()[0], 0, []
    while len(so_far) < interval.width and line[len(so_far)] == value:
        so_far.append(value)
        count += 1
    while count >= 1 << ORDERS[interval.run_index[component]]:
        bits.append(1)
        count -= 1 << ORDERS[interval.run_index[component]]
        interval.run_index[component] = min(31, interval.run_index[component] + 1)
    if len(so_far) == interval.width:
        return bits + [1] * (count > 0)
    order = ORDERS[interval.run_index[component]]
    bits += [0] + bits_of(count, order) + interruption_code(interval, order, line[len(so_far)])
    interval.run_index[component] = max(0, interval.run_index[component] - 1)
    return bits


def interruption_code(interval, order, sample):
    params = interval.params
    cell, sign, prediction = interval.interruption()
    error = interval.reduced(sign * (sample - prediction))
    bits = golomb(cell.k(), params.limit - order - 1, params.qbpp, cell.mapped(error))
    cell.update(error, params.reset)
    interval.lines[-1].append(sample)
    return bits


def pack(bits):
    """Bytes with these data bits: a 0 is stuffed behind each FF, zeros fill the last byte, and no FF is last (A.1)."""
    piece, at = bytearray(), 0
    while at < len(bits) or piece[-1:] == b"\xff":
        room = 7 if piece[-1:] == b"\xff" else 8
        taken = bits[at : at + room]
        piece.append(int("".join(map(str, taken + [0] * (room - len(taken)))), 2))
        at += room
    return bytes(piece)


def write(params, width, components, lines):
    return pack(code(params, width, components, lines))


# Reading ---------------------------------------------------------------------------------------------


def data_bits(piece):
    """The data bits of a piece, or None where a byte of 80 or more follows FF (A.1)."""
    bits, before = [], 0
    for byte in piece:
        if before == 0xFF and byte >= 0x80:
            return None
        bits += bits_of(byte, 7 if before == 0xFF else 8)
        before = byte
    return bits


def read(params, width, components, rows, piece):
    """What a piece is: the lines that it reads as, or LONG, or BROKEN."""
    bits = data_bits(piece)
    if bits is None:
        return BROKEN
    try:
        lines = believed(params, width, components, rows * components, bits)
    except NoLines:
        return BROKEN
    wanted = code(params, width, components, lines)
    if bits[: len(wanted)] != wanted:
        return BROKEN
    return lines if len(bits) - len(wanted) <= 7 else LONG


def believed(params, width, components, count, bits):
    """The lines whose code stands at the front of the bits, if any do; it is for the caller to make sure."""
    interval, left = Interval(params, width, components), iter(bits)
    for _ in range(count):
        interval.lines.append([])
        while len(interval.lines[-1]) < width:
            found = interval.context()
            if found is None:
                read_run(interval, left)
            else:
                cell, sign = found
                read_sample(interval, left, cell, sign, interval.prediction(cell, sign), params.limit)
    return interval.lines


def next_bit(left):
    bit = next(left, None)
    if bit is None:
        raise NoLines
    return bit


def read_number(left, count):
    number = 0
    for _ in range(count):
        number = 2 * number + next_bit(left)
    return number


def read_sample(interval, left, cell, sign, prediction, g):
    """The next column, as LG(k, g) of its mapped error."""
    params, zeros = interval.params, 0
    while next_bit(left) == 0:
        zeros += 1
    if zeros < g - params.qbpp - 1:
        mapped = (zeros << cell.k()) + read_number(left, cell.k())
    else:
        mapped = read_number(left, params.qbpp) + 1
    error = interval.reduced(cell.error(mapped))
    cell.update(error, params.reset)
    interval.lines[-1].append((prediction + sign * error) % params.range)


def read_run(interval, left):
    """A run, with the sample that interrupts it."""
    component = (len(interval.lines) - 1) % interval.components
    so_far, value = interval.lines[-1], interval.neighbours()[0]
    while next_bit(left) == 1:
        block, room = 1 << ORDERS[interval.run_index[component]], interval.width - len(so_far)
        so_far += [value] * min(block, room)
        if block <= room:
            interval.run_index[component] = min(31, interval.run_index[component] + 1)
        if block >= room:
            return
    order = ORDERS[interval.run_index[component]]
    count = read_number(left, order)
    if count >= interval.width - len(so_far):
        raise NoLines
    so_far += [value] * count
    read_sample(interval, left, *interval.interruption(), interval.params.limit - order - 1)
    interval.run_index[component] = max(0, interval.run_index[component] - 1)


# Heads -----------------------------------------------------------------------------------------------


def head(params, width, components, rows, piece):
    """The head of a piece: the longest list of first lines with whose code its data bits begin, where these are a proper prefix of
    the code of some lines; else no line."""
    bits = data_bits(piece)
    interval = None if bits is None else cut_interval(params, width, components, rows * components, bits)
    if interval is None:
        return []
    return [line for line in interval.lines if len(line) == width]


def cut_interval(params, width, components, count, bits):
    """The whole events at the front of the bits, where what is left of these begins an event that can come next; else None."""
    interval, at = Interval(params, width, components), 0
    while True:
        if not interval.lines or len(interval.lines[-1]) == width:
            if len(interval.lines) == count:
                return None
            interval.lines.append([])
        after, left = copy.deepcopy(interval), Counted(bits[at:])
        try:
            read_event(after, left)
        except NoLines:
            return interval if begins_event(interval, bits[at:]) else None
        if event_code(interval, after.lines[-1]) != bits[at : at + left.taken]:
            return None
        interval, at = after, at + left.taken


class Counted:
    """Gives bits in turn, and counts them."""

    def __init__(self, bits):
        self.bits, self.taken = bits, 0

    def __iter__(self):
        return self

    def __next__(self):
        if self.taken == len(self.bits):
            raise StopIteration
        self.taken += 1
        return self.bits[self.taken - 1]


def read_event(interval, left):
    found = interval.context()
    if found is None:
        read_run(interval, left)
    else:
        cell, sign = found
        read_sample(interval, left, cell, sign, interval.prediction(cell, sign), interval.params.limit)


def event_code(interval, line):
    """The bits of the event that brings the last line to these samples; None where no single event does."""
    after, found = copy.deepcopy(interval), interval.context()
    if found is not None:
        return regular_code(after, *after.context(), line[-1])
    value, begun = interval.neighbours()[0], len(interval.lines[-1])
    if len(line) < interval.width and line[-1] == value or any(sample != value for sample in line[begun:-1]):
        return None
    return run_code(after, line)


def begins_event(interval, bits):
    """Whether the bits, which may be none, are the first ones, and not all, of an event that can come next."""
    params = interval.params
    found = interval.context()
    if found is None:
        return any(begins(bits, run) for run in runs(interval, bits))
    cell = found[0]
    return any(begins(bits, golomb(cell.k(), params.limit, params.qbpp, cell.mapped(error))) for error in errors(params))


def begins(bits, whole):
    return len(bits) < len(whole) and whole[: len(bits)] == bits


def errors(params):
    """Every error that a sample can have, after its reduction (A.4.5)."""
    half = (params.range + 1) // 2
    return range(half - params.range, half)


def runs(interval, bits):
    """The bits of the runs that can come next, of those that agree with the bits for as long as they have blocks and a count."""
    params, so_far = interval.params, interval.lines[-1]
    component, value = (len(interval.lines) - 1) % interval.components, interval.neighbours()[0]
    for count in range(interval.width - len(so_far) + 1):
        index, left, written = interval.run_index[component], count, []
        while left >= 1 << ORDERS[index]:
            written.append(1)
            left -= 1 << ORDERS[index]
            index = min(31, index + 1)
        if count == interval.width - len(so_far):
            yield written + [1] * (left > 0)
            return
        written += [0] + bits_of(left, ORDERS[index])
        if not all(bit == wanted for bit, wanted in zip(bits, written)):
            continue
        after = copy.deepcopy(interval)
        after.lines[-1] += [value] * count
        cell, sign, prediction = after.interruption()
        own = after.reduced(sign * (value - prediction))
        for error in errors(params):
            if error != own:
                yield written + golomb(cell.k(), params.limit - ORDERS[index] - 1, params.qbpp, cell.mapped(error))


# Tables ----------------------------------------------------------------------------------------------


def one_bit_changes(piece):
    """The piece with one bit changed, each in turn, from the most significant bit of the first byte on."""
    for at in range(8 * len(piece)):
        changed = bytearray(piece)
        changed[at // 8] ^= 0x80 >> at % 8
        yield bytes(changed)


def main():
    """WIDTH ROWS BYTE..: what each one-bit change makes of a piece of 8 bits and one component, and then its prefixes.

    A line of letters: r where it reads, L where it is too long, B where it is broken; and the lines of those that read.
    """
    width, rows, piece = int(sys.argv[1]), int(sys.argv[2]), bytes.fromhex("".join(sys.argv[3:]))
    for pieces in (list(one_bit_changes(piece)), [piece[:n] for n in range(len(piece))]):
        found = [read(Params(8), width, 1, rows, piece) for piece in pieces]
        print("".join("r" if isinstance(answer, list) else {LONG: "L", BROKEN: "B"}[answer] for answer in found))
        for answer in found:
            if isinstance(answer, list):
                print(answer)


if __name__ == "__main__":
    main()
