"""Codes a scan of JPEG-LS event by event (T.87, annex A, at NEAR 0), from any event on once more.

The library writes whole pictures. Here it is asked which bytes a sample is in, and which other samples the same bytes could be of. What is
coded is compared with the bytes of a frame before anything rests on it.
"""
from __future__ import annotations

from collections.abc import Sequence

ORDERS = [0] * 4 + [1] * 4 + [2] * 4 + [3] * 4 + [4, 4, 5, 5, 6, 6, 7, 7] + list(range(8, 16))  # J by RUNindex (A.2.1)
MOST_EVENTS, MOST_SITES = 1 << 20, 1 << 11  # that are coded in search of other samples; and samples that are looked at
REACH = 64  # bytes in which an event stands, at most
INTERRUPTIONS = 365  # the contexts of regular mode stand before the two of run interruption
Lines = list[list[int]]


class Params:
    """MAXVAL, three thresholds and RESET, and what follows from them (A.2.1)."""

    def __init__(self, presets: Sequence[int]) -> None:
        self.maxval, self.t1, self.t2, self.t3, self.reset = presets
        self.range = self.maxval + 1
        self.bits = self.maxval.bit_length()  # qbpp
        self.limit = 2 * (max(2, self.bits) + max(8, self.bits))
        steps = [self.step_of(size) for size in range(self.maxval + 1)]
        self.steps = steps + [-step for step in reversed(steps[1:])]  # by difference: a negative one counts from the end

    def step_of(self, size: int) -> int:
        """A.3.3."""
        return 0 if size == 0 else 1 if size < self.t1 else 2 if size < self.t2 else 3 if size < self.t3 else 4


class Picture:
    """The lines of the components of a scan, row by row, each with the samples beside it that a coder wants.

    `rows` are those of a restart interval; 0 for all. Before a line stands the first sample of the line above, after it its last one.
    """

    def __init__(self, components: Sequence[Lines], rows: int) -> None:
        self.count, self.rows = len(components), rows
        self.lines: Lines = [[0, *row[at], row[at][-1]] for at in range(len(components[0])) for row in components]
        self.width = len(components[0][0])
        self.zeros = [0] * (self.width + 2)
        for number in range(len(self.lines)):
            self.lines[number][0] = self.above(number)[1]

    def is_first(self, number: int) -> bool:
        """Whether a line is in the first row of a restart interval."""
        row = number // self.count
        return row == 0 or self.rows > 0 and row % self.rows == 0

    def above(self, number: int) -> list[int]:
        return self.zeros if self.is_first(number) else self.lines[number - self.count]

    def set(self, number: int, column: int, sample: int) -> None:
        """Gives a sample of a line another value."""
        line, below = self.lines[number], number + self.count
        line[column + 1] = sample
        if column + 1 == self.width:
            line[-1] = sample
        if column == 0 and below < len(self.lines) and not self.is_first(below):
            self.lines[below][0] = sample


class Coder:
    """Where the coding of a scan is, and the bytes that it wrote since it began or was copied: the first of them is byte `begin`."""

    def __init__(self, params: Params, picture: Picture) -> None:
        self.params, self.picture = params, picture
        self.line = self.column = 0
        self.begin = 0
        self.out = bytearray()
        self.bits = self.count = 0  # those that no byte has yet
        self.start_interval()

    def start_interval(self) -> None:
        first = max(2, (self.params.range + 32) // 64)
        self.a, self.n = [first] * (INTERRUPTIONS + 2), [1] * (INTERRUPTIONS + 2)
        self.b, self.c = [0] * INTERRUPTIONS, [0] * INTERRUPTIONS
        self.negatives = [0, 0]
        self.run_index = [0] * self.picture.count

    def copy(self) -> Coder:
        other = Coder.__new__(Coder)
        other.__dict__.update(self.__dict__)
        for name in ("a", "n", "b", "c", "negatives", "run_index"):
            setattr(other, name, list(getattr(self, name)))
        other.begin, other.out = self.place, bytearray(self.out[-1:])
        other.begin -= len(other.out)
        return other

    @property
    def place(self) -> int:
        """How many bytes of the scan are complete."""
        return self.begin + len(self.out)

    @property
    def is_done(self) -> bool:
        return self.line == len(self.picture.lines)

    def put(self, value: int, size: int) -> None:
        """Bits: a byte after FF has seven of them (A.1)."""
        self.bits, self.count = self.bits << size | value, self.count + size
        while True:
            room = 7 if self.out[-1:] == b"\xff" else 8
            if self.count < room:
                return
            self.count -= room
            self.out.append(self.bits >> self.count)
            self.bits &= (1 << self.count) - 1

    def end_interval(self) -> None:
        """Fills the last byte with zeros. FF is not the last one."""
        if self.count:
            self.put(0, (7 if self.out[-1:] == b"\xff" else 8) - self.count)
        if self.out[-1:] == b"\xff":
            self.put(0, 7)

    def step(self) -> None:
        """Codes the next event: a sample, or a run and what interrupts it. A restart marker goes with what ends an interval."""
        picture = self.picture
        line, above, at = picture.lines[self.line], picture.above(self.line), self.column + 1
        left, up, corner = line[at - 1], above[at], above[at - 1]
        ahead = above[at + 1]
        if left == up == corner == ahead:
            self.code_run(line, above, at)
        else:
            self.code_sample(line[at], left, up, corner, ahead)
            self.column += 1
        if self.column == picture.width:
            self.next_line()

    def next_line(self) -> None:
        self.line, self.column = self.line + 1, 0
        if self.is_done:
            self.end_interval()
        elif self.line % self.picture.count == 0 and self.picture.is_first(self.line):
            self.end_interval()
            number = self.line // self.picture.count // self.picture.rows - 1
            self.out += bytes([0xFF, 0xD0 + number % 8])
            self.start_interval()

    def code_sample(self, sample: int, left: int, up: int, corner: int, ahead: int) -> None:
        """Regular mode (A.3 to A.6)."""
        params, steps = self.params, self.params.steps
        context = steps[ahead - up] * 81 + steps[up - corner] * 9 + steps[corner - left]
        sign = 1 if context > 0 else -1
        context *= sign
        low, high = (left, up) if left < up else (up, left)
        predicted = low if corner >= high else high if corner <= low else left + up - corner
        predicted = min(params.maxval, max(0, predicted + sign * self.c[context]))
        error = self.wrapped(sign * (sample - predicted))
        a, b, n = self.a[context], self.b[context], self.n[context]
        k = least_k(n, a)
        if k == 0 and 2 * b <= -n:
            mapped = 2 * error + 1 if error >= 0 else -2 * (error + 1)
        else:
            mapped = 2 * error if error >= 0 else -2 * error - 1
        self.put_golomb(mapped, k, params.limit)
        self.update(context, error, a + abs(error), b + error, n)

    def update(self, context: int, error: int, a: int, b: int, n: int) -> None:
        """A.6."""
        if n == self.params.reset:
            a, b, n = a >> 1, b >> 1, n >> 1
        n += 1
        if b <= -n:
            b = max(b + n, 1 - n)
            self.c[context] = max(-128, self.c[context] - 1)
        elif b > 0:
            b = min(b - n, 0)
            self.c[context] = min(127, self.c[context] + 1)
        self.a[context], self.b[context], self.n[context] = a, b, n

    def wrapped(self, error: int) -> int:
        """An error modulo RANGE (A.4.5)."""
        error %= self.params.range
        return error - self.params.range if error >= (self.params.range + 1) // 2 else error

    def put_golomb(self, mapped: int, k: int, limit: int) -> None:
        """A.5.3."""
        longest, high = limit - self.params.bits - 1, mapped >> k
        if high < longest:
            self.put(1 << k | mapped & (1 << k) - 1, high + 1 + k)
        else:
            self.put(1 << self.params.bits | mapped - 1, longest + 1 + self.params.bits)

    def code_run(self, line: list[int], above: list[int], at: int) -> None:
        """Run mode (A.7)."""
        component, end = self.line % self.picture.count, self.picture.width + 1
        index, same = self.run_index[component], line[at - 1]
        begin = at
        while at < end and line[at] == same:
            at += 1
        length = at - begin
        while length >= 1 << ORDERS[index]:
            self.put(1, 1)
            length -= 1 << ORDERS[index]
            index = min(31, index + 1)
        if at == end:
            if length:
                self.put(1, 1)
        else:
            self.put(length, 1 + ORDERS[index])
            self.code_interruption(line[at], same, above[at], ORDERS[index])
            index, at = max(0, index - 1), at + 1
        self.run_index[component], self.column = index, at - 1

    def code_interruption(self, sample: int, left: int, up: int, order: int) -> None:
        """The sample that ends a run (A.7.2)."""
        kind = int(left == up)
        error = self.wrapped((sample - up) * (-1 if left > up else 1))
        context = INTERRUPTIONS + kind
        a, n, negatives = self.a[context], self.n[context], self.negatives[kind]
        k = least_k(n, a + (n >> 1 if kind else 0))
        is_mapped = error < 0 and (2 * negatives >= n or k != 0) or k == 0 and error > 0 and 2 * negatives < n
        mapped = 2 * abs(error) - kind - is_mapped
        self.put_golomb(mapped, k, self.params.limit - order - 1)
        a, negatives = a + (mapped + 1 - kind >> 1), negatives + (error < 0)
        if n == self.params.reset:
            a, n, negatives = a >> 1, n >> 1, negatives >> 1
        self.a[context], self.n[context], self.negatives[kind] = a, n + 1, negatives


def least_k(n: int, a: int) -> int:
    k = 0
    while n << k < a:
        k += 1
    return k


def coded(params: Params, picture: Picture) -> bytes:
    """The data of a scan."""
    coder = Coder(params, picture)
    while not coder.is_done:
        coder.step()
    return bytes(coder.out)


class Trials:
    """Other samples of which the bytes of a scan that are held could be, too. `held` says of each byte whether it is."""

    def __init__(self, params: Params, picture: Picture, data: bytes, held: Sequence[bool]) -> None:
        self.params, self.picture, self.data, self.held = params, picture, data, held
        self.left = MOST_EVENTS

    def has_other(self) -> bool:
        """Whether the held bytes could be of a picture in which one byte of a sample is another one, or it would take long to say."""
        sites = self.sites()
        if len(sites) > MOST_SITES:
            return True
        bits = range(0, self.params.bits, 8)
        changes = [other << shift for other in range(1, 256) for shift in bits]
        return any(self.fits(*site, change) for change in changes for site in sites)

    def sites(self) -> list[tuple[Coder, int, int]]:
        """The samples with bits in bytes that aren't held: the coder before the event of each, its line and its column."""
        found: list[tuple[Coder, int, int]] = []
        coder = Coder(self.params, self.picture)
        while not coder.is_done and len(found) <= MOST_SITES:
            if all(self.held[coder.place : coder.place + REACH]):
                coder.step()
                continue
            before, at = coder.copy(), (coder.line, coder.column)
            coder.step()
            if not all(self.held[before.place : coder.place + 1]):
                found += [(before, at[0], column) for column in range(at[1], coder.column or self.picture.width)]
        return found

    def fits(self, before: Coder, line: int, column: int, change: int) -> bool:
        """Whether the bytes that are held are the same if a sample is changed so."""
        sample = self.picture.lines[line][column + 1]
        if sample ^ change > self.params.maxval:
            return False
        self.picture.set(line, column, sample ^ change)
        try:
            return self.has_held_bytes(before.copy())
        finally:
            self.picture.set(line, column, sample)

    def has_held_bytes(self, coder: Coder) -> bool:
        """Whether the coder goes on to the end with the held bytes. Yes too where that would take long to say."""
        while not coder.is_done:
            at = coder.place
            coder.step()
            self.left -= 1
            if self.left <= 0 or coder.place > len(self.data):
                return self.left <= 0
            new = coder.out[at - coder.begin :]
            if any(self.held[at + beside] and byte != self.data[at + beside] for beside, byte in enumerate(new)):
                return False
        return coder.place == len(self.data)
