"""A walk of all ways of elements and items through copies that differ, at once: states, and steps from one to the next.

Where copies differ in the header of an element or item, each way that a copy has is gone. A way is dead where no element or item can
begin. A step costs what is strange in it: tags out of order, odd lengths, VRs that PS3.6 has not, values that their VRs forbid.
"""
from __future__ import annotations

import heapq
import itertools
import math
import re
from collections.abc import Iterable, Iterator, Mapping, Sequence
from typing import Any, Optional

from jls_tools.dicom.axis.runs import Runs
from jls_tools.dicom.read.elements import HEAD, LONG_VRS, PIXELS_BEGIN, SHORT_VRS, UNDEFINED, Element, header_of
from jls_tools.dicom.read.tags import FIRST, ITEM, ITEM_END, PIXEL_DATA, SEQUENCE_END
from jls_tools.dicom.read.values import TEXTS, allows, is_written, strangeness

MOST_COMBINATIONS = 64
MOST_FREE = 12  # so many runs are combined at most
MOST_NODES = 100000  # a state and its steps take some kilobytes
MOST_LOOKS = 100000  # so many ways through a header or value are looked at, at most; others take some thousands
MOST_JUMPS = 40
MOST_JUMPERS = 12
FORBIDDEN, ZEROED, UNORDERED, ODD, CUT, JUMP = 3, 2, 8, 4, 4, 1000
MOST_STRANGE = 2  # of elements that show by themselves that elements stand there
# what stands on the stack: the data set, a sequence, an item; s and i are those with an implicit VR; P is Pixel Data
DATA_SET, SEQUENCE, OBJECT, PIXELS = "D", "S", "I", "P"
ITEM_OR_END = re.compile(rb"\xfe\xff(?:\x00\xe0|\xdd\xe0\0\0\0\0)")
ELEMENT = re.compile(rb"[\x00-\xff]{4}(?:" + b"|".join(sorted(SHORT_VRS)) + rb"|(?:OB|OW|SQ|UN|UT)\0\0)", re.S)
State = Any  # (place, stack, last tag, ways of the run that goes on), or what stands for the end of a file that is cut: hashable
Stack = tuple[tuple[str, Optional[int], int], ...]  # (kind, end, the tag before)
Chosen = Mapping[int, int]  # {run: way}


class Step:
    """From one state to the next: its cost, the ways that it takes, and the element or item that it passes (None: a jump)."""

    __slots__ = ("before", "after", "cost", "chosen", "element", "kind", "depth")

    def __init__(
        self, before: State, after: State, cost: int, chosen: Chosen, element: Optional[Element], kind: str, depth: int = 0
    ) -> None:
        self.before = before
        self.after = after
        self.cost = cost
        self.chosen = chosen
        self.element = element
        self.kind = kind  # leaf, open, item, end, fragment, jump, cut
        self.depth = depth


class Walk:
    """States are (place, stack, last tag, ways of the run that goes on). A stack is ((kind, end, the tag before), ..)."""

    def __init__(self, runs: Runs, texts: Sequence[bytes]) -> None:
        self.runs = runs
        self.texts = set(texts)  # the bytes of each copy
        self.total = len(texts[0])
        self.steps: dict[State, list[Step]] = {}  # the steps from a state
        self.goals: set[State] = set()
        self.cuts: list[Step] = []
        self.jumps = 0
        self.looks = 0

    # Where copies differ ---------------------------------------------------------

    def choices(self, begin: int, end: int, chosen: Chosen) -> Iterator[tuple[bytes, Chosen, int]]:
        """Each way through a range: (its bytes, {run: way} of all that was chosen, the cost of what is new)."""
        end = min(end, self.total)
        touched = self.runs.touching(begin, end)
        if len(touched) == 0:
            yield self.runs.data[begin:end], chosen, 0
            return
        free = [number for number in touched if number not in chosen]
        for ways in itertools.product(*(self.runs.ways_of(number) for number in free)):
            self.looks += 1
            both = {**chosen, **dict(zip(free, ways))}
            cost = sum(ZEROED for number, way in zip(free, ways) if self.runs.runs[number].zeros[way])
            yield self.runs.bytes_with(begin, end, both), both, cost

    def is_small(self, begin: int, end: int, chosen: Chosen) -> bool:
        free = (number for number in self.runs.touching(begin, end) if number not in chosen)
        sizes = [len(self.runs.ways_of(number)) for number in itertools.islice(free, MOST_FREE + 1)]
        return len(sizes) <= MOST_FREE and math.prod(sizes) <= MOST_COMBINATIONS

    def going_on(self, place: int, chosen: Chosen) -> tuple[tuple[int, int], ...]:
        """The ways of runs that go across a place."""
        return tuple(sorted((number, way) for number, way in chosen.items() if self.runs.runs[number].end > place))

    # States ------------------------------------------------------------------------

    def settle(self, place: int, stack: Stack, last: int, chosen: Chosen) -> State:
        """The state at a place, after what ends there."""
        while len(stack) > 1 and stack[-1][1] == place:
            last = stack[-1][2]
            stack = stack[:-1]
        return place, stack, last, self.going_on(place, chosen)

    def start(self) -> State:
        return FIRST, ((DATA_SET, self.total, 0),), 0, ()

    def goes_on(self) -> bool:
        """Whether elements go on to the end on any way, without a jump."""
        start = self.start()
        self.go_on([start], {start}, [])
        return bool(self.goals)

    def explore(self) -> State:
        """Goes all ways. Where all are dead before the end, it jumps to what can begin after them."""
        start = self.start()
        seen: set[State] = {start}
        dead: list[State] = []
        self.go_on([start], seen, dead)
        while not self.goals and dead and self.jumps < MOST_JUMPS and self.looks < MOST_LOOKS:
            self.jumps += 1
            furthest: int = max(state[0] for state in dead)
            if self.cuts and max(step.before[0] for step in self.cuts) >= furthest:
                break
            begins: list[State] = []
            for state in sorted(dead, key=lambda state: -int(state[0]))[:MOST_JUMPERS]:
                self.steps[state] = list(self.jumps_from(state))
                begins += [step.after for step in self.steps[state] if step.after not in seen]
            dead.clear()
            seen.update(begins)
            self.go_on(begins, seen, dead)
        return start

    def go_on(self, begins: Iterable[State], seen: set[State], dead: list[State]) -> None:
        """Goes all ways from these states; `dead` gets those from which none goes on."""
        count = itertools.count()
        heap = [(state[0], next(count), state) for state in dict.fromkeys(begins)]
        heapq.heapify(heap)
        while heap and len(self.steps) < MOST_NODES and self.looks < MOST_LOOKS:
            _, _, state = heapq.heappop(heap)
            if state[0] == self.total and len(state[1]) == 1:
                self.goals.add(state)
                continue
            self.steps[state] = self.without_swallowed(list(self.steps_from(state)))
            if not self.steps[state]:
                dead.append(state)
            for step in self.steps[state]:
                if step.after not in seen:
                    seen.add(step.after)
                    heapq.heappush(heap, (step.after[0], next(count), step.after))

    def steps_from(self, state: State) -> Iterator[Step]:
        place, stack, last, carried = state
        for head, chosen, cost in self.choices(place, place + 8, dict(carried)):
            if len(head) < 8:
                self.cut(state, cost, chosen, None)
                continue
            yield from self.steps_after(state, head, chosen, cost)

    def without_swallowed(self, steps: list[Step]) -> list[Step]:
        """These steps without those along values that have swallowed elements: they follow where a shorter value of the element ends."""
        leaves = {(step.element.tag, step.element.end): step.element for step in steps if step.kind == "leaf" and step.element}
        if len(leaves) < 2:
            return steps
        swallowing = {
            (long.tag, long.end)
            for short, long in itertools.permutations(leaves.values(), 2)
            if short.end < long.end and any(has_swallowed(*pair, short, long) for pair in self.owners(short, long))
        }
        return [step for step in steps if step.element is None or (step.element.tag, step.element.end) not in swallowing]

    def owners(self, short: Element, long: Element) -> Iterator[tuple[bytes, Element]]:
        """The copies, and their element, that show whether a longer value has elements in it.

        Those are copies that have it so, and in a sector of exchanged bytes those that have the shorter one too.
        """
        elements = [long] if short.tag == long.tag else []
        elements += [short] if self.runs.has_exchanged(short.start, long.end) else []
        yield from itertools.product(self.texts, elements)

    def cut(self, state: State, cost: int, chosen: Chosen, element: Optional[Element]) -> None:
        """The file ends inside this header or value."""
        self.cuts.append(Step(state, None, cost + CUT, chosen, element, "cut", len(state[1]) - 1))

    def steps_after(self, state: State, head: bytes, chosen: Chosen, cost: int) -> Iterator[Step]:
        kind = state[1][-1][0]
        tag = int.from_bytes(head[:2], "little") << 16 | int.from_bytes(head[2:4], "little")
        length = int.from_bytes(head[4:8], "little")
        if tag >> 16 == 0xFFFE:
            yield from self.item_steps(state, tag, length, chosen, cost)
        elif kind in "DI":
            yield from self.element_steps(state, head, chosen, cost)
        elif kind == "i":
            element = Element(tag, b"UN", state[0], state[0] + 8, length)
            yield from self.passing(state, element, chosen, cost)

    def item_steps(self, state: State, tag: int, length: int, chosen: Chosen, cost: int) -> Iterator[Step]:
        place, stack, last, _ = state
        kind, end, before = stack[-1]
        element = Element(tag, b"", place, place + 8, length)
        depth = len(stack) - 1
        if tag == ITEM and kind in "Ss":
            inner = "I" if kind == "S" else "i"
            until = None if length == UNDEFINED else place + 8 + length
            if until is not None and until > (end if end is not None else self.total):
                return
            after = self.settle(place + 8, stack + ((inner, until, 0),), 0, chosen)
            yield Step(state, after, cost, chosen, element, "item", depth)
        elif tag == ITEM and kind == PIXELS and length != UNDEFINED:
            if element.end > self.total:
                self.cut(state, cost, chosen, element)
                return
            after = self.settle(element.end, stack, last, chosen)
            yield Step(state, after, cost + ODD * (length % 2), chosen, element, "fragment", depth)
        elif end is None and length == 0 and (tag == SEQUENCE_END and kind in "SsP" or tag == ITEM_END and kind in "Ii"):
            after = self.settle(place + 8, stack[:-1], before, chosen)
            yield Step(state, after, cost, chosen, element, "end", depth)

    def element_steps(self, state: State, head: bytes, chosen: Chosen, cost: int) -> Iterator[Step]:
        place = state[0]
        if header_of(head + b"\0" * 4, place) is None:
            return
        if head[4:6] in LONG_VRS:
            for rest, both, more in self.choices(place + 8, place + 12, chosen):
                element = header_of(head + rest, place)
                if len(rest) < 4:
                    self.cut(state, cost, chosen, None)
                elif element is not None:
                    yield from self.passing(state, element, both, cost + more)
        else:
            element = header_of(head, place)
            if element is not None:
                yield from self.passing(state, element, chosen, cost)

    def passing(self, state: State, element: Element, chosen: Chosen, cost: int) -> Iterator[Step]:
        """The steps along an element whose header is read."""
        place, stack, last, _ = state
        kind, end, _ = stack[-1]
        cost += UNORDERED * (element.tag <= last) + (strangeness(element.tag, element.vr) if kind != "i" else 0)
        depth = len(stack) - 1
        if element.length == UNDEFINED:
            inner = self.opens(element, kind, depth)
            if inner:
                after = self.settle(element.value, stack + ((inner, None, element.tag),), 0, chosen)
                yield Step(state, after, cost, chosen, element, "open", depth)
            return
        cost += ODD * (element.length % 2)
        if element.end > (end if end is not None else self.total):
            if all(frame[1] in (None, self.total) for frame in stack):
                self.cut(state, cost, chosen, element)
            return
        if element.vr == b"SQ":
            after = self.settle(element.value, stack + ((SEQUENCE, element.end, element.tag),), 0, chosen)
            yield Step(state, after, cost, chosen, element, "open", depth)
            return
        yield from self.values(state, element, chosen, cost)

    def opens(self, element: Element, kind: str, depth: int) -> Optional[str]:
        if kind == "i":
            return "s"
        if element.vr == b"SQ":
            return SEQUENCE
        if element.vr == b"UN":
            return "s"
        return PIXELS if depth == 0 and element.tag == PIXEL_DATA and element.vr in (b"OB", b"OW") else None

    def values(self, state: State, element: Element, chosen: Chosen, cost: int) -> Iterator[Step]:
        _, stack, _, _ = state
        depth = len(stack) - 1
        if not self.runs.touching(element.value, element.end) or not self.is_small(element.value, element.end, chosen):
            after = self.settle(element.end, stack, element.tag, chosen)
            yield Step(state, after, cost, chosen, element, "leaf", depth)
            return
        choices = list(self.choices(element.value, element.end, chosen))
        vr, found = element.vr, []
        for value, both, more in choices:
            found.append((is_filled(vr, value) or is_written(vr, value), both, self.cost_of(vr, value, more)))
        least = min((more for is_odd, _, more in found if not is_odd), default=0)
        for is_odd, both, more in found:
            after = self.settle(element.end, stack, element.tag, both)
            yield Step(state, after, cost + (least if is_odd else more), both, element, "leaf", depth)

    def cost_of(self, vr: bytes, value: bytes, zeroed: int) -> int:
        """What a value costs. Zeros can be true in all values that are no texts."""
        return (zeroed if vr in TEXTS else 0) + FORBIDDEN * (not allows(vr, value))

    # Where no way goes on ------------------------------------------------------------

    def jumps_from(self, state: State) -> Iterator[Step]:
        """Steps to the next places where something can begin."""
        place, stack, last, _ = state
        inner = stack[-1][0] == PIXELS
        form, until = (ITEM_OR_END, 2) if inner else (ELEMENT, 3)
        found = sorted({next_place for text in self.texts for next_place in self.likely(text, form, place + 1, inner, until)})
        for next_place in found[:until]:
            after = (next_place, stack if inner else stack[:1], last, ())
            yield Step(state, after, JUMP + min(JUMP - 1, (next_place - place) // 256), {}, None, "jump", len(stack) - 1)

    def likely(self, text: bytes, form: re.Pattern[bytes], begin: int, inner: bool, until: int) -> Iterator[int]:
        """Places where an item, or three elements after each other, can begin."""
        count = 0
        for found in form.finditer(text, begin):
            place = found.start()
            if inner or PIXELS_BEGIN.match(text, place) or follows(text, place, 3):
                yield place
                count += 1
                if count == until:
                    return

    def forget(self) -> None:
        """Lets the states go, which take far more room than the file."""
        self.steps, self.goals, self.cuts = {}, set(), []


def is_filled(vr: bytes, value: bytes) -> bool:
    """Whether zeros follow a text that its VR allows, to the end of the value, as some writers fill it: it costs what others do."""
    text = value.rstrip(b"\0")
    return vr in TEXTS and len(value) - len(text) > 1 and allows(vr, text + b"\0" * (len(text) % 2))


def has_swallowed(text: bytes, own: Element, short: Element, long: Element) -> bool:
    """Whether a copy that has one of both elements has others in the longer value from where the shorter one ends."""
    found = header_of(text[own.start : own.start + HEAD], own.start)
    return found is not None and found.tag == own.tag and found.end == own.end and follows_until(text, short.end, long.end, own.tag)


def follows_until(text: bytes, place: int, until: int, last: int) -> bool:
    """Whether one element or more follow each other from a place to another, with tags that ascend beyond it too."""
    while place < until:
        element = header_of(text[place : place + 12], place)
        if element is None or element.tag <= last or strangeness(element.tag, element.vr) > MOST_STRANGE:
            return False
        last, place = element.tag, element.end
    following = tag_at(text, until)
    return place == until and (following is None or following > last)


def tag_at(text: bytes, place: int) -> Optional[int]:
    """The tag that stands at a place, unless the file ends there."""
    if place + 4 > len(text):
        return None
    return int.from_bytes(text[place : place + 2], "little") << 16 | int.from_bytes(text[place + 2 : place + 4], "little")


def follows(text: bytes, place: int, count: int) -> bool:
    """Whether so many elements follow each other here, with ascending tags of one group or the next."""
    last = 0
    for _ in range(count):
        element = header_of(text[place : place + 12], place)
        if element is None or element.tag <= last or element.tag >> 16 > 0x7FE0 or strangeness(element.tag, element.vr) > MOST_STRANGE:
            return False
        if element.length == UNDEFINED:
            return element.vr == b"SQ"
        last, place = element.tag, element.end
    return True
