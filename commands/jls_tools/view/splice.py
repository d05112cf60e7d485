"""What jls-view draws of several copies: in each the lines whose bytes are damaged, and what jls-splice makes of all.

Where bytes are damaged is known from the mended file. Where there is none, each copy is drawn as the lines that it gives by itself. Copies
in several codings have a mended file for each, and jls-splice says where a copy differs from it. Which lines stand before a byte is asked
of Programs.join, for the file cut there: it uses the lines that are complete.
"""
from __future__ import annotations

import copy
import os
from collections.abc import Iterable, Iterator

from jls_tools import partial_picture
from jls_tools.frames.by_sample import is_by_sample
from jls_tools.programs import Programs
from jls_tools.view.canvas import Canvas

Line = tuple[int, int]  # the index of a component, and a line of it
GAP = 16  # pixels between two panels
MOST = 32  # stretches of a copy: where there are more, those with the fewest bytes between them become one


def stretches(damaged: bytes, mended: bytes) -> list[tuple[int, int]]:
    """Where the mended file has other bytes than a copy: from and until. Where the lengths differ, it is one stretch."""
    if len(damaged) != len(mended):
        begin = len(os.path.commonprefix([damaged, mended]))
        tail = len(os.path.commonprefix([damaged[begin:][::-1], mended[begin:][::-1]]))
        return [(begin, max(begin + 1, len(mended) - tail))]
    found = partial_picture.ranges(at for at, (left, right) in enumerate(zip(damaged, mended)) if left != right)
    return fewer([(first, last + 1) for first, last in found])


def edited(edits: Iterable[tuple[int, int, int]]) -> list[tuple[int, int]]:
    """The same where jls-splice says it: at an offset of the copy the mended file has so many new bytes in place of so many."""
    found, moved = [], 0
    for offset, length, new in edits:
        found.append((offset + moved, offset + moved + max(1, new)))
        moved += new - length
    return fewer(found)


def fewer(found: list[tuple[int, int]]) -> list[tuple[int, int]]:
    """Not more stretches than are drawn."""
    while len(found) > MOST:
        at = min(range(1, len(found)), key=lambda place: found[place][0] - found[place - 1][1])
        found[at - 1 : at + 1] = [(found[at - 1][0], found[at][1])]
    return found


class Splice:
    """The copies of a picture, which stand in a folder under these names, and what came of them."""

    def __init__(self, names: list[str], folder: str) -> None:
        self.names, self.folder, self.programs = names, folder, Programs()
        outcome = self.programs.splice("spliced", names, "mended", folder, ["--files", "mended"])
        self.faults = outcome.faults.strip()
        self.status = outcome.status
        self.codings, self.differs = outcome.report.codings, outcome.report.differs
        self.result = self.picture("spliced")

    def picture(self, name: str) -> partial_picture.PartialPicture | None:
        path = os.path.join(self.folder, name)
        return partial_picture.read(path) if os.path.exists(path) else None

    def content(self, name: str) -> bytes:
        with open(os.path.join(self.folder, name), "rb") as file:
            return file.read()

    def given_by(self, name: str) -> partial_picture.PartialPicture | None:
        """What a copy gives by itself."""
        out = f"{name}.given"
        self.programs.join(out, [name], self.folder)
        return self.picture(out)

    def lines_before(self, mended: bytes, at: int) -> set[Line]:
        """The lines that are complete in the first bytes of the mended file."""
        with open(os.path.join(self.folder, "cut"), "wb") as file:
            file.write(mended[:at])
        picture = self.given_by("cut")
        if picture:
            os.remove(os.path.join(self.folder, "cut.given"))
        return set(picture.readings) if picture else set()

    def next_lines(self, before: set[Line], picture: partial_picture.PartialPicture, are_pixels: bool) -> set[Line]:
        """The lines whose code goes on where these end: of each component that has begun, or of the first that has not ended.

        By sample it is that of all components.
        """
        counts = [sum(index == component for index, _ in before) for component in range(len(picture.ids))]
        begun = [index for index, count in enumerate(counts) if 0 < count < picture.height]
        first = [index for index, count in enumerate(counts) if count < picture.height][: None if are_pixels else 1]
        return {(index, counts[index]) for index in begun or first}

    def damaged_lines(
        self, places: list[tuple[int, int]], mended: bytes, picture: partial_picture.PartialPicture
    ) -> set[Line]:
        """The lines whose code stands at these places of a mended file."""
        found: set[Line] = set()
        for begin, end in places:
            until = self.lines_before(mended, end)
            found |= (until | self.next_lines(until, picture, is_by_sample(mended))) - self.lines_before(mended, begin)
        return found

    def panels(self) -> Iterator[partial_picture.PartialPicture]:
        """The picture of each copy, and then the result."""
        if self.result is None:
            return
        whole = self.picture_of_mended()
        for number, name in enumerate(self.names, 1):
            if self.codings:
                yield self.panel_of_coding(number, name, self.result)
            elif whole is None:
                yield self.alone(name, self.result)
            else:
                mended = self.content("mended")
                yield without(whole, self.damaged_lines(stretches(self.content(name), mended), mended, whole))
        yield self.result

    def alone(self, name: str, result: partial_picture.PartialPicture) -> partial_picture.PartialPicture:
        """A copy as the lines that it gives by itself."""
        given = self.given_by(name)
        return given if given and shape_of(given) == shape_of(result) else without(result, set(result.readings))

    def panel_of_coding(self, number: int, name: str, result: partial_picture.PartialPicture) -> partial_picture.PartialPicture:
        """A copy beside others in other codings, without the lines whose bytes it lost."""
        coding = next((at for at, copies in enumerate(self.codings, 1) if number in copies), None)
        if coding is None or not os.path.exists(os.path.join(self.folder, f"mended-{coding}")):
            return self.alone(name, result)
        places = edited(self.differs.get(number, []))
        return without(result, self.damaged_lines(places, self.content(f"mended-{coding}"), result))

    def picture_of_mended(self) -> partial_picture.PartialPicture | None:
        return self.given_by("mended") if os.path.exists(os.path.join(self.folder, "mended")) else None


def shape_of(picture: partial_picture.PartialPicture) -> tuple[int, int, int, list[int]]:
    return picture.width, picture.height, picture.precision, picture.ids


def without(picture: partial_picture.PartialPicture, lines: set[Line]) -> partial_picture.PartialPicture:
    """The same picture, and no reading of these lines."""
    other = copy.copy(picture)
    other.readings = {line: readings for line, readings in picture.readings.items() if line not in lines}
    return other


class Canvases:
    """Pictures of one height side by side, as Canvas is one."""

    def __init__(self, canvases: list[Canvas], scale: int) -> None:
        self.canvases, self.gap = canvases, -(-GAP // scale)

    def rows(self) -> Iterator[bytes]:
        return map((b"\xff" * 3 * self.gap).join, zip(*(canvas.rows() for canvas in self.canvases)))

    def width(self) -> int:
        return sum(canvas.width() for canvas in self.canvases) + self.gap * (len(self.canvases) - 1)

    def height(self) -> int:
        return self.canvases[0].height()
