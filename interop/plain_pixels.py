"""A plain writer of one interval of JPEG-LS scan data that is interleaved by sample, at NEAR 0, over `plain_coder.py`.

Its rules are those on which the conformance files of ITU-T T.87, CharLS, GDCM and DCMTK agree. Components stand beside one another in a
pixel. A pixel is in run mode where the gradients of all of them are 0. Else each is coded in regular mode, one with gradients 0 too. A run
is of pixels, there is one RUNindex, and what interrupts it is a pixel, each of whose samples has RItype 0.
"""
from plain_coder import ORDERS, Cell, Interval, bits_of, golomb, pack, regular_code


def code(params, width, components, lines):
    """The bits that lines are written as; they stand row by row, and in a row by component."""
    planes, bits = [Interval(params, width, 1) for _ in range(components)], []
    for plane in planes:
        plane.cells, plane.run_cells = planes[0].cells, planes[0].run_cells
    for at in range(0, len(lines), components):
        row = lines[at : at + components]
        for plane in planes:
            plane.lines.append([])
        while len(planes[-1].lines[-1]) < width:
            found = [plane.context() for plane in planes]
            bits += run_code(planes, row) if found == [None] * components else pixel_code(planes, found, row)
    return bits


def pixel_code(planes, found, row):
    """The bits of a pixel in regular mode."""
    bits = []
    for plane, context, line in zip(planes, found, row):
        cell, sign = context or (plane.cells.setdefault((0, 0, 0), Cell(plane.first_a)), 1)
        bits += regular_code(plane, cell, sign, line[len(plane.lines[-1])])
    return bits


def run_code(planes, row):
    """The bits of a run, with those of the pixel that interrupts it."""
    begin, width, index = len(planes[0].lines[-1]), planes[0].width, planes[0].run_index
    values, count, bits = [plane.neighbours()[0] for plane in planes], 0, []
    while begin + count < width and [line[begin + count] for line in row] == values:
        count += 1
    for plane, value in zip(planes, values):
        plane.lines[-1] += [value] * count
    is_to_end = begin + count == width
    while count >= 1 << ORDERS[index[0]]:
        bits.append(1)
        count -= 1 << ORDERS[index[0]]
        index[0] = min(31, index[0] + 1)
    if is_to_end:
        return bits + [1] * (count > 0)
    order = ORDERS[index[0]]
    bits += [0] + bits_of(count, order)
    for plane, line in zip(planes, row):
        bits += interruption_code(plane, order, line[len(plane.lines[-1])])
    index[0] = max(0, index[0] - 1)
    return bits


def interruption_code(plane, order, sample):
    """The bits of a sample of the pixel that interrupts a run."""
    (ra, rb, _, _), params, cell = plane.neighbours(), plane.params, plane.run_cells[0]
    error = plane.reduced((-1 if ra > rb else 1) * (sample - rb))
    bits = golomb(cell.k(), params.limit - order - 1, params.qbpp, cell.mapped(error))
    cell.update(error, params.reset)
    plane.lines[-1].append(sample)
    return bits


def write(params, width, components, lines):
    return pack(code(params, width, components, lines))
