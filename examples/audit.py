#!/usr/bin/env python3
"""The totals of a part from its corner listing and nothing else, by the rules of docs/SCOPE.md, 'Corner points'.

    examples/audit.py [LISTING]        reads standard input where no file is named
"""
import sys

CELLS = [(a, b, c) for a in (0, 1) for b in (0, 1) for c in (0, 1)]  # on x, y and z: 0 below the point, 1 above it
SIGN = (1, -1)


def edge(four):  # what a unit edge counts as edge length, by the four cells around it
    opposite = four[0, 0] == four[1, 1] != four[0, 1] == four[1, 0]
    return 2 if opposite else int(sum(four.values()) == 1)


def inner(four):  # what it counts as inner length
    return int(sum(four.values()) == 3)


def weights(pattern):  # w, and for each axis the weights of area, of edge length and of inner length
    cured = {cell: pattern >> (4 * cell[0] + 2 * cell[1] + cell[2]) & 1 for cell in CELLS}
    w = sum(SIGN[a] * SIGN[b] * SIGN[c] * cured[a, b, c] for a, b, c in CELLS)
    by_axis = []
    for axis in range(3):
        # the four cells below the point on this axis, and the four above, each by its sides on the other two axes
        below, above = ({c[:axis] + c[axis + 1 :]: cured[c] for c in CELLS if c[axis] == side} for side in (0, 1))
        area = sum(SIGN[b] * SIGN[c] for b, c in below if below[b, c] != above[b, c])
        by_axis.append((area, edge(below) - edge(above), inner(below) - inner(above)))
    return w, by_axis


listing = (open(sys.argv[1], "rb") if len(sys.argv) > 1 else sys.stdin.buffer).read()
volume = area = edges = inners = 0
before = []
for at in range(0, len(listing), 7):
    point = [int.from_bytes(listing[at + place : at + place + 2], "little") for place in (0, 2, 4)]
    if len(listing) < at + 7 or point <= before:
        sys.exit(f"audit: byte {at}: a record is cut short, or does not come after the one before it")
    w, by_axis = weights(listing[at + 6])
    volume += point[0] * point[1] * point[2] * w
    for axis, (a, e, i) in enumerate(by_axis):
        first, second = point[:axis] + point[axis + 1 :]
        area, edges, inners = area + first * second * a, edges + point[axis] * e, inners + point[axis] * i
    before = point
print(f"volume {volume}\narea {area}\nedge {edges}\ninner {inners}\ncorners {len(listing) // 7}")
