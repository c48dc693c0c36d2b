"""Peer: a NumPy painter. One byte a cell, painted cube by cube with slices, then counted plane by plane.

Called and answering as the other programs are (common.hpp): numpy_painter.py FILE SECONDS
"""

import re
import sys
import time

import numpy as np

# What an absent field of a shot file's header means: field side, shot edge, grid size.
ABSENT = (1024, 16, 16)


def read_list(path):
    data = open(path, "rb").read()
    header, shot, shots, at = list(ABSENT), [0, 0, 0], [], 0
    while at < len(data):
        values = shot if at else header
        bits = data[at]
        at += 1
        for bit in range(3):
            if bits >> bit & 1:
                values[bit] = data[at] | data[at + 1] << 8
                at += 2
        if values is shot:
            shots.append(tuple(shot))
    return header[0], header[1], shots


def ones(cells):
    return np.count_nonzero(cells.view(bool))


def unit_edges(p, q, r, s):
    """The outer and the inner length of unit edges by the four cells about each.

    p and s share only the unit edge, and so do q and r. An odd number of cells is covered where one or three are, and
    one pair alone where three are or just that pair.
    """
    odd = p ^ q ^ r ^ s
    pair = (p & s) ^ (q & r)
    inner = ones(odd & pair)
    return ones(odd) + 2 * ones(pair) - 3 * inner, inner


def count_plane(below, above, width):
    """Counts at the lattice points of one plane across x.

    Planes are flat, with a margin of zeros, so one step on z is one place and one step on y is one row; the points
    between the rows see nothing but margin.
    """
    near, far = slice(0, -width - 1), slice(1, -width)
    near_y, far_y = slice(width, -1), slice(width + 1, None)
    a0, a1, b0, b1 = below[near], below[far], below[near_y], below[far_y]
    c0, c1, d0, d1 = above[near], above[far], above[near_y], above[far_y]
    area = ones(d1 ^ b1) + ones(d1 ^ c1) + ones(d1 ^ d0)
    lengths = unit_edges(a1, b1, c1, d1), unit_edges(b0, b1, d0, d1), unit_edges(c0, c1, d0, d1)
    edge, inner = map(sum, zip(*lengths))
    # A point is a corner if the eight cells about it change across every axis.
    x = (a0 ^ c0) | (a1 ^ c1) | (b0 ^ d0) | (b1 ^ d1)
    y = (a0 ^ b0) | (a1 ^ b1) | (c0 ^ d0) | (c1 ^ d1)
    z = (a0 ^ a1) | (b0 ^ b1) | (c0 ^ c1) | (d0 ^ d1)
    return ones(d1), area, edge, inner, ones(x & y & z)


def measure(field, edge, shots):
    width = field + 2
    cells = np.zeros((width,) * 3, dtype=np.uint8)
    for x, y, z in shots:
        cells[x + 1 : x + 1 + edge, y + 1 : y + 1 + edge, z + 1 : z + 1 + edge] = 1
    planes = cells.reshape(width, -1)
    totals = np.zeros(5, dtype=np.int64)
    for x in range(field + 1):
        totals += count_plane(planes[x], planes[x + 1], width)
    return totals


def main():
    field, edge, shots = read_list(sys.argv[1])
    patience, start, runs, best = float(sys.argv[2]), time.monotonic(), 0, 1e300
    cpu = time.process_time()
    while runs == 0 or time.monotonic() - start < patience:
        wall = time.monotonic()
        totals = measure(field, edge, shots)
        best = min(best, time.monotonic() - wall)
        runs += 1
    cpu = (time.process_time() - cpu) / runs
    peak = re.search(r"VmHWM:\s*(\d+)", open("/proc/self/status").read()).group(1)
    print(*totals, f"{best:.9f} {cpu:.9f} {peak} {runs}")


main()
