//! Patterns of lattice points, their ten weights, the listing of corner points, and the sums taken from a listing.

use crate::cells::{Cells, Line};
use crate::totals::{for_lines, Lines, Totals};

/// The ten weights of a pattern: of the cells, of the squares across each axis, of the outer and of the inner unit edges
/// along each.
#[derive(Clone, Copy, Debug, PartialEq, Eq)]
pub struct Weights {
    pub w: i64,
    pub a: [i64; 3],
    pub e: [i64; 3],
    pub i: [i64; 3],
}

impl Weights {
    /// The weights of a pattern, each from its definition.
    pub fn of(pattern: u8) -> Weights {
        Weights {
            w: cell_weight(pattern),
            a: [0, 1, 2].map(|axis| area_weight(pattern, axis)),
            e: [0, 1, 2].map(|axis| length_weight(pattern, axis, outer_count)),
            i: [0, 1, 2].map(|axis| length_weight(pattern, axis, inner_count)),
        }
    }

    /// A point with such a pattern is a corner point if any weight is not zero.
    pub fn corner(&self) -> bool {
        self.w != 0 || self.a != [0; 3] || self.e != [0; 3] || self.i != [0; 3]
    }
}

/// Whether the cell of the pattern that lies above the point (1) or below it (0) on x, y and z is covered.
fn covered(pattern: u8, side: [usize; 3]) -> bool {
    pattern >> (4 * side[0] + 2 * side[1] + side[2]) & 1 == 1
}

/// + below the point, - above it.
fn sign(side: usize) -> i64 {
    1 - 2 * side as i64
}

/// Sides on x, y and z: `along` on the given axis, `first` and `second` on the two other axes in order.
fn sides(axis: usize, along: usize, first: usize, second: usize) -> [usize; 3] {
    match axis {
        0 => [along, first, second],
        1 => [first, along, second],
        _ => [first, second, along],
    }
}

const FOUR: [[usize; 2]; 4] = [[0, 0], [0, 1], [1, 0], [1, 1]];

fn cell_weight(pattern: u8) -> i64 {
    let mut sum = 0;
    for x in 0..2 {
        for [y, z] in FOUR {
            if covered(pattern, [x, y, z]) {
                sum += sign(x) * sign(y) * sign(z);
            }
        }
    }
    sum
}

/// Over the four unit squares at the point in the plane across the axis.
fn area_weight(pattern: u8, axis: usize) -> i64 {
    let counts = |first, second| {
        covered(pattern, sides(axis, 0, first, second)) != covered(pattern, sides(axis, 1, first, second))
    };
    FOUR.iter().filter(|[first, second]| counts(*first, *second)).map(|[f, s]| sign(*f) * sign(*s)).sum()
}

/// What the unit edge below the point on the axis counts, minus what the one above does.
fn length_weight(pattern: u8, axis: usize, count: fn([bool; 4]) -> i64) -> i64 {
    let four = |along| FOUR.map(|[first, second]| covered(pattern, sides(axis, along, first, second)));
    count(four(0)) - count(four(1))
}

/// What a unit edge counts as edge length; the cells are in the order of `FOUR`, so the first and the last share only
/// the edge, and so do the second and the third.
fn outer_count(four: [bool; 4]) -> i64 {
    match four.iter().filter(|covered| **covered).count() {
        1 => 1,
        2 if four[0] == four[3] => 2,
        _ => 0,
    }
}

/// What a unit edge counts as inner length.
fn inner_count(four: [bool; 4]) -> i64 {
    i64::from(four.iter().filter(|covered| **covered).count() == 3)
}

/// One record of a listing.
#[derive(Clone, Copy, Debug, PartialEq, Eq)]
pub struct Corner {
    pub at: [u16; 3],
    pub pattern: u8,
}

impl Corner {
    /// The record's seven bytes.
    pub fn bytes(&self) -> [u8; 7] {
        let [x, y, z] = self.at.map(u16::to_le_bytes);
        [x[0], x[1], y[0], y[1], z[0], z[1], self.pattern]
    }

    /// The record that seven bytes hold.
    pub fn from_bytes(bytes: &[u8]) -> Corner {
        let at = [0, 2, 4].map(|place| u16::from_le_bytes([bytes[place], bytes[place + 1]]));
        Corner { at, pattern: bytes[6] }
    }
}

/// The corner points, rising by x, then y, then z. Points whose eight cells are all covered or all uncovered are
/// passed over a word at a time; they are no corner points.
pub fn corners(cells: &Cells) -> Vec<Corner> {
    let corner: Vec<bool> = (0..=255).map(|pattern| Weights::of(pattern).corner()).collect();
    let mut found = Vec::new();
    for_lines(cells, |i, j, lines| {
        for_mixed(lines, |p| {
            let pattern = pattern(lines, p);
            if corner[pattern as usize] {
                let at = [i, j, p];
                let at = [0, 1, 2].map(|axis| (cells.origin[axis] + at[axis]) as u16);
                found.push(Corner { at, pattern });
            }
        });
    });
    found
}

/// Calls `look` at each place whose eight cells are not all alike, rising.
fn for_mixed(lines: &Lines, mut look: impl FnMut(usize)) {
    for at in 0..lines.words {
        let (any, all) = lines.any_and_all(at);
        let mut mixed = any & !all;
        while mixed != 0 {
            look(at * 64 + mixed.trailing_zeros() as usize);
            mixed &= mixed - 1;
        }
    }
}

/// The pattern at place p: bit 4a+2b+c, where the lines are in the order of 2a+b.
fn pattern(lines: &Lines, p: usize) -> u8 {
    let bit = |line: &Line| (line[p / 64] >> (p % 64) & 1) as u8;
    (0..4).map(|line| bit(&lines.below[line]) << (2 * line) | bit(&lines.above[line]) << (2 * line + 1)).sum()
}

/// The listing: seven bytes a corner.
pub fn listing(corners: &[Corner]) -> Vec<u8> {
    corners.iter().flat_map(Corner::bytes).collect()
}

/// The corner sums, from a listing's bytes and nothing else.
pub fn sums(listing: &[u8]) -> Totals {
    let mut sums = [0i64; 4];
    for record in listing.chunks_exact(7) {
        let corner = Corner::from_bytes(record);
        let [x, y, z] = corner.at.map(i64::from);
        let weights = Weights::of(corner.pattern);
        sums[0] += x * y * z * weights.w;
        sums[1] += y * z * weights.a[0] + x * z * weights.a[1] + x * y * weights.a[2];
        sums[2] += x * weights.e[0] + y * weights.e[1] + z * weights.e[2];
        sums[3] += x * weights.i[0] + y * weights.i[1] + z * weights.i[2];
    }
    let [volume, area, edge, inner] = sums.map(|sum| u64::try_from(sum).expect("a corner sum is negative"));
    Totals { volume, area, edge, inner }
}
