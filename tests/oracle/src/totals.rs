//! Volume, area, edge length and inner length, counted over the cells.
//!
//! Lines of cells along z are taken 64 cells to a word.

use crate::cells::{Cells, Line, LINE};

/// The four totals, by the cells.
#[derive(Clone, Copy, Debug, PartialEq, Eq, Default)]
pub struct Totals {
    pub volume: u64,
    pub area: u64,
    pub edge: u64,
    pub inner: u64,
}

/// Counts the cells, the unit squares with one of their two cells covered, and the unit edges,
/// outer and inner.
pub fn count(cells: &Cells) -> Totals {
    let mut totals = Totals::default();
    for_lines(cells, |_, _, lines| count_at(lines, &mut totals));
    totals
}

/// The four lines of cells about a lattice line along z: below and below, below and above, above and below, above and
/// above, on x and on y. Bit p of `below` is the cell below lattice place p on z, bit p of `above` the cell above it.
pub struct Lines {
    pub words: usize,
    pub below: [Line; 4],
    pub above: [Line; 4],
}

impl Lines {
    /// The bits for which any of the eight cells is covered, and those for which all are.
    pub fn any_and_all(&self, at: usize) -> (u64, u64) {
        let (mut any, mut all) = (0, u64::MAX);
        for line in self.below.iter().chain(&self.above) {
            any |= line[at];
            all &= line[at];
        }
        (any, all)
    }
}

/// Calls `look` at each lattice line along z, rising by x, then y, with its places on x and y. Lattice lines about
/// which no cell is covered are left out.
pub fn for_lines(cells: &Cells, mut look: impl FnMut(usize, usize, &Lines)) {
    let [nx, ny, _] = cells.size;
    let mut lines = Lines { words: cells.line_words(), below: [[0; LINE]; 4], above: [[0; LINE]; 4] };
    for i in 0..=nx {
        for j in 0..=ny {
            let mut clear = true;
            for (line, (i, j)) in [(i, j), (i, j + 1), (i + 1, j), (i + 1, j + 1)].into_iter().enumerate() {
                let row = i.checked_sub(1).zip(j.checked_sub(1)).and_then(|(i, j)| cells.row(i, j));
                clear &= put_row(row.unwrap_or(&[]), lines.words, &mut lines.below[line], &mut lines.above[line]);
            }
            if !clear {
                look(i, j, &lines);
            }
        }
    }
}

/// Stores a row as cells below and cells above lattice places; says whether it is clear.
fn put_row(row: &[u64], words: usize, below: &mut Line, above: &mut Line) -> bool {
    let mut any = 0;
    let mut last = 0;
    for at in 0..words {
        let word = row.get(at).copied().unwrap_or(0);
        below[at] = word << 1 | last >> 63;
        above[at] = word;
        last = word;
        any |= word;
    }
    any == 0
}

/// Adds what belongs to one lattice line: the cells above it on x and y, the squares and unit edges that start there.
fn count_at(lines: &Lines, totals: &mut Totals) {
    for at in 0..lines.words {
        let (any, all) = lines.any_and_all(at);
        if any == 0 {
            continue;
        }
        let (below, above) = (&lines.below, &lines.above);
        let (a, b, c, d) = (below[0][at], below[1][at], below[2][at], below[3][at]);
        let (b_up, c_up, d_up) = (above[1][at], above[2][at], above[3][at]);
        totals.volume += ones(d_up);
        if all == u64::MAX {
            continue;
        }
        // Across x, across y, across z.
        totals.area += ones(d_up ^ b_up) + ones(d_up ^ c_up) + ones(d ^ d_up);
        // Along z, along y, along x.
        for four in [[a, b, c, d], [b, b_up, d, d_up], [c, c_up, d, d_up]] {
            totals.edge += outer(four);
            totals.inner += inner(four);
        }
    }
}

/// What 64 unit edges count as edge length; a and d lie across the edge from each other, and so do b and c.
fn outer([a, b, c, d]: [u64; 4]) -> u64 {
    let one = (a ^ b ^ c ^ d) & !(a & d | b & c);
    let only_the_edge_shared = (a & d & !b & !c) | (b & c & !a & !d);
    ones(one) + 2 * ones(only_the_edge_shared)
}

/// How many of 64 unit edges have three covered cells: of an odd number, and two of them across the edge.
fn inner([a, b, c, d]: [u64; 4]) -> u64 {
    ones((a ^ b ^ c ^ d) & (a & d | b & c))
}

fn ones(word: u64) -> u64 {
    word.count_ones().into()
}
