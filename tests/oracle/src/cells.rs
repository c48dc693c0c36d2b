//! The covered cells of an accepted list, one bit a cell.
//!
//! Only the box about the shots is kept, since every cell outside it is uncovered. A row holds the cells that differ
//! in k alone, least bit first.

use crate::list::{List, Shot};

/// The words of the longest line: 1,024 cells, and one lattice place more.
pub const LINE: usize = 17;

/// A bit for each lattice place along a row of cells.
pub type Line = [u64; LINE];

/// Covered cells within a box; `origin` is the box's lowest cell and `size` its number of cells along each axis.
pub struct Cells {
    pub origin: [usize; 3],
    pub size: [usize; 3],
    words: usize,
    bits: Vec<u64>,
}

impl Cells {
    /// The covered cells of an accepted list.
    pub fn of(list: &List) -> Cells {
        let edge = list.edge as usize;
        let mut shots = list.shots();
        shots.sort_unstable();
        shots.dedup();
        let mut cells = Cells::empty_about(&shots, edge);
        let painting = shots.len() * edge * edge * (edge / 64 + 2);
        let growing = 10 * cells.bits.len();
        if painting <= growing {
            cells.paint(&shots, edge);
        } else {
            cells.grow(&shots, edge);
        }
        cells
    }

    /// No covered cell, in the box about the cubes.
    pub fn empty_about(shots: &[Shot], edge: usize) -> Cells {
        let mut origin = [0; 3];
        let mut size = [0; 3];
        for axis in 0..3 {
            let low = shots.iter().map(|s| s[axis]).min();
            let high = shots.iter().map(|s| s[axis] + edge).max();
            if let (Some(low), Some(high)) = (low, high) {
                origin[axis] = low;
                size[axis] = high - low;
            }
        }
        let words = size[2].div_ceil(64);
        Cells { origin, size, words, bits: vec![0; size[0] * size[1] * words] }
    }

    /// Covers the cells of every cube, cube by cube.
    pub fn paint(&mut self, shots: &[Shot], edge: usize) {
        for shot in shots {
            self.paint_cube(*shot, edge);
        }
    }

    /// Covers the cells of one cube and gives how many of them were not covered before.
    pub fn paint_cube(&mut self, shot: Shot, edge: usize) -> u64 {
        let [x, y, z] = [0, 1, 2].map(|axis| shot[axis] - self.origin[axis]);
        let mut new = 0;
        for i in x..x + edge {
            for j in y..y + edge {
                new += set_range(self.row_mut(i, j), z, z + edge);
            }
        }
        new
    }

    /// Covers the same cells as `paint`, in a time that hardly depends on the cubes: covers each cube's lowest cell, then
    /// along one axis after another every cell that has a covered cell fewer than `edge` steps below it.
    pub fn grow(&mut self, shots: &[Shot], edge: usize) {
        for shot in shots {
            let [x, y, z] = [0, 1, 2].map(|axis| shot[axis] - self.origin[axis]);
            set_range(self.row_mut(x, y), z, z + 1);
        }
        let (words, plane) = (self.words.max(1), (self.size[1] * self.words).max(1));
        for step in steps(edge) {
            for row in self.bits.chunks_exact_mut(words) {
                or_shifted_bits(row, step);
            }
        }
        for step in steps(edge) {
            for rows in self.bits.chunks_exact_mut(plane) {
                or_shifted_words(rows, step * words);
            }
        }
        for step in steps(edge) {
            or_shifted_words(&mut self.bits, step * plane);
        }
    }

    /// Whether the cell is covered; cells outside the box are not.
    pub fn covered(&self, i: i64, j: i64, k: i64) -> bool {
        let place = |c: i64, axis: usize| {
            let at = c - self.origin[axis] as i64;
            (at >= 0 && at < self.size[axis] as i64).then_some(at as usize)
        };
        match (place(i, 0), place(j, 1), place(k, 2)) {
            (Some(i), Some(j), Some(k)) => self.row(i, j).is_some_and(|row| row[k / 64] >> (k % 64) & 1 == 1),
            _ => false,
        }
    }

    /// The row at places i and j of the box.
    pub fn row(&self, i: usize, j: usize) -> Option<&[u64]> {
        let start = (i * self.size[1] + j) * self.words;
        (i < self.size[0] && j < self.size[1]).then(|| &self.bits[start..start + self.words])
    }

    /// The words of a line of this box: its row and room for the place after the last cell.
    pub fn line_words(&self) -> usize {
        self.words + 1
    }

    fn row_mut(&mut self, i: usize, j: usize) -> &mut [u64] {
        let start = (i * self.size[1] + j) * self.words;
        &mut self.bits[start..start + self.words]
    }
}

/// Sets the bits from `low` up to, but not including, `high`, and gives how many of them were clear.
fn set_range(row: &mut [u64], low: usize, high: usize) -> u64 {
    let mut clear = 0;
    for (at, word) in row.iter_mut().enumerate().take((high - 1) / 64 + 1).skip(low / 64) {
        let from = low.max(at * 64) - at * 64;
        let to = high.min(at * 64 + 64) - at * 64;
        let bits = (u64::MAX >> (64 - (to - from))) << from;
        clear += u64::from((bits & !*word).count_ones());
        *word |= bits;
    }
    clear
}

/// Steps of one, two, four and so on, the last one cut short, that together with the first cell make `edge` cells.
fn steps(edge: usize) -> Vec<usize> {
    let mut steps = Vec::new();
    let mut done = 1;
    while done < edge {
        let step = done.min(edge - done);
        steps.push(step);
        done += step;
    }
    steps
}

/// Sets every bit that has a set bit `step` places below it.
fn or_shifted_bits(row: &mut [u64], step: usize) {
    let (words, bits) = (step / 64, step % 64);
    for at in (words..row.len()).rev() {
        let mut shifted = row[at - words] << bits;
        if bits > 0 && at > words {
            shifted |= row[at - words - 1] >> (64 - bits);
        }
        row[at] |= shifted;
    }
}

/// Sets every bit that has the same bit set `step` words below it.
fn or_shifted_words(words: &mut [u64], step: usize) {
    for at in (step..words.len()).rev() {
        words[at] |= words[at - step];
    }
}
