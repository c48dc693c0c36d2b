//! The definitions word for word, for small fields: every cell asks every shot, every lattice point its eight cells.
//! Slow on purpose; the other modules are held to it.

use crate::corners::{Corner, Weights};
use crate::list::List;
use crate::shotfile::ABSENT;

/// The lowest shot that covers a cell; a cell outside the field has none.
pub fn lowest_covering(list: &List, i: i64, j: i64, k: i64) -> Option<usize> {
    let edge = i64::from(list.edge);
    list.shots().iter().position(|shot| {
        let [x, y, z] = shot.map(|c| c as i64);
        x <= i && i < x + edge && y <= j && j < y + edge && z <= k && k < z + edge
    })
}

/// Whether a cell is covered; cells outside the field are not.
pub fn covered(list: &List, i: i64, j: i64, k: i64) -> bool {
    lowest_covering(list, i, j, k).is_some()
}

/// For each shot the number of cells for which it is the lowest covering shot: every cell of the field asks every shot.
pub fn credits(list: &List) -> Vec<u32> {
    let field = i64::from(list.field);
    let mut credits = vec![0; list.shots().len()];
    for i in 0..field {
        for j in 0..field {
            for k in 0..field {
                if let Some(shot) = lowest_covering(list, i, j, k) {
                    credits[shot] += 1;
                }
            }
        }
    }
    credits
}

/// Covered cells as bytes, with a margin of one uncovered cell on every side of the field.
struct Room {
    side: i64,
    cells: Vec<bool>,
}

impl Room {
    fn of(list: &List) -> Room {
        let side = i64::from(list.field) + 2;
        let mut cells = Vec::new();
        for i in -1..side - 1 {
            for j in -1..side - 1 {
                for k in -1..side - 1 {
                    cells.push(covered(list, i, j, k));
                }
            }
        }
        Room { side, cells }
    }

    fn at(&self, i: i64, j: i64, k: i64) -> bool {
        self.cells[(((i + 1) * self.side + j + 1) * self.side + k + 1) as usize]
    }
}

/// Calls `look` at every lattice point of the field, rising by x, then y, then z.
fn points(list: &List, mut look: impl FnMut(i64, i64, i64)) {
    let field = i64::from(list.field);
    for x in 0..=field {
        for y in 0..=field {
            for z in 0..=field {
                look(x, y, z);
            }
        }
    }
}

/// Volume, area, edge length and inner length.
pub fn totals(list: &List) -> [u64; 4] {
    let room = Room::of(list);
    let mut totals = [0; 4];
    points(list, |x, y, z| {
        let cell = room.at(x, y, z);
        totals[0] += u64::from(cell);
        for below in [room.at(x - 1, y, z), room.at(x, y - 1, z), room.at(x, y, z - 1)] {
            totals[1] += u64::from(cell != below);
        }
        let along_x = unit_edge(|p, q| room.at(x, y + p, z + q));
        let along_y = unit_edge(|p, q| room.at(x + p, y, z + q));
        let along_z = unit_edge(|p, q| room.at(x + p, y + q, z));
        for (edge, inner) in [along_x, along_y, along_z] {
            totals[2] += edge;
            totals[3] += inner;
        }
    });
    totals
}

/// What a unit edge counts as edge and as inner length: one covered cell about it is edge 1, two that share only the
/// edge are edge 2, three are inner 1.
fn unit_edge(cell: impl Fn(i64, i64) -> bool) -> (u64, u64) {
    let (a, b, c, d) = (cell(-1, -1), cell(-1, 0), cell(0, -1), cell(0, 0));
    match u8::from(a) + u8::from(b) + u8::from(c) + u8::from(d) {
        1 => (1, 0),
        2 if a && d => (2, 0),
        2 if b && c => (2, 0),
        3 => (0, 1),
        _ => (0, 0),
    }
}

/// The corner points in order.
pub fn corners(list: &List) -> Vec<Corner> {
    let room = Room::of(list);
    let mut found = Vec::new();
    points(list, |x, y, z| {
        let mut pattern = 0u8;
        for bit in 0..8 {
            let (a, b, c) = (bit >> 2 & 1, bit >> 1 & 1, bit & 1);
            if room.at(x - 1 + a, y - 1 + b, z - 1 + c) {
                pattern |= 1 << bit;
            }
        }
        if Weights::of(pattern).corner() {
            found.push(Corner { at: [x as u16, y as u16, z as u16], pattern });
        }
    });
    found
}

/// Whether some point lies in the closed interval `g` of an axis and in the closed extent of a cube from `low`. Both
/// have whole-number ends, so trying the whole numbers is enough.
fn touches(list: &List, g: usize, low: usize) -> bool {
    let width = list.field as usize / list.grid as usize;
    let (interval, extent) = (g * width..=(g + 1) * width, low..=low + list.edge as usize);
    (0..=list.field as usize).any(|point| interval.contains(&point) && extent.contains(&point))
}

/// The grid index: every grid cell asks every shot.
pub fn index(list: &List) -> Vec<u32> {
    let grid = list.grid as usize;
    let mut starts = vec![0];
    let mut runs = Vec::new();
    for cell in 0..grid.pow(3) {
        let (gx, gy, gz) = (cell / grid / grid, cell / grid % grid, cell % grid);
        for (number, [x, y, z]) in list.shots().into_iter().enumerate() {
            if touches(list, gx, x) && touches(list, gy, y) && touches(list, gz, z) {
                runs.push(number as u32);
            }
        }
        starts.push(runs.len() as u32);
    }
    starts.extend(runs);
    starts
}

/// The places of the maps of a shot file of whole records.
pub fn maps(file: &[u8]) -> Vec<usize> {
    let after = |map: &usize| Some(map + 1 + 2 * file[*map].count_ones() as usize).filter(|map| *map < file.len());
    std::iter::successors(Some(0), after).collect()
}

/// The field of that bit in the record whose map stands at a place, if the record has it.
fn field_at(file: &[u8], map: usize, bit: usize) -> Option<u16> {
    let before = file[map] & ((1 << bit) - 1);
    let place = map + 1 + 2 * before.count_ones() as usize;
    (file[map] >> bit & 1 == 1).then(|| u16::from_le_bytes([file[place], file[place + 1]]))
}

/// The place of the first map that names a field which says what its absence would mean, in a file of whole records.
/// What it would mean in a shot, the last shot before it that has the field says.
pub fn first_needless(file: &[u8]) -> Option<usize> {
    let maps = maps(file);
    let absent = |record: usize, bit: usize| match record {
        0 => ABSENT[bit],
        _ => maps[1..record].iter().rev().find_map(|map| field_at(file, *map, bit)).unwrap_or(0),
    };
    let needless = |record: usize, bit: usize| field_at(file, maps[record], bit) == Some(absent(record, bit));
    (0..maps.len()).find(|record| (0..3).any(|bit| needless(*record, bit))).map(|record| maps[record])
}
