//! The grid index: which shots touch which grid cell, and which shot of a run is the first that covers a unit cell.

use crate::list::{List, Shot};

/// Whether interval `g` of an axis, closed, shares a point with the closed extent of a cube that starts at `low`.
pub fn touches(list: &List, g: usize, low: usize) -> bool {
    let width = list.field as usize / list.grid as usize;
    g * width <= low + list.edge as usize && low <= (g + 1) * width
}

/// The intervals of an axis that a cube starting at `low` touches.
fn touched(list: &List, low: usize) -> Vec<usize> {
    (0..list.grid as usize).filter(|g| touches(list, *g, low)).collect()
}

/// The entries that the work slice needs for an accepted list: the starting places and one entry for each pair of a
/// grid cell and a shot that touches it.
pub fn need(list: &List) -> usize {
    let pairs = |shot: [usize; 3]| shot.map(|low| touched(list, low).len()).iter().product::<usize>();
    (list.grid as usize).pow(3) + 1 + list.shots().into_iter().map(pairs).sum::<usize>()
}

/// The index of an accepted list: the starting places of the runs, the number of pairs, then the runs.
pub fn index(list: &List) -> Vec<u32> {
    let grid = list.grid as usize;
    let mut runs = vec![Vec::new(); grid.pow(3)];
    for (number, shot) in list.shots().iter().enumerate() {
        let [gxs, gys, gzs] = shot.map(|low| touched(list, low));
        for gx in &gxs {
            for gy in &gys {
                for gz in &gzs {
                    runs[(gx * grid + gy) * grid + gz].push(number as u32);
                }
            }
        }
    }
    let mut index = Vec::new();
    let mut start = 0;
    for run in &runs {
        index.push(start);
        start += run.len() as u32;
    }
    index.push(start);
    index.extend(runs.into_iter().flatten());
    index
}

/// The first shot of a run that covers a unit cell, if one does. The run may be any numbers: one past the list's shots
/// is no shot, and covers nothing.
pub fn first_covering(list: &List, run: &[u32], cell: [u16; 3]) -> Option<u32> {
    let (shots, edge) = (list.shots(), list.edge as usize);
    let covers = |shot: &Shot| (0..3).all(|axis| (shot[axis]..shot[axis] + edge).contains(&cell[axis].into()));
    run.iter().copied().find(|number| shots.get(*number as usize).is_some_and(covers))
}

/// The run, in the index of an accepted list, of the grid cell that holds a unit cell of the field.
pub fn run_about(list: &List, cell: [u16; 3]) -> Vec<u32> {
    let (index, grid) = (index(list), list.grid as usize);
    let [gx, gy, gz] = cell.map(|place| (place / (list.field / list.grid)) as usize);
    let number = (gx * grid + gy) * grid + gz;
    let runs = &index[grid.pow(3) + 1..];
    runs[index[number] as usize..index[number + 1] as usize].to_vec()
}
