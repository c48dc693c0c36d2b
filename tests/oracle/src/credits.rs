//! Cells credited to shots: each covered cell belongs to its lowest covering shot.

use crate::cells::Cells;
use crate::list::List;

/// The credit of each shot of an accepted list: the cells that it paints and that no earlier shot has painted.
pub fn credits(list: &List) -> Vec<u32> {
    let (shots, edge) = (list.shots(), list.edge as usize);
    let mut cells = Cells::empty_about(&shots, edge);
    shots.iter().map(|shot| cells.paint_cube(*shot, edge) as u32).collect()
}
