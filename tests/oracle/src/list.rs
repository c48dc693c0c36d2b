//! A list: field side, shot edge, grid size and coordinates, and what refuses it.

/// The most shots that a list may have.
pub const MOST_SHOTS: usize = 4096;

/// The lower corner of a shot.
pub type Shot = [usize; 3];

/// A list as a caller hands it over; nothing about it is known to be in range.
#[derive(Clone, Debug, PartialEq, Eq)]
pub struct List {
    pub field: u16,
    pub edge: u16,
    pub grid: u16,
    pub coords: Vec<u16>,
}

/// The number of a refusal and its detail.
#[derive(Clone, Copy, Debug, PartialEq, Eq)]
pub struct Refusal {
    pub number: u64,
    pub detail: u64,
}

/// A refusal with its detail.
pub fn refusal(number: u64, detail: usize) -> Refusal {
    Refusal { number, detail: detail as u64 }
}

impl List {
    /// The shots, three coordinates each; a remainder of one or two numbers is no shot.
    pub fn shots(&self) -> Vec<Shot> {
        self.coords.chunks_exact(3).map(|c| [c[0] as usize, c[1] as usize, c[2] as usize]).collect()
    }

    /// Refusals 1, 2, 6, 7, 8 and 9, in this order: those that depend on the list alone.
    pub fn check(&self) -> Result<(), Refusal> {
        let (field, edge, grid) = (self.field as usize, self.edge as usize, self.grid as usize);
        if !self.coords.len().is_multiple_of(3) {
            return Err(refusal(1, 0));
        }
        if self.coords.len() / 3 > MOST_SHOTS {
            return Err(refusal(2, 0));
        }
        if !(1..=1024).contains(&field) {
            return Err(refusal(6, 0));
        }
        if !(1..=field).contains(&edge) {
            return Err(refusal(7, 0));
        }
        if !(1..=64).contains(&grid) || !field.is_multiple_of(grid) {
            return Err(refusal(8, 0));
        }
        match self.shots().iter().position(|shot| shot.iter().any(|c| c + edge > field)) {
            Some(first) => Err(refusal(9, first)),
            None => Ok(()),
        }
    }
}
