//! What a shop charges for a list, by its own tables.

use crate::{accepted, raw, work_needed, List, Refusal};

/// The most bands that a table may have.
pub const MOST_BANDS: usize = 64;
/// The amount at which the last band of a table ends.
pub const TOP_AMOUNT: u64 = 1_099_511_627_776;
/// The highest rate of a band, in cents for each unit.
pub const HIGHEST_RATE: u64 = 10_000;

/// A band of a price table: the amounts from the first to the last, both included, and what each unit costs. Any
/// numbers may stand here; [`price`] says what is wrong with them.
#[repr(C)]
#[derive(Clone, Copy, Debug, PartialEq, Eq)]
pub struct Band {
    /// The first amount: 0, or one past the last amount of the band before.
    pub first: u64,
    /// The last amount, not below the first; [`TOP_AMOUNT`] in the last band of a table.
    pub last: u64,
    /// The rate, at most [`HIGHEST_RATE`].
    pub cents: u64,
}

/// The tables of a shop. Each has at most [`MOST_BANDS`] bands, which run from 0 to exactly [`TOP_AMOUNT`] without gap
/// or overlap.
#[derive(Clone, Copy, Debug, PartialEq, Eq)]
pub struct Tables<'a> {
    /// The bands of the volume.
    pub volume: &'a [Band],
    /// The bands of the area.
    pub area: &'a [Band],
    /// The bands of the edge length. The inner length has no price.
    pub edges: &'a [Band],
}

/// What a list costs, in cents: each amount as a whole times the rate of the one band that holds it.
#[derive(Clone, Copy, Debug, PartialEq, Eq)]
pub struct Charges {
    /// The charge of the volume.
    pub volume: u64,
    /// The charge of the area.
    pub area: u64,
    /// The charge of the edge length.
    pub edge: u64,
}

/// Measures a list and prices it. Success and [`Reason::InvalidTable`](crate::Reason::InvalidTable) leave the grid
/// index in the first entries of `work`; nothing else changes.
///
/// A table is refused after all that [`measure`](crate::measure) refuses, that of the volume first, then that of the
/// area, then that of the edge length. The detail does not say which: it is 64 for more than 64 bands, else the first
/// faulty band, from 0, else the number of bands, where the last does not end at the top.
///
/// ```
/// use heqdanu::{price, Band, Charges, List, Reason, Tables, TOP_AMOUNT};
///
/// let list = List { field: 8, edge: 2, grid: 2, coords: &[0, 0, 0, 1, 1, 1] };
/// let bands = [Band { first: 0, last: 15, cents: 20 }, Band { first: 16, last: TOP_AMOUNT, cents: 5 }];
/// let tables = Tables { volume: &bands, area: &bands, edges: &bands[1..] };
/// let refusal = price(&list, &mut [0; 11], &tables).unwrap_err();
/// assert_eq!((refusal.reason, refusal.detail), (Reason::InvalidTable, 0));
/// let tables = Tables { edges: &bands, ..tables };
/// assert_eq!(price(&list, &mut [0; 11], &tables), Ok(Charges { volume: 300, area: 210, edge: 210 }));
/// ```
pub fn price(list: &List, work: &mut [u32], tables: &Tables) -> Result<Charges, Refusal> {
    let mut answer = [0; 5];
    // SAFETY: each pointer comes from a slice with the length beside it, and no slice that is written overlaps another.
    let written = unsafe {
        raw::heqdanu_price(
            list.field,
            list.edge,
            list.grid,
            list.coords.as_ptr(),
            list.coords.len(),
            work.as_mut_ptr(),
            work.len(),
            tables.volume.as_ptr(),
            tables.volume.len(),
            tables.area.as_ptr(),
            tables.area.len(),
            tables.edges.as_ptr(),
            tables.edges.len(),
            answer.as_mut_ptr(),
            answer.len(),
        )
    };
    let [_, _, volume, area, edge] = accepted(written, answer)?;
    Ok(Charges { volume, area, edge })
}

/// Prices a list with a work slice of its own.
///
/// ```
/// use heqdanu::{charges, Band, Charges, List, Tables, TOP_AMOUNT};
///
/// let list = List { field: 8, edge: 2, grid: 2, coords: &[0, 0, 0, 1, 1, 1] };
/// let flat = [Band { first: 0, last: TOP_AMOUNT, cents: 3 }];
/// let tables = Tables { volume: &flat, area: &flat, edges: &flat };
/// assert_eq!(charges(&list, &tables), Ok(Charges { volume: 45, area: 126, edge: 126 }));
/// ```
pub fn charges(list: &List, tables: &Tables) -> Result<Charges, Refusal> {
    price(list, &mut vec![0; work_needed(list)?], tables)
}
