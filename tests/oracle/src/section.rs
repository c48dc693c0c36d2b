//! The corners at one x: the part of a listing's bytes that holds the records with that x.

use crate::corners::Corner;
use std::ops::Range;

/// The bytes of the first unbroken run of records with that x; 0 to 0 where no record has it. Any bytes are a listing,
/// and a remainder shorter than a record is no record.
pub fn places(listing: &[u8], x: u16) -> Range<usize> {
    let xs: Vec<u16> = listing.chunks_exact(7).map(|record| Corner::from_bytes(record).at[0]).collect();
    let mut end = 0;
    let mut runs = xs.chunk_by(|one, next| one == next).map(|run| {
        end += 7 * run.len();
        (run[0], end - 7 * run.len()..end)
    });
    runs.find(|(own, _)| *own == x).map_or(0..0, |(_, places)| places)
}

/// The records of those bytes.
pub fn records(listing: &[u8], x: u16) -> Vec<Corner> {
    listing[places(listing, x)].chunks_exact(7).map(Corner::from_bytes).collect()
}
