//! Listings, whole and damaged, and an x to look for in them, from a seed.

use crate::corners::{listing, Corner};
use crate::inputs::{flip, Random};

/// Some values of x: neighbours, with the same low byte, with the same high byte, past 1,024, and the last.
const XS: [u16; 12] = [0, 1, 2, 3, 255, 256, 258, 512, 1024, 1025, 1026, 65_535];

/// Up to so many records with few values of x, in runs of some: rising, falling or in any order, so that runs repeat.
pub fn few_planes(random: &mut Random, most: usize) -> Vec<u8> {
    let values: Vec<u16> = (0..random.within(1, 4)).map(|_| random.one_of(&XS)).collect();
    let (records, longest) = (random.within(0, most), random.one_of(&[1, 2, 5, 40]));
    let mut xs = Vec::new();
    while xs.len() < records {
        let x = random.one_of(&values);
        xs.extend(vec![x; random.within(1, longest).min(records - xs.len())]);
    }
    match random.within(0, 7) {
        0 => xs.sort_unstable(),
        1 => xs.sort_unstable_by(|one, other| other.cmp(one)),
        _ => {}
    }
    listing(&xs.into_iter().map(|x| corner(random, x)).collect::<Vec<Corner>>())
}

/// A corner with that x; its other numbers are small, or any.
fn corner(random: &mut Random, x: u16) -> Corner {
    let most = random.one_of(&[3, 1024, 65_535]);
    let [y, z] = [0; 2].map(|_| random.within(0, most) as u16);
    Corner { at: [x, y, z], pattern: random.number() as u8 }
}

/// What becomes of a listing: it is cut, has flipped bits, lost or doubled bytes, exchanged parts, or more after it.
pub fn damaged(random: &mut Random, mut listing: Vec<u8>) -> Vec<u8> {
    let place = random.within(0, listing.len());
    match random.within(0, 7) {
        0 => listing.truncate(place),
        1 => flip(random, &mut listing, 1),
        2 => flip(random, &mut listing, 12),
        3 => drop(listing.drain(place..(place + random.within(1, 9)).min(listing.len()))),
        4 => listing.extend_from_within(place.saturating_sub(random.within(1, 30))..place),
        5 => listing.rotate_left(place),
        6 => listing.rotate_left(place / 7 * 7),
        _ => listing.extend((0..random.within(1, 13)).map(|_| random.number() as u8 & 3).collect::<Vec<u8>>()),
    }
    listing
}

/// So many bytes: any, or small ones, of which every second is often 0, as in records.
pub fn any_bytes(random: &mut Random, length: usize) -> Vec<u8> {
    let mask = random.one_of(&[1, 3, 255]);
    let high = random.one_of(&[0, 1, 255]);
    (0..length).map(|place| random.number() as u8 & if place % 7 == 1 { high } else { mask }).collect()
}

/// An x to look for: mostly that of a record, or of a remainder that begins as one, else beside it, or any other.
pub fn x(random: &mut Random, listing: &[u8]) -> u16 {
    let records = listing.len().div_ceil(7);
    let place = 7 * random.within(0, records.max(1) - 1);
    let own = match listing.get(place..place + 2) {
        Some(bytes) => u16::from_le_bytes([bytes[0], bytes[1]]),
        None => 0,
    };
    match random.within(0, 9) {
        0 => random.one_of(&XS),
        1 => random.number() as u16,
        2 => random.one_of(&[own.wrapping_add(1), own.wrapping_sub(1), own ^ 256, own.swap_bytes(), own & 255]),
        _ => own,
    }
}
