//! Shot files: a bit map byte, then only the fields whose bit stands, 16 bits each, least byte first. A field stands
//! only where its absence would mean something else, so a list with its settings has one file.

use crate::list::{refusal, List, Refusal, MOST_SHOTS};

/// What an absent header field means: field side, shot edge, grid size.
pub const ABSENT: [u16; 3] = [1024, 16, 16];

/// The map that a record of these values must have: it names those that are not what their absence means.
fn map_of(values: [u16; 3], absent: [u16; 3]) -> u8 {
    (0..3).filter(|bit| values[*bit] != absent[*bit]).map(|bit| 1u8 << bit).sum()
}

/// Reads one record at `offset`: a map, then the fields that it names; absent ones keep their values. Gives the
/// record's values and the offset after it. Once it is whole, a map that names another field than it must is refused.
fn record(file: &[u8], offset: usize, absent: [u16; 3]) -> Result<([u16; 3], usize), Refusal> {
    let Some(&map) = file.get(offset) else {
        return Err(refusal(5, offset));
    };
    if map & !7 != 0 {
        return Err(refusal(4, offset));
    }
    let mut values = absent;
    let mut at = offset + 1;
    for (bit, value) in values.iter_mut().enumerate() {
        if map >> bit & 1 == 1 {
            match file.get(at..at + 2) {
                Some(field) => *value = u16::from_le_bytes([field[0], field[1]]),
                None => return Err(refusal(5, offset)),
            }
            at += 2;
        }
    }
    if map != map_of(values, absent) {
        return Err(refusal(17, offset));
    }
    Ok((values, at))
}

/// The list that a file holds, where `places` coordinates can be stored; else the refusal of the first faulty record,
/// by 2, 3, 4, 5 or 17, with the offset of its map.
pub fn read(file: &[u8], places: usize) -> Result<List, Refusal> {
    let ([field, edge, grid], mut offset) = record(file, 0, ABSENT)?;
    let mut coords = Vec::new();
    let mut previous = [0; 3];
    while offset < file.len() {
        let shots = coords.len() / 3;
        if shots + 1 > MOST_SHOTS {
            return Err(refusal(2, offset));
        }
        if places < 3 * (shots + 1) {
            return Err(refusal(3, offset));
        }
        (previous, offset) = record(file, offset, previous)?;
        coords.extend(previous);
    }
    Ok(List { field, edge, grid, coords })
}

/// The shortest file of a list, whatever its numbers; one or two coordinates past the last shot are left out.
pub fn shortest(list: &List) -> Vec<u8> {
    let mut file = Vec::new();
    let mut put = |values: [u16; 3], absent: [u16; 3]| {
        let map = map_of(values, absent);
        file.push(map);
        for (bit, value) in values.into_iter().enumerate() {
            if map >> bit & 1 == 1 {
                file.extend(value.to_le_bytes());
            }
        }
    };
    put([list.field, list.edge, list.grid], ABSENT);
    let mut previous = [0; 3];
    for shot in list.coords.chunks_exact(3) {
        let shot = [shot[0], shot[1], shot[2]];
        put(shot, previous);
        previous = shot;
    }
    file
}
