//! What the program `listing` writes, and what the script `same` says of two files, from the oracle's listings.

use crate::run::Told;
use crate::text::sentence;
use oracle::calls;
use oracle::corners::Corner;
use oracle::list::{List, Refusal};
use oracle::quote::{BYTES, ENTRIES, PLACES};
use oracle::shotfile;

/// The corners that the program has room for.
pub const ROOM: usize = 131_072;

/// What the program writes for an input: the listing, or the refusal with its sentence on standard error.
pub fn listing(input: &[u8]) -> Told {
    match listed(input) {
        Ok(output) => Told { output, complaint: String::new() },
        Err(Refusal { number, detail }) => Told {
            output: Vec::new(),
            complaint: format!("listing: refused {number} {detail}: {}\n", sentence(number)),
        },
    }
}

fn listed(input: &[u8]) -> Result<Vec<u8>, Refusal> {
    let list: List = shotfile::read(&input[..input.len().min(BYTES)], PLACES)?;
    let mut bytes = vec![0; 7 * ROOM];
    let [number, detail, .., corners] = calls::list(&list, &mut vec![0; ENTRIES], &mut bytes);
    if number != 0 {
        return Err(Refusal { number, detail });
    }
    bytes.truncate(7 * corners as usize);
    Ok(bytes)
}

/// What `same` says of two files whose lists are accepted, and its status.
pub fn compared(names: [&str; 2], files: [&[u8]; 2]) -> (String, i32) {
    let [a, b] = files.map(|file| corners(&listing(file).good()));
    let differs = |corner: &Corner, others: &[Corner]| !others.contains(corner);
    let first_a = a.iter().find(|corner| differs(corner, &b));
    let first_b = b.iter().find(|corner| differs(corner, &a));
    let alone = |name: &str, c: &Corner| {
        let [x, y, z] = c.at;
        format!("{name} alone has the corner {x} {y} {z} with pattern {}\n", c.pattern)
    };
    let said = match (first_a, first_b) {
        (None, None) => return (format!("{} and {} cure the same cells\n", names[0], names[1]), 0),
        (Some(a), Some(b)) if a.at == b.at => {
            let [x, y, z] = a.at;
            let [one, other] = [a.pattern, b.pattern];
            format!("the corner {x} {y} {z} has pattern {one} in {} and pattern {other} in {}\n", names[0], names[1])
        }
        (Some(a), Some(b)) if a.at > b.at => alone(names[1], b),
        (None, Some(b)) => alone(names[1], b),
        (Some(a), _) => alone(names[0], a),
    };
    (said, 1)
}

fn corners(listing: &[u8]) -> Vec<Corner> {
    listing.chunks_exact(7).map(Corner::from_bytes).collect()
}
