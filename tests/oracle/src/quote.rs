//! The programs that answer a shot file, or a VOX file, from standard input with lines on standard output: the five
//! lines of a quote, a line of credit for each shot, or a refusal.

use crate::calls;
use crate::list::List;
use std::io::{self, Read};

/// The bytes of its input that the quoting program looks at.
pub const BYTES: usize = 28_680;
/// The coordinate places that it has.
pub const PLACES: usize = 12_288;
/// The work entries that it has.
pub const ENTRIES: usize = 16_384;
/// The credit places that `credits` has, one for each shot of the longest list.
pub const CREDITS: usize = 4096;

/// The bytes of a VOX file that `quote_vox` has room for; a longer input is no file for it.
pub const VOX_BYTES: usize = 1_048_575;

/// What the quoting program prints for this input.
pub fn quote(input: &[u8]) -> String {
    let mut coords = vec![0; PLACES];
    let answer = calls::read(&input[..input.len().min(BYTES)], &mut coords);
    quote_read(answer, coords)
}

/// What `quote_vox` prints for an input that it has room for.
pub fn quote_vox(input: &[u8]) -> String {
    assert!(input.len() <= VOX_BYTES, "a longer input has no quote");
    let mut coords = vec![0; PLACES];
    let answer = calls::read_vox(input, &mut coords);
    quote_read(answer, coords)
}

/// What `credits` prints for this input: a line for each shot, its number and its credit.
pub fn credits(input: &[u8]) -> String {
    let mut coords = vec![0; PLACES];
    let answer = calls::read(&input[..input.len().min(BYTES)], &mut coords);
    let list = match list_read(answer, coords) {
        Err(told) => return told,
        Ok(list) => list,
    };
    let mut credits = vec![0; CREDITS];
    let [number, detail] = calls::credit(&list, &mut vec![0; ENTRIES], &mut credits);
    if number != 0 {
        return refused(number, detail);
    }
    credits.truncate(list.coords.len() / 3);
    credits.iter().enumerate().map(|(shot, credit)| format!("{shot} {credit}\n")).collect()
}

/// The quote of what a reader answered and stored.
fn quote_read(answer: [u64; 6], coords: Vec<u16>) -> String {
    let list = match list_read(answer, coords) {
        Err(told) => return told,
        Ok(list) => list,
    };
    let [number, detail, volume, area, edge, inner, corners] = calls::measure(&list, &mut vec![0; ENTRIES]);
    if number != 0 {
        return refused(number, detail);
    }
    format!("volume {volume}\narea {area}\nedge {edge}\ninner {inner}\ncorners {corners}\n")
}

/// The list that a reader answered and stored, or the line of its refusal.
fn list_read([number, detail, field, edge, grid, shots]: [u64; 6], mut coords: Vec<u16>) -> Result<List, String> {
    if number != 0 {
        return Err(refused(number, detail));
    }
    coords.truncate(3 * shots as usize);
    Ok(List { field: field as u16, edge: edge as u16, grid: grid as u16, coords })
}

/// The line of a refusal.
fn refused(number: u64, detail: u64) -> String {
    format!("refused {number} {detail}\n")
}

/// The input's first bytes, as many as the quoting program looks at.
pub fn first_bytes(input: impl Read) -> io::Result<Vec<u8>> {
    let mut bytes = Vec::new();
    input.take(BYTES as u64).read_to_end(&mut bytes)?;
    Ok(bytes)
}
