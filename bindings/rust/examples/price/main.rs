//! The program of the command `heqdanu price`: `price TABLES` prices a shot file, from standard input, by the tables of
//! a shop. It prints the three charges in cents, a line each, or one line `refused NUMBER DETAIL`.
//!
//! What stands in the way is said on standard error, in a line that begins with `price: `. Where it is about TABLES,
//! `tables: ` follows, for which the command says the file's name. The status is 0 whatever is said.

// Where a standard stream is closed, the standard library's own `main` opens /dev/null in its place. Here it stays
// closed, so that no price goes where nobody reads it; and a reader that leaves a pipe ends the program by signal 13.
#![no_main]

mod tables;

use heqdanu::{price, read, Charges, List, Reason, Refusal, MOST_COORDS};
use std::ffi::{c_char, c_int, OsStr, OsString};
use std::fs::File;
use std::io::{self, Read, Write};
use std::mem::ManuallyDrop;
use std::os::fd::FromRawFd;
use tables::{Shop, LONGEST};

/// The bytes that are taken of a shot file: the longest file of a list, and one byte more.
const BYTES: usize = 28_680;
/// The entries of the work slice.
const WORK: usize = 16_384;

/// What the program writes: the answer, and what is said of it.
struct Answer {
    text: String,
    note: Option<String>,
}

#[no_mangle]
pub extern "C" fn main(_count: c_int, _words: *const *const c_char) -> c_int {
    let words: Vec<OsString> = std::env::args_os().skip(1).collect();
    let said = match &words[..] {
        [path] => answer(path).and_then(|answer| written(&answer)),
        _ => Err("takes one word, the file of the price tables, and reads a shot file from standard input".into()),
    };
    if let Some(line) = said.unwrap_or_else(Some) {
        // Where nobody hears it, there is nobody to tell.
        let _ = stream(2).write_all(format!("price: {line}\n").as_bytes());
    }
    0
}

/// A standard stream, which is not closed here.
fn stream(number: c_int) -> ManuallyDrop<File> {
    // SAFETY: a standard stream is the program's own; where it is closed, reading and writing fail.
    ManuallyDrop::new(unsafe { File::from_raw_fd(number) })
}

/// Writes the answer; what is left to be said is its note.
fn written(answer: &Answer) -> Result<Option<String>, String> {
    let written = stream(1).write_all(answer.text.as_bytes());
    written.map_err(|_| "standard output cannot be written")?;
    Ok(answer.note.clone())
}

/// The answer for the shot file on standard input, by the tables of that file; or what stands in the way.
fn answer(path: &OsStr) -> Result<Answer, String> {
    let shop = shop(path).map_err(|trouble| format!("tables: {trouble}"))?;
    let file = taken(&mut *stream(0), BYTES).map_err(|_| "standard input cannot be read")?;
    Ok(match charges(&file, &shop) {
        Ok(Charges { volume, area, edge }) => {
            Answer { text: format!("volume {volume}\narea {area}\nedge {edge}\n"), note: None }
        }
        Err(Refusal { reason, detail }) => {
            let fault = if reason == Reason::InvalidTable { shop.fault() } else { None };
            let note = fault.map(|fault| format!("tables: {fault}"));
            Answer { text: format!("refused {} {detail}\n", reason.number()), note }
        }
    })
}

/// The tables of a file.
fn shop(path: &OsStr) -> Result<Shop, String> {
    let mut file = File::open(path).map_err(|_| "cannot be opened")?;
    let text = taken(&mut file, LONGEST + 1).map_err(|_| "cannot be read")?;
    if text.len() > LONGEST {
        return Err("the text is longer than 1,048,575 bytes".into());
    }
    Shop::read(&text)
}

/// What a shot file costs, with as much room as `quote` has.
fn charges(file: &[u8], shop: &Shop) -> Result<Charges, Refusal> {
    let mut coords = vec![0; MOST_COORDS];
    let header = read(file, &mut coords)?;
    let coords = &coords[..3 * header.shots];
    let list = List { field: header.field, edge: header.edge, grid: header.grid, coords };
    price(&list, &mut vec![0; WORK], &shop.lent())
}

/// The first bytes of a file, so many at most.
fn taken(file: &mut File, most: usize) -> io::Result<Vec<u8>> {
    let mut bytes = Vec::new();
    file.take(most as u64).read_to_end(&mut bytes)?;
    Ok(bytes)
}
