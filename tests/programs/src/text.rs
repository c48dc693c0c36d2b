//! A shot file as plain text. The lines and their order are written from README's description; the sentences are those
//! that the programs print (crate `text_wording`), since README shows only some of them: the tests hold the programs to
//! these words and do not judge them.

use crate::records::after;
use oracle::list::{List, Refusal};
use oracle::quote::{BYTES, PLACES};
use oracle::shotfile::{self, ABSENT};

/// What the commands add where a file is refused by 17.
pub const NOT_SHORTEST: &str = "only the shortest file of a list is read; this one must be made anew by its source";

/// The refusals in words.
pub fn sentence(number: u64) -> &'static str {
    match number {
        2 => "there are more than 4,096 shots",
        4 => "this map has a bit that has no meaning",
        5 => "the file ends before a field of this map, or is empty",
        6 => "the field side is not 1 to 1,024",
        7 => "the shot edge is not 1 to the field side",
        8 => "the grid size is not 1 to 64, or does not divide the field side",
        9 => "a shot leaves the field",
        10 => "the work slice is too short for the grid index",
        11 => "the listing buffer is shorter than 7 bytes a corner",
        13 => "no VOX mark of version 150, or not the chunk required here",
        14 => "this chunk is cut short, or a size of it does not match",
        15 => "a side is not 1 to 256, or a voxel is outside or has colour 0",
        17 => "a field of this map says what its absence would mean",
        _ => panic!("refusal {number} has no sentence here"),
    }
}

/// What `shots` prints for an input.
pub fn shots(input: &[u8]) -> String {
    let file = &input[..input.len().min(BYTES)];
    let mut text = String::new();
    let whole = shotfile::read(file, PLACES);
    let end = match &whole {
        Ok(_) => file.len(),
        Err(refusal) => refusal.detail as usize,
    };
    // The records before the first faulty one are a file by themselves.
    if let Ok(list) = shotfile::read(&file[..end], PLACES) {
        let names = ["field", "edge", "grid"];
        for (bit, value) in [list.field, list.edge, list.grid].into_iter().enumerate() {
            let note = if file[0] >> bit & 1 == 0 { " # default" } else { "" };
            assert_eq!(note.is_empty(), value != ABSENT[bit]);
            text += &format!("{} {value}{note}\n", names[bit]);
        }
        let mut offset = after(file, 0);
        for (number, shot) in list.coords.chunks_exact(3).enumerate() {
            text += &format!("shot {} {} {} # number {number}, byte {offset}\n", shot[0], shot[1], shot[2]);
            offset = after(file, offset);
        }
    }
    match whole {
        Err(Refusal { number, detail }) => {
            text += &format!("refused {number} at byte {detail}: {}\n", sentence(number))
        }
        Ok(list) => match list.check() {
            Ok(()) => (),
            Err(Refusal { number: 9, detail }) => text += &format!("refused 9 at shot {detail}: {}\n", sentence(9)),
            Err(Refusal { number, .. }) => text += &format!("refused {number}: {}\n", sentence(number)),
        },
    }
    text
}

/// A list as somebody types it.
pub fn typed(list: &List) -> String {
    let mut text = format!("field {}\nedge {}\ngrid {}\n", list.field, list.edge, list.grid);
    for shot in list.coords.chunks_exact(3) {
        text += &format!("shot {} {} {}\n", shot[0], shot[1], shot[2]);
    }
    text
}
