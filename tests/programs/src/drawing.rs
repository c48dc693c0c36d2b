//! What `vox_shots` writes for a drawing, and what the programs note of one.

use crate::run::Told;
use crate::text::sentence;
use oracle::list::Refusal;
use oracle::quote::{PLACES, VOX_BYTES};
use oracle::shotfile::shortest;
use oracle::vox;

/// What a program notes on standard error of an accepted drawing that has further models.
pub fn note(program: &str, file: &[u8]) -> String {
    if file.len() <= VOX_BYTES && vox::read(file, PLACES).is_ok() && voxel_chunks(file) > 1 {
        format!("{program}: note: the file has further models; only the first is read\n")
    } else {
        String::new()
    }
}

/// How many of the chunks in MAIN, of which SIZE at 20 is the first, hold voxels.
fn voxel_chunks(file: &[u8]) -> usize {
    let number = |at: usize| u32::from_le_bytes(file[at..at + 4].try_into().expect("four bytes")) as usize;
    let (mut at, mut count) = (20, 0);
    while at < file.len() {
        count += usize::from(&file[at..at + 4] == b"XYZI");
        at += 12 + number(at + 4) + number(at + 8);
    }
    count
}

/// What `vox_shots` writes for an input.
pub fn vox_shots(input: &[u8]) -> Told {
    if input.len() > VOX_BYTES {
        let complaint = "vox_shots: the input has more than 1,048,575 bytes\n".into();
        return Told { output: Vec::new(), complaint };
    }
    match vox::read(input, PLACES) {
        Ok(list) => Told { output: shortest(&list), complaint: note("vox_shots", input) },
        Err(Refusal { number, detail }) => {
            let complaint = format!("vox_shots: refused {number} {detail}: {}\n", sentence(number));
            Told { output: Vec::new(), complaint }
        }
    }
}
