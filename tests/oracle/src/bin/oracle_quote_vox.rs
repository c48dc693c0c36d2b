//! Quotes a VOX file from standard input with the oracle, in the words of `quote_vox`.

use oracle::quote::{quote_vox, VOX_BYTES};
use std::io::{stdin, stdout, Read, Result, Write};

fn main() -> Result<()> {
    let mut bytes = Vec::new();
    stdin().lock().take(VOX_BYTES as u64 + 1).read_to_end(&mut bytes)?;
    if bytes.len() > VOX_BYTES {
        eprintln!("quote_vox: the input has more than 1,048,575 bytes");
        return Ok(());
    }
    stdout().write_all(quote_vox(&bytes).as_bytes())
}
