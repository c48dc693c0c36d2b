//! Credits the cells of a shot file from standard input to its shots with the oracle, in the words of `credits`.

use std::io::{stdin, stdout, Result, Write};

fn main() -> Result<()> {
    let bytes = oracle::quote::first_bytes(stdin().lock())?;
    stdout().write_all(oracle::quote::credits(&bytes).as_bytes())
}
