//! Quotes a shot file from standard input with the oracle, in the quoting program's own words.

use std::io::{stdin, stdout, Result, Write};

fn main() -> Result<()> {
    let bytes = oracle::quote::first_bytes(stdin().lock())?;
    stdout().write_all(oracle::quote::quote(&bytes).as_bytes())
}
