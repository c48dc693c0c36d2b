//! Quotes a shot file from standard input: `cargo run --example quote < part.shots`.

use heqdanu::{from_file, quote, List};
use std::error::Error;
use std::io::{stdin, Read};

fn main() -> Result<(), Box<dyn Error>> {
    let mut bytes = Vec::new();
    stdin().lock().read_to_end(&mut bytes)?;
    let (header, coords) = from_file(&bytes)?;
    let list = List { field: header.field, edge: header.edge, grid: header.grid, coords: &coords };
    let totals = quote(&list)?;
    println!("volume {}", totals.volume);
    println!("area {}", totals.area);
    println!("edge {}", totals.edge);
    println!("inner {}", totals.inner);
    println!("corners {}", totals.corners);
    Ok(())
}
