//! examples/audit.py, which a customer reads and runs: from a listing alone it has the totals that `quote` has.

use oracle::inputs::{accepted, coarsen, Random, Size};
use oracle::shotfile::shortest;
use programs::run::on;
use programs::tree::{repository, spawn};
use std::fs;
use std::io::Write;
use std::process::{Command, Output, Stdio};
use std::sync::OnceLock;

/// What the audit prints for a listing; none where there is no Python.
fn audit(listing: &[u8]) -> Option<Output> {
    static PYTHON: OnceLock<bool> = OnceLock::new();
    if !PYTHON.get_or_init(|| Command::new("python3").arg("--version").output().is_ok()) {
        println!("left out: python3 is missing");
        return None;
    }
    let mut command = Command::new("python3");
    command.arg(repository().join("examples/audit.py"));
    let mut child = spawn(command.stdin(Stdio::piped()).stdout(Stdio::piped()).stderr(Stdio::piped()));
    // It may end before it has read all.
    let _ = child.stdin.take().expect("a pipe").write_all(listing);
    Some(child.wait_with_output().expect("the audit ends"))
}

/// That the audit of a file's listing is the file's quote.
fn holds(file: &[u8]) {
    let Some(audited) = audit(&on("listing", file).good()) else { return };
    assert_eq!(String::from_utf8_lossy(&audited.stderr), "");
    assert_eq!(String::from_utf8_lossy(&audited.stdout), on("quote", file).text(), "{file:02x?}");
}

#[test]
fn every_example() {
    let mut files = 0;
    for entry in fs::read_dir(repository().join("examples")).expect("the examples are there") {
        let file = fs::read(entry.expect("an example").path()).expect("an example is read");
        if on("quote", &file).text().starts_with("volume") {
            holds(&file);
            files += 1;
        }
    }
    assert!(files >= 8);
    holds(&[0]);
}

#[test]
fn generated_lists() {
    let mut random = Random::new(97);
    for number in 0..20 {
        let size = if number % 10 == 0 { Size { field: 1024, shots: 60 } } else { Size { field: 20, shots: 40 } };
        let mut list = accepted(&mut random, size);
        coarsen(&mut list, 10_000);
        holds(&shortest(&list));
    }
}

#[test]
fn listings_that_are_none() {
    let listing = on("listing", &[7, 8, 0, 2, 0, 2, 0, 0]).good();
    let swapped = [&listing[7..14], &listing[..7]].concat();
    for wrong in [&listing[..13], &[&listing[..7], &listing[..7]].concat(), &swapped] {
        let Some(audited) = audit(wrong) else { return };
        assert_eq!(audited.stdout, []);
        assert!(!audited.status.success() && !audited.stderr.is_empty());
    }
}
