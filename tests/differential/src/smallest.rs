//! Making a failing case smaller: of the cases next to it that are smaller, go to the first that still fails.

use std::time::{Duration, Instant};

/// How long to go on making a case smaller.
const PATIENCE: Duration = Duration::from_secs(60);

/// An input with the lengths of its buffers.
pub trait Case: Clone {
    /// Runs the library and the oracle; says where they differ.
    fn run(&self) -> Result<(), String>;

    /// The case in words, with its shot file, VOX file or listing.
    fn describe(&self) -> String;

    /// Cases next to this one that are smaller, the smallest first.
    fn smaller(&self) -> Vec<Self>;
}

/// The smallest failing case that was found, with its difference.
pub fn find<C: Case>(mut case: C, mut difference: String) -> (C, String) {
    let start = Instant::now();
    'smaller: loop {
        for next in case.smaller() {
            if start.elapsed() > PATIENCE {
                break 'smaller;
            }
            if let Err(found) = next.run() {
                (case, difference) = (next, found);
                continue 'smaller;
            }
        }
        break;
    }
    (case, difference)
}
