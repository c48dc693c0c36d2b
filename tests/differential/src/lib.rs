//! The proved library held to the oracle.
//!
//! A case is an input and the lengths of the lent buffers. Each buffer is filled with junk and lies between junk on both
//! sides; the oracle gets copies. Afterwards the answers and every place of every buffer, the junk about it included,
//! must agree. A case that fails is made smaller as long as it still fails, and printed as a shot file, with its price
//! tables if it has any, a VOX file or a listing.
//!
//! - [`lent`]: buffers filled with junk
//! - [`lists`]: cases for measure, recount, index, list, credit and write
//! - [`prices`]: cases for price
//! - [`sections`]: cases for the corners at one x
//! - [`runs`]: cases for the cover test
//! - [`files`]: cases for read and read_vox
//! - [`smallest`]: making a failing case smaller

pub mod files;
pub mod lent;
pub mod lists;
pub mod prices;
pub mod runs;
pub mod sections;
pub mod smallest;

use smallest::Case;

/// Runs one case; a failure is made smaller, printed, and ends the test.
pub fn hold<C: Case>(case: C) {
    if let Err(difference) = case.run() {
        let (case, difference) = smallest::find(case, difference);
        panic!("{difference}\n{}", case.describe());
    }
}

/// Bytes in hexadecimal, as the request writes them.
pub fn hex(bytes: &[u8]) -> String {
    bytes.iter().map(|byte| format!("{byte:02x}")).collect::<Vec<_>>().join(" ")
}

/// Says where an answer differs.
pub fn same_answer(call: &str, given: &[u64], expected: &[u64]) -> Result<(), String> {
    if given == expected {
        return Ok(());
    }
    Err(format!("{call}: the library answers {given:?}, the oracle {expected:?}"))
}
