//! A second implementation of cube-shot quotes, to hold the proved one to.
//!
//! It is written from the request's words and shares no code with the proved crates. It prefers the plain way: cells
//! are painted into a bit set, every lattice point is looked at, the grid index is filled shot by shot.
//!
//! - [`list`]: a list of shots and the refusals that depend on it alone
//! - [`cells`]: the covered cells as a bit set
//! - [`totals`]: volume, area, edge length and inner length counted over cells
//! - [`corners`]: patterns, the ten weights, the listing, the corner sums
//! - [`section`]: the corners at one x
//! - [`grid`]: the grid index and the cover test
//! - [`credits`]: cells credited to the shots that are the first to cover them
//! - [`price`]: price bands, their check and the charges
//! - [`shotfile`]: the reader and the writer
//! - [`vox`]: the reader of VOX files
//! - [`calls`]: measure, list, corners_at, index, credit, price, covers, read, read_vox and write with lent buffers, as
//!   a caller sees them
//! - [`quote`]: the programs that print a quote or the credits
//! - [`literal`]: the definitions once more, cell by cell and point by point, for small fields
//! - [`inputs`]: random and damaged inputs, from a seed
//! - [`price_inputs`]: price tables, valid and broken, from a seed
//! - [`section_inputs`]: listings, whole and damaged, from a seed
//! - [`vox_inputs`]: VOX files, whole and damaged, from a seed
//! - [`met`]: which answers some inputs meet

pub mod calls;
pub mod cells;
pub mod corners;
pub mod credits;
pub mod grid;
pub mod inputs;
pub mod list;
pub mod literal;
pub mod met;
pub mod price;
pub mod price_inputs;
pub mod quote;
pub mod section;
pub mod section_inputs;
pub mod shotfile;
pub mod totals;
pub mod vox;
pub mod vox_inputs;
