//! The calls as the archive has them. `include/heqdanu.h` says what each does with its buffers.

use crate::Band;

/// The calls that take a list and leave its index in a work slice: `heqdanu_measure`, `heqdanu_recount` and
/// `heqdanu_index`.
pub type Indexing = unsafe extern "C" fn(u16, u16, u16, *const u16, usize, *mut u32, usize, *mut u64, usize) -> u8;

/// The calls that take a list and fill a slice of their own beside the work slice: `heqdanu_list`, of bytes, and
/// `heqdanu_credit`, of 32-bit numbers.
pub type Filling<T> =
    unsafe extern "C" fn(u16, u16, u16, *const u16, usize, *mut u32, usize, *mut T, usize, *mut u64, usize) -> u8;

/// The calls that read a file into a coordinate slice: `heqdanu_read` and `heqdanu_read_vox`.
pub type Reading = unsafe extern "C" fn(*const u8, usize, *mut u16, usize, *mut u64, usize) -> u8;

#[allow(missing_docs)]
extern "C" {
    pub fn heqdanu_measure(
        field: u16,
        edge: u16,
        grid: u16,
        coords: *const u16,
        ncoords: usize,
        work: *mut u32,
        nwork: usize,
        answer: *mut u64,
        nanswer: usize,
    ) -> u8;

    pub fn heqdanu_price(
        field: u16,
        edge: u16,
        grid: u16,
        coords: *const u16,
        ncoords: usize,
        work: *mut u32,
        nwork: usize,
        volume: *const Band,
        nvolume: usize,
        area: *const Band,
        narea: usize,
        edges: *const Band,
        nedges: usize,
        answer: *mut u64,
        nanswer: usize,
    ) -> u8;

    pub fn heqdanu_list(
        field: u16,
        edge: u16,
        grid: u16,
        coords: *const u16,
        ncoords: usize,
        work: *mut u32,
        nwork: usize,
        listing: *mut u8,
        nlisting: usize,
        answer: *mut u64,
        nanswer: usize,
    ) -> u8;

    pub fn heqdanu_corners_at(listing: *const u8, nlisting: usize, x: u16, answer: *mut u64, nanswer: usize) -> u8;

    pub fn heqdanu_recount(
        field: u16,
        edge: u16,
        grid: u16,
        coords: *const u16,
        ncoords: usize,
        work: *mut u32,
        nwork: usize,
        answer: *mut u64,
        nanswer: usize,
    ) -> u8;

    pub fn heqdanu_index(
        field: u16,
        edge: u16,
        grid: u16,
        coords: *const u16,
        ncoords: usize,
        work: *mut u32,
        nwork: usize,
        answer: *mut u64,
        nanswer: usize,
    ) -> u8;

    pub fn heqdanu_credit(
        field: u16,
        edge: u16,
        grid: u16,
        coords: *const u16,
        ncoords: usize,
        work: *mut u32,
        nwork: usize,
        credits: *mut u32,
        ncredits: usize,
        answer: *mut u64,
        nanswer: usize,
    ) -> u8;

    pub fn heqdanu_covers(
        edge: u16,
        coords: *const u16,
        ncoords: usize,
        run: *const u32,
        nrun: usize,
        i: u16,
        j: u16,
        k: u16,
        answer: *mut u64,
        nanswer: usize,
    ) -> u8;

    pub fn heqdanu_read(
        bytes: *const u8,
        nbytes: usize,
        coords: *mut u16,
        ncoords: usize,
        answer: *mut u64,
        nanswer: usize,
    ) -> u8;

    pub fn heqdanu_read_vox(
        bytes: *const u8,
        nbytes: usize,
        coords: *mut u16,
        ncoords: usize,
        answer: *mut u64,
        nanswer: usize,
    ) -> u8;

    pub fn heqdanu_write(
        field: u16,
        edge: u16,
        grid: u16,
        coords: *const u16,
        ncoords: usize,
        bytes: *mut u8,
        nbytes: usize,
        answer: *mut u64,
        nanswer: usize,
    ) -> u8;
}
