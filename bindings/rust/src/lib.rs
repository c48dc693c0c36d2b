//! Cube-shot quotes: volume, area, edge length, inner length and corner points of a union of equal axis-aligned cubes
//! ("shots") on a whole-number lattice, what a shop charges for them, its corners at one x, how many cells each shot
//! cures, the shot files that hold such lists, and the VOX files of a voxel editor.
//!
//! The work is done by the proved library `libcapi.a`; this crate turns its calls into safe functions. [`measure`],
//! [`price`], [`list`], [`corners_at`], [`recount`], [`index`], [`credit`], [`first_covering`], [`read`],
//! [`read_vox`] and [`write`] use buffers that the caller lends and allocate nothing; [`quote`], [`charges`],
//! [`corners`], [`credits`], [`from_file`], [`from_vox`] and [`to_file`] allocate what they need.
//!
//! **Stack.** Measuring, pricing, listing and crediting nest, and take less than 577 KiB of the calling thread's stack;
//! every other call takes less than 82 KiB. `include/heqdanu.h` says how much by the list. The standard library's
//! threads have 2 MiB; in a thread that was made with less than a call takes, the process aborts, though the call is
//! safe.
//!
//! ```
//! use heqdanu::{quote, List, Totals};
//!
//! let list = List { field: 8, edge: 2, grid: 2, coords: &[0, 0, 0, 1, 1, 1] };
//! assert_eq!(quote(&list), Ok(Totals { volume: 15, area: 42, edge: 42, inner: 6, corners: 20 }));
//! ```

#![warn(missing_docs)]

mod prices;
pub mod raw;
mod refusal;

pub use prices::{charges, price, Band, Charges, Tables, HIGHEST_RATE, MOST_BANDS, TOP_AMOUNT};
pub use refusal::{Reason, Refusal};

/// The most numbers that the coordinates of a list may have: 4,096 shots.
pub const MOST_COORDS: usize = 12_288;
/// The bytes of the longest file that [`write`] makes.
pub const LONGEST_FILE: usize = 28_679;
/// The bytes of a listing's record.
pub const RECORD: usize = 7;

/// A list: field side, shot edge, grid size, and the shots' lower corners x, y, z one after another. Any numbers may
/// stand here; the calls say what is wrong with them.
#[derive(Clone, Copy, Debug, PartialEq, Eq)]
pub struct List<'a> {
    /// The field side, 1 to 1,024.
    pub field: u16,
    /// The shot edge, 1 to the field side.
    pub edge: u16,
    /// The grid size, 1 to 64, which divides the field side.
    pub grid: u16,
    /// Three coordinates a shot.
    pub coords: &'a [u16],
}

/// What a list measures.
#[derive(Clone, Copy, Debug, PartialEq, Eq)]
pub struct Totals {
    /// Covered unit cells.
    pub volume: u64,
    /// Unit squares with one of their two cells covered.
    pub area: u64,
    /// Outer unit edges, by the four cells about them: 1 where one is covered, 2 where two are that share only the edge.
    pub edge: u64,
    /// Unit edges with three of the four cells about them covered, which no tool that rounds edges gets into.
    pub inner: u64,
    /// Lattice points that carry a weight.
    pub corners: u64,
}

/// What a shot file's header says, and how many shots follow it; or the same of a VOX file.
#[derive(Clone, Copy, Debug, PartialEq, Eq)]
pub struct Header {
    /// The field side.
    pub field: u16,
    /// The shot edge.
    pub edge: u16,
    /// The grid size.
    pub grid: u16,
    /// The number of shots.
    pub shots: usize,
}

/// A corner point: its place and the pattern of the eight cells about it (bit 4a+2b+c for the cell above, 1, or below,
/// 0, the point on x, y and z).
#[derive(Clone, Copy, Debug, PartialEq, Eq, PartialOrd, Ord)]
pub struct Corner {
    /// The place on x.
    pub x: u16,
    /// The place on y.
    pub y: u16,
    /// The place on z.
    pub z: u16,
    /// The covered cells about the point.
    pub pattern: u8,
}

/// Measures a list. Success leaves the grid index in the first entries of `work`; nothing else changes.
pub fn measure(list: &List, work: &mut [u32]) -> Result<Totals, Refusal> {
    measure_by(raw::heqdanu_measure, list, work)
}

/// Measures a list and stores its corner points, [`RECORD`] bytes each, in the first bytes of `listing`. Success and
/// [`Reason::ShortListing`] leave the grid index in the first entries of `work`; nothing else changes.
pub fn list(list: &List, work: &mut [u32], listing: &mut [u8]) -> Result<Totals, Refusal> {
    let (written, answer) = answer_filling(raw::heqdanu_list, list, work, listing);
    totals(written, answer)
}

/// The corners at one x: the part of a listing's bytes that holds the records with that x, for [`records`] to step
/// through; empty where there is none. Any bytes are a listing: a remainder shorter than a record is not looked at, and
/// where x falls somewhere, as in a listing that is damaged, the part is the first unbroken run of records with that x.
/// In a listing that [`list`] stored that run is all of them. Refuses nothing and changes nothing.
///
/// ```
/// use heqdanu::{corners_at, list, records, Corner, List, RECORD};
///
/// let one = List { field: 8, edge: 2, grid: 2, coords: &[1, 1, 1] };
/// let mut listing = [0; 8 * RECORD];
/// list(&one, &mut [0; 10], &mut listing)?;
/// let mut corners = records(corners_at(&listing, 3));
/// assert_eq!(corners.next(), Some(Corner { x: 3, y: 1, z: 1, pattern: 8 }));
/// assert_eq!(corners.count(), 3);
/// assert!(corners_at(&listing, 2).is_empty());
/// # Ok::<(), heqdanu::Refusal>(())
/// ```
pub fn corners_at(listing: &[u8], x: u16) -> &[u8] {
    let mut answer = [0; 4];
    // SAFETY: each pointer comes from a slice with the length beside it, and the two do not overlap.
    let written =
        unsafe { raw::heqdanu_corners_at(listing.as_ptr(), listing.len(), x, answer.as_mut_ptr(), answer.len()) };
    assert_eq!(written, 1, "the library found the answer slice too short");
    let [_, _, first, end] = answer;
    &listing[first as usize..end as usize]
}

/// Measures a list once more, cell by cell: the slow second opinion for a disputed quote, some seconds in the largest
/// field. The same promises as [`measure`].
pub fn recount(list: &List, work: &mut [u32]) -> Result<Totals, Refusal> {
    measure_by(raw::heqdanu_recount, list, work)
}

/// Leaves the grid index of a list in the first entries of `work` and measures nothing; nothing else changes. The same
/// refusals as [`measure`].
pub fn index(list: &List, work: &mut [u32]) -> Result<(), Refusal> {
    let (written, answer) = answer_of(raw::heqdanu_index, list, work);
    accepted::<2>(written, answer).map(|_| ())
}

/// Credits each unit cell that a list covers to its lowest covering shot, and stores in the first places of `credits`
/// how many cells each shot is credited with. They sum to the volume; a shot of credit 0, as the repeat of an earlier
/// one has, can be left out and the list covers the same cells. Success and [`Reason::ShortCredits`] leave the grid
/// index in the first entries of `work`; nothing else changes.
pub fn credit(list: &List, work: &mut [u32], credits: &mut [u32]) -> Result<(), Refusal> {
    let (written, answer) = answer_filling(raw::heqdanu_credit, list, work, credits);
    accepted::<2>(written, answer).map(|_| ())
}

/// The cover test: the first shot of a run that covers the unit cell (i, j, k) of a list, whose field side and grid size
/// are not looked at. A run is numbers of shots, as a run of the grid index, which rises, so that its first covering
/// shot is the lowest; or any others: a number past the list's shots covers nothing. Refuses nothing and changes
/// nothing.
///
/// ```
/// use heqdanu::{first_covering, List};
///
/// let list = List { field: 8, edge: 2, grid: 2, coords: &[0, 0, 0, 1, 1, 1] };
/// assert_eq!(first_covering(&list, &[0, 1], [1, 1, 1]), Some(0));
/// assert_eq!(first_covering(&list, &[1, 0], [1, 1, 1]), Some(1));
/// assert_eq!(first_covering(&list, &[0], [2, 2, 2]), None);
/// ```
pub fn first_covering(list: &List, run: &[u32], [i, j, k]: [u16; 3]) -> Option<u32> {
    let List { edge, coords, .. } = *list;
    let mut answer = [0; 2];
    // SAFETY: each pointer comes from a slice with the length beside it, and no two of them overlap.
    let written = unsafe {
        raw::heqdanu_covers(
            edge,
            coords.as_ptr(),
            coords.len(),
            run.as_ptr(),
            run.len(),
            i,
            j,
            k,
            answer.as_mut_ptr(),
            answer.len(),
        )
    };
    assert_eq!(written, 1, "the library found the answer slice too short");
    let [covered, shot] = answer;
    (covered == 1).then_some(shot as u32)
}

/// Measures a list by one of the calls that do.
fn measure_by(call: raw::Indexing, list: &List, work: &mut [u32]) -> Result<Totals, Refusal> {
    let (written, answer) = answer_of(call, list, work);
    totals(written, answer)
}

/// What a call on a list and a work slice answers in so many places.
fn answer_of<const N: usize>(call: raw::Indexing, list: &List, work: &mut [u32]) -> (u8, [u64; N]) {
    let mut answer = [0; N];
    // SAFETY: each pointer comes from a slice with the length beside it, and no two of them overlap.
    let written = unsafe {
        call(
            list.field,
            list.edge,
            list.grid,
            list.coords.as_ptr(),
            list.coords.len(),
            work.as_mut_ptr(),
            work.len(),
            answer.as_mut_ptr(),
            answer.len(),
        )
    };
    (written, answer)
}

/// What a call on a list, a work slice and a slice of its own answers in so many places.
fn answer_filling<T, const N: usize>(
    call: raw::Filling<T>,
    list: &List,
    work: &mut [u32],
    filled: &mut [T],
) -> (u8, [u64; N]) {
    let mut answer = [0; N];
    // SAFETY: each pointer comes from a slice with the length beside it, and no two of them overlap.
    let written = unsafe {
        call(
            list.field,
            list.edge,
            list.grid,
            list.coords.as_ptr(),
            list.coords.len(),
            work.as_mut_ptr(),
            work.len(),
            filled.as_mut_ptr(),
            filled.len(),
            answer.as_mut_ptr(),
            answer.len(),
        )
    };
    (written, answer)
}

/// Reads a shot file. Success stores the shots in the first places of `coords`; nothing else changes. What the file's
/// header leaves out is field 1,024, edge 16, grid 16; what a shot leaves out is that of the shot before, or 0 in the
/// first. Ranges are not tested here.
///
/// A field that says what its absence would mean is refused ([`Reason::NeedlessField`]). So two files with the same
/// header and shots are the same bytes, and [`write`] makes them again where it accepts the list.
///
/// ```
/// use heqdanu::{from_file, to_file, List, Reason};
///
/// let (header, coords) = from_file(&[3, 32, 0, 2, 0, 7, 1, 0, 2, 0, 3, 0, 4, 5, 0])?;
/// assert_eq!((header.grid, &coords[..]), (16, &[1, 2, 3, 1, 2, 5][..]));
/// let list = List { field: 32, edge: 2, grid: 16, coords: &coords };
/// assert_eq!(to_file(&list)?, [3, 32, 0, 2, 0, 7, 1, 0, 2, 0, 3, 0, 4, 5, 0]);
/// let named = from_file(&[7, 32, 0, 2, 0, 16, 0]).unwrap_err();
/// assert_eq!((named.reason, named.detail), (Reason::NeedlessField, 0));
/// # Ok::<(), heqdanu::Refusal>(())
/// ```
pub fn read(bytes: &[u8], coords: &mut [u16]) -> Result<Header, Refusal> {
    read_by(raw::heqdanu_read, bytes, coords)
}

/// Reads a VOX file, the format of the voxel editor MagicaVoxel: version 150, and of it the first model, which is not
/// placed by the scene. Success stores each voxel as a shot, in file order, in the first places of `coords`; nothing
/// else changes. The header has the largest side as field, edge 1 and grid 1; every such list is accepted, and its
/// index needs two work entries more than there are shots.
pub fn read_vox(bytes: &[u8], coords: &mut [u16]) -> Result<Header, Refusal> {
    read_by(raw::heqdanu_read_vox, bytes, coords)
}

/// Reads a file by one of the calls that do.
fn read_by(call: raw::Reading, bytes: &[u8], coords: &mut [u16]) -> Result<Header, Refusal> {
    let mut answer = [0; 6];
    // SAFETY: each pointer comes from a slice with the length beside it, and no two of them overlap.
    let written = unsafe {
        call(bytes.as_ptr(), bytes.len(), coords.as_mut_ptr(), coords.len(), answer.as_mut_ptr(), answer.len())
    };
    let [_, _, field, edge, grid, shots] = accepted(written, answer)?;
    Ok(Header { field: field as u16, edge: edge as u16, grid: grid as u16, shots: shots as usize })
}

/// Writes the shortest shot file of a list, the only one of it that [`read`] takes, into the first places of `bytes`
/// and gives its length. A refusal changes nothing.
pub fn write(list: &List, bytes: &mut [u8]) -> Result<usize, Refusal> {
    let mut answer = [0; 3];
    // SAFETY: each pointer comes from a slice with the length beside it, and no two of them overlap.
    let written = unsafe {
        raw::heqdanu_write(
            list.field,
            list.edge,
            list.grid,
            list.coords.as_ptr(),
            list.coords.len(),
            bytes.as_mut_ptr(),
            bytes.len(),
            answer.as_mut_ptr(),
            answer.len(),
        )
    };
    let [_, _, length] = accepted(written, answer)?;
    Ok(length as usize)
}

/// The work entries that a list needs.
pub fn work_needed(list: &List) -> Result<usize, Refusal> {
    match measure(list, &mut []) {
        Err(Refusal { reason: Reason::ShortWork, detail }) => Ok(detail as usize),
        Err(refusal) => Err(refusal),
        Ok(_) => unreachable!("an index has at least two entries"),
    }
}

/// Measures a list with a work slice of its own.
pub fn quote(list: &List) -> Result<Totals, Refusal> {
    measure(list, &mut vec![0; work_needed(list)?])
}

/// The corner points of a list, rising by x, then y, then z.
pub fn corners(list: &List) -> Result<Vec<Corner>, Refusal> {
    let mut work = vec![0; work_needed(list)?];
    let mut listing = vec![0; RECORD * measure(list, &mut work)?.corners as usize];
    self::list(list, &mut work, &mut listing)?;
    Ok(records(&listing).collect())
}

/// How many cells each shot of a list is credited with, as [`credit`] stores them.
///
/// ```
/// use heqdanu::{credits, List};
///
/// let list = List { field: 8, edge: 2, grid: 2, coords: &[0, 0, 0, 1, 1, 1] };
/// assert_eq!(credits(&list), Ok(vec![8, 7]));
/// ```
pub fn credits(list: &List) -> Result<Vec<u32>, Refusal> {
    let mut work = vec![0; work_needed(list)?];
    let mut credits = vec![0; list.coords.len() / 3];
    credit(list, &mut work, &mut credits)?;
    Ok(credits)
}

/// The records of a listing; a remainder shorter than a record is left out.
pub fn records(listing: &[u8]) -> impl Iterator<Item = Corner> + '_ {
    listing.chunks_exact(RECORD).map(|record| {
        let number = |place: usize| u16::from_le_bytes([record[place], record[place + 1]]);
        Corner { x: number(0), y: number(2), z: number(4), pattern: record[6] }
    })
}

/// What a shot file holds: its header and its shots' coordinates.
pub fn from_file(bytes: &[u8]) -> Result<(Header, Vec<u16>), Refusal> {
    held(read, bytes)
}

/// What a VOX file holds: its header and its voxels' coordinates.
pub fn from_vox(bytes: &[u8]) -> Result<(Header, Vec<u16>), Refusal> {
    held(read_vox, bytes)
}

/// What a file holds, by its reader.
fn held(
    reader: impl Fn(&[u8], &mut [u16]) -> Result<Header, Refusal>,
    bytes: &[u8],
) -> Result<(Header, Vec<u16>), Refusal> {
    let mut coords = vec![0; MOST_COORDS];
    let header = reader(bytes, &mut coords)?;
    coords.truncate(3 * header.shots);
    Ok((header, coords))
}

/// The shortest shot file of a list.
pub fn to_file(list: &List) -> Result<Vec<u8>, Refusal> {
    let mut bytes = vec![0; LONGEST_FILE];
    let length = write(list, &mut bytes)?;
    bytes.truncate(length);
    Ok(bytes)
}

/// The answer of a call that accepted; its numbers follow the first two places.
fn accepted<const N: usize>(written: u8, answer: [u64; N]) -> Result<[u64; N], Refusal> {
    assert_eq!(written, 1, "the library found the answer slice too short");
    match Refusal::of(answer[0], answer[1]) {
        Some(refusal) => Err(refusal),
        None => Ok(answer),
    }
}

fn totals(written: u8, answer: [u64; 7]) -> Result<Totals, Refusal> {
    let [_, _, volume, area, edge, inner, corners] = accepted(written, answer)?;
    Ok(Totals { volume, area, edge, inner, corners })
}
