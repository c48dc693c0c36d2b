//! The wrapper on the request's examples: totals, charges, corners, those at one x, credits, files, and each refusal
//! that a caller can meet.

use heqdanu::{
    charges, corners, corners_at, credit, credits, first_covering, from_file, from_vox, index, list, measure, price,
    quote, read, read_vox, records, recount, to_file, work_needed, write, Band, Charges, Corner, Header, List, Reason,
    Refusal, Tables, Totals, HIGHEST_RATE, MOST_BANDS, RECORD, TOP_AMOUNT,
};

const TWO: List = List { field: 8, edge: 2, grid: 2, coords: &[0, 0, 0, 1, 1, 1] };
const TWO_TOTALS: Totals = Totals { volume: 15, area: 42, edge: 42, inner: 6, corners: 20 };
const TWO_FILE: [u8; 15] = [7, 8, 0, 2, 0, 2, 0, 0, 7, 1, 0, 1, 0, 1, 0];

/// A VOX file of two voxels, sides 2, 1, 3, and a chunk that is skipped with its child.
const VOX: [u8; 94] = *b"VOX \x96\0\0\0\
    MAIN\0\0\0\0\x4a\0\0\0\
    SIZE\x0c\0\0\0\0\0\0\0\x02\0\0\0\x01\0\0\0\x03\0\0\0\
    XYZI\x0c\0\0\0\0\0\0\0\x02\0\0\0\x01\0\x02\x01\0\0\0\xff\
    nTRN\x02\0\0\0\x0c\0\0\0abnote\0\0\0\0\0\0\0\0";

fn refused<T>(reason: Reason, detail: u64) -> Result<T, Refusal> {
    Err(Refusal { reason, detail })
}

#[test]
fn totals_and_corners() {
    assert_eq!(quote(&TWO), Ok(TWO_TOTALS));
    assert_eq!(recount(&TWO, &mut [0; 11]), Ok(TWO_TOTALS));
    let mut listing = [9; 141];
    assert_eq!(list(&TWO, &mut [0; 11], &mut listing), Ok(TWO_TOTALS));
    assert_eq!(listing[140], 9);
    let corners = corners(&TWO).unwrap();
    assert_eq!(corners.len(), 20);
    assert_eq!(corners[0], Corner { x: 0, y: 0, z: 0, pattern: 128 });
    assert_eq!(corners[19], Corner { x: 3, y: 3, z: 3, pattern: 1 });
    assert!(corners.windows(2).all(|pair| (pair[0].x, pair[0].y, pair[0].z) < (pair[1].x, pair[1].y, pair[1].z)));
}

#[test]
fn the_corners_at_one_x() {
    let mut listing = [0; 20 * RECORD];
    list(&TWO, &mut [0; 11], &mut listing).unwrap();
    let all = corners(&TWO).unwrap();
    for x in 0..=9 {
        let part: Vec<Corner> = records(corners_at(&listing, x)).collect();
        assert_eq!(part, all.iter().filter(|corner| corner.x == x).copied().collect::<Vec<_>>(), "at {x}");
    }
    let parts: Vec<u8> = (0..=8).flat_map(|x| corners_at(&listing, x).to_vec()).collect();
    assert_eq!(parts, listing);
    assert_eq!([0, 1, 2, 3, 4].map(|x| corners_at(&listing, x).len() / RECORD), [4, 6, 6, 4, 0]);
    // The part is lent bytes, and no copy of them.
    assert!(listing.as_ptr_range().contains(&corners_at(&listing, 1).as_ptr()));
}

/// Records with these x, in order, and so many bytes after the last.
fn damaged(xs: &[u16], remainder: usize) -> Vec<u8> {
    let mut listing: Vec<u8> =
        xs.iter().zip(1..).flat_map(|(x, n)| [*x as u8, (x >> 8) as u8, n, n, n, n, n]).collect();
    listing.extend(vec![0; remainder]);
    listing
}

#[test]
fn the_first_unbroken_run_of_a_damaged_listing() {
    let listing = damaged(&[5, 5, 2, 2, 5], 0);
    assert_eq!(corners_at(&listing, 2), &listing[14..28]);
    assert_eq!(corners_at(&listing, 5), &listing[..14]);
    assert!([0, 1, 3, 6, 517, 65_535].iter().all(|x| corners_at(&listing, *x).is_empty()));
    let far = damaged(&[65_535, 1_025, 1, 257, 65_535], 0);
    assert_eq!(
        [1, 257, 1_025, 65_535].map(|x| corners_at(&far, x)),
        [&far[14..21], &far[21..28], &far[7..14], &far[..7]]
    );
    // One to six bytes behind the last record are not looked at, though they begin as a record does.
    for remainder in 1..RECORD {
        assert!(corners_at(&vec![0; remainder], 0).is_empty());
        let cut = damaged(&[3, 0], remainder);
        assert_eq!(corners_at(&cut, 0), &cut[7..14]);
        assert!(corners_at(&damaged(&[3], remainder), 0).is_empty());
    }
    assert!(corners_at(&[], 0).is_empty());
}

#[test]
fn the_empty_list_measures_zero() {
    let none = List { coords: &[], ..TWO };
    assert_eq!(quote(&none), Ok(Totals { volume: 0, area: 0, edge: 0, inner: 0, corners: 0 }));
    assert_eq!(corners(&none), Ok(vec![]));
    assert_eq!(credits(&none), Ok(vec![]));
    assert_eq!(to_file(&none).unwrap(), [7, 8, 0, 2, 0, 2, 0]);
}

#[test]
fn files() {
    assert_eq!(to_file(&TWO).unwrap(), TWO_FILE);
    let header = Header { field: 8, edge: 2, grid: 2, shots: 2 };
    assert_eq!(from_file(&TWO_FILE), Ok((header, vec![0, 0, 0, 1, 1, 1])));
    let mut coords = [9; 8];
    assert_eq!(read(&TWO_FILE, &mut coords), Ok(header));
    assert_eq!(coords, [0, 0, 0, 1, 1, 1, 9, 9]);
}

#[test]
fn settings_that_a_file_leaves_out() {
    assert_eq!(from_file(&[0]), Ok((Header { field: 1024, edge: 16, grid: 16, shots: 0 }, vec![])));
    assert_eq!(from_file(&[4, 8, 0]), Ok((Header { field: 1024, edge: 16, grid: 8, shots: 0 }, vec![])));
    assert_eq!(to_file(&List { field: 1024, edge: 16, grid: 16, coords: &[] }).unwrap(), [0]);
    assert_eq!(to_file(&List { field: 1024, edge: 16, grid: 8, coords: &[] }).unwrap(), [4, 8, 0]);
}

#[test]
fn fields_that_say_what_their_absence_would_mean() {
    for (file, map) in [
        (&[1, 0, 4][..], 0),
        (&[2, 16, 0], 0),
        (&[4, 16, 0], 0),
        (&[0, 1, 0, 0], 1),
        (&[0, 7, 5, 0, 0, 0, 7, 0], 1),
        (&[0, 7, 5, 0, 6, 0, 7, 0, 1, 5, 0], 8),
        (&[0, 7, 5, 0, 6, 0, 7, 0, 0, 6, 9, 0, 7, 0], 9),
    ] {
        let mut coords = [9; 12];
        assert_eq!(read(file, &mut coords), refused(Reason::NeedlessField, map), "{file:?}");
        assert_eq!(coords, [9; 12]);
    }
    // On the same record 2, 3, 4 and 5 come first, and a fault of the next comes later.
    assert_eq!(from_file(&[&[0; 4097][..], &[1, 0, 0]].concat()), refused(Reason::TooManyShots, 4097));
    assert_eq!(from_file(&[&[0; 4096][..], &[1, 0, 0]].concat()), refused(Reason::NeedlessField, 4096));
    assert_eq!(read(&[0, 1, 0, 0], &mut [0; 2]), refused(Reason::NoPlace, 1));
    assert_eq!(from_file(&[9, 0, 4]), refused(Reason::UnknownBit, 0));
    assert_eq!(from_file(&[3, 0, 4, 16]), refused(Reason::CutShort, 0));
    assert_eq!(from_file(&[4, 16, 0, 255]), refused(Reason::NeedlessField, 0));
    // A 0 behind another number, and what the shot before the one before says, are numbers like others; and what is
    // read is written back to the same bytes.
    for file in [&TWO_FILE[..], &[0, 0, 0], &[4, 8, 0, 3, 5, 0, 1, 0, 2, 0, 0], &[0, 1, 5, 0, 1, 0, 0, 1, 5, 0]] {
        let (header, coords) = from_file(file).unwrap();
        let list = List { field: header.field, edge: header.edge, grid: header.grid, coords: &coords };
        assert_eq!(to_file(&list).unwrap(), file);
    }
}

#[test]
fn the_index_stays_in_the_work_slice() {
    let one = List { coords: &[1, 1, 1], ..TWO };
    let mut work = [5; 11];
    assert_eq!(measure(&one, &mut work).unwrap().volume, 8);
    assert_eq!(work, [0, 1, 1, 1, 1, 1, 1, 1, 1, 0, 5]);
    let mut work = [5; 11];
    assert_eq!(index(&one, &mut work), Ok(()));
    assert_eq!(work, [0, 1, 1, 1, 1, 1, 1, 1, 1, 0, 5]);
    let (mut work, mut listing) = ([5; 11], [9; 55]);
    assert_eq!(list(&one, &mut work, &mut listing), refused(Reason::ShortListing, 8));
    assert_eq!((work, listing), ([0, 1, 1, 1, 1, 1, 1, 1, 1, 0, 5], [9; 55]));
}

#[test]
fn the_cover_test() {
    let mut work = [5; 11];
    index(&TWO, &mut work).unwrap();
    let run = &work[9..11];
    assert_eq!(run, [0, 1]);
    let first = |cell| first_covering(&TWO, run, cell);
    let cells = |shot| (0..64).map(|n| [n / 16, n / 4 % 4, n % 4]).filter(|cell| first(*cell) == shot).count();
    assert_eq!([cells(Some(0)), cells(Some(1)), cells(None)], [8, 7, 49]);
    assert_eq!([first([0, 0, 0]), first([1, 1, 1]), first([2, 2, 2])], [Some(0), Some(0), Some(1)]);
    assert_eq!([first([0, 0, 2]), first([3, 3, 3])], [None, None]);
    // Any numbers are a run: in any order, repeats, none at all, and numbers past the list, which cover nothing.
    assert_eq!(first_covering(&TWO, &[1, 0], [1, 1, 1]), Some(1));
    assert_eq!(first_covering(&TWO, &[7, u32::MAX, 1, 1], [2, 2, 2]), Some(1));
    assert_eq!(first_covering(&TWO, &[2, 3, u32::MAX], [0, 0, 0]), None);
    assert_eq!(first_covering(&TWO, &[], [0, 0, 0]), None);
    // Nothing wraps in 16 bits; an edge of 0 and a cut shot cover nothing.
    let far = List { edge: 16, coords: &[65_520; 3], ..TWO };
    assert_eq!([first_covering(&far, &[0], [65_535; 3]), first_covering(&far, &[0], [0; 3])], [Some(0), None]);
    assert_eq!(first_covering(&List { edge: 0, ..TWO }, &[0, 1], [0; 3]), None);
    assert_eq!(first_covering(&List { coords: &[0, 0], ..TWO }, &[0], [0; 3]), None);
}

#[test]
fn cells_credited_to_shots() {
    assert_eq!(credits(&TWO), Ok(vec![8, 7]));
    assert_eq!(credits(&List { coords: &[1, 1, 1, 0, 0, 0], ..TWO }), Ok(vec![8, 7]));
    assert_eq!(credits(&List { coords: &[1, 1, 1, 1, 1, 1], ..TWO }), Ok(vec![8, 0]));
    // The third shot lies in the first two; without it the list measures the same.
    let three = List { coords: &[0, 0, 0, 2, 0, 0, 1, 0, 0], ..TWO };
    assert_eq!(credits(&three), Ok(vec![8, 8, 0]));
    assert_eq!(quote(&three), quote(&List { coords: &three.coords[..6], ..three }));
    // Places past the shots keep their values; too few places leave the index.
    let (mut work, mut credits) = ([5; 12], [9; 4]);
    assert_eq!(credit(&TWO, &mut work, &mut credits), Ok(()));
    let indexed = [0, 2, 2, 2, 2, 2, 2, 2, 2, 0, 1, 5];
    assert_eq!((work, credits), (indexed, [8, 7, 9, 9]));
    let (mut work, mut credits) = ([5; 12], [9; 1]);
    assert_eq!(credit(&TWO, &mut work, &mut credits), refused(Reason::ShortCredits, 2));
    assert_eq!((work, credits), (indexed, [9]));
}

/// Bands with these last amounts and rates, from 0 on without gap or overlap.
fn bands(ends: &[(u64, u64)]) -> Vec<Band> {
    let firsts = std::iter::once(0).chain(ends.iter().map(|(last, _)| last + 1));
    firsts.zip(ends).map(|(first, &(last, cents))| Band { first, last, cents }).collect()
}

/// So many bands of one amount each, and one from there to the top.
fn many(bands_before: u64) -> Vec<Band> {
    let ends: Vec<(u64, u64)> = (0..bands_before).map(|last| (last, last)).chain([(TOP_AMOUNT, 7)]).collect();
    bands(&ends)
}

/// All amounts in one band, for nothing.
const FREE: [Band; 1] = [Band { first: 0, last: TOP_AMOUNT, cents: 0 }];

/// What `heqdanu.h` has: three numbers of 64 bits one after another.
#[test]
fn a_band_in_memory() {
    assert_eq!((size_of::<Band>(), align_of::<Band>()), (24, 8));
    let band = Band { first: 1, last: 2, cents: 3 };
    // SAFETY: the three numbers of a band are those of an array, as the size above has it.
    assert_eq!(unsafe { std::mem::transmute::<Band, [u64; 3]>(band) }, [1, 2, 3]);
    assert_eq!((MOST_BANDS, TOP_AMOUNT, HIGHEST_RATE), (64, 1 << 40, 10_000));
}

#[test]
fn charges_of_whole_amounts() {
    let tables = [bands(&[(14, 9), (15, 20), (TOP_AMOUNT, 1)]), bands(&[(41, 9), (TOP_AMOUNT, 10_000)]), many(43)];
    let tables = Tables { volume: &tables[0], area: &tables[1], edges: &tables[2] };
    // 15 is the last amount of its band and 42 the first of its; 42 has a band of its own in the third table.
    let expected = Charges { volume: 15 * 20, area: 42 * 10_000, edge: 42 * 42 };
    assert_eq!(charges(&TWO, &tables), Ok(expected));
    assert_eq!(charges(&List { grid: 4, coords: &[1, 1, 1, 0, 0, 0], ..TWO }, &tables), Ok(expected));
    let mut work = [5; 12];
    assert_eq!(price(&TWO, &mut work, &tables), Ok(expected));
    assert_eq!(work, [0, 2, 2, 2, 2, 2, 2, 2, 2, 0, 1, 5]);
    // An amount of 0 costs nothing, and charges of more than 32 bits fit.
    let none = List { coords: &[], ..TWO };
    assert_eq!(charges(&none, &tables), Ok(Charges { volume: 0, area: 0, edge: 0 }));
    let large = List { field: 256, edge: 256, grid: 1, coords: &[0, 0, 0] };
    let dear = bands(&[(TOP_AMOUNT, HIGHEST_RATE)]);
    let expected = Charges { volume: 167_772_160_000, area: 3_932_160_000, edge: 30_720_000 };
    assert_eq!(charges(&large, &Tables { volume: &dear, area: &dear, edges: &dear }), Ok(expected));
    // 64 bands are not too many, and the three tables may be one slice.
    let most = many(63);
    let expected = Charges { volume: 225, area: 1764, edge: 1764 };
    assert_eq!(charges(&TWO, &Tables { volume: &most, area: &most, edges: &most }), Ok(expected));
}

/// Tables that are refused, with the detail.
fn faulty() -> Vec<(Vec<Band>, u64)> {
    let with = |place: usize, band: Band| {
        let mut bands = bands(&[(9, 3), (19, 2), (TOP_AMOUNT, 1)]);
        bands[place] = band;
        bands
    };
    vec![
        (vec![], 0),
        (bands(&[(TOP_AMOUNT - 1, 1)]), 1),
        (bands(&[(9, 3), (19, 2)]), 2),
        (bands(&[(TOP_AMOUNT + 1, 1)]), 0),
        (vec![Band { first: 1, last: TOP_AMOUNT, cents: 1 }], 0),
        (with(0, Band { first: 0, last: 9, cents: 10_001 }), 0),
        (with(1, Band { first: 9, last: 19, cents: 2 }), 1),
        (with(1, Band { first: 11, last: 19, cents: 2 }), 1),
        (with(1, Band { first: 10, last: 9, cents: 2 }), 1),
        (with(1, Band { first: 10, last: 18, cents: 2 }), 2),
        (with(2, Band { first: 20, last: TOP_AMOUNT + 1, cents: 1 }), 2),
        (with(2, Band { first: 20, last: u64::MAX, cents: 1 }), 2),
        (with(2, Band { first: 20, last: TOP_AMOUNT, cents: u64::MAX }), 2),
        // A band after the top is faulty, whatever it holds.
        (bands(&[(9, 3), (TOP_AMOUNT, 1), (TOP_AMOUNT + 1, 1)]), 2),
        ([FREE, FREE].concat(), 1),
        // 64 good bands without the top, and one band too many.
        (bands(&(0..64).map(|last| (last, 1)).collect::<Vec<_>>()), 64),
        (many(64), 64),
        (vec![Band { first: 5, last: 3, cents: u64::MAX }; 65], 64),
    ]
}

#[test]
fn tables_that_are_refused() {
    let indexed = [0, 2, 2, 2, 2, 2, 2, 2, 2, 0, 1, 5];
    let free = Tables { volume: &FREE, area: &FREE, edges: &FREE };
    assert_eq!(charges(&TWO, &free), Ok(Charges { volume: 0, area: 0, edge: 0 }));
    for (table, detail) in faulty() {
        let other = [Band { first: 0, last: 0, cents: 0 }; 40];
        for tables in [
            Tables { volume: &table, ..free },
            Tables { area: &table, ..free },
            Tables { edges: &table, ..free },
            // The first faulty table decides: volume, area, edges.
            Tables { volume: &table, area: &other, edges: &other },
            Tables { area: &table, edges: &other, ..free },
        ] {
            let mut work = [5; 12];
            assert_eq!(price(&TWO, &mut work, &tables), refused(Reason::InvalidTable, detail), "{table:?}");
            assert_eq!(work, indexed, "{table:?}");
            assert_eq!(charges(&TWO, &tables), refused(Reason::InvalidTable, detail), "{table:?}");
        }
    }
}

/// What measuring refuses is refused first, whatever the tables hold, and leaves the work slice.
#[test]
fn measuring_refuses_before_the_tables() {
    let nothing = Tables { volume: &[], area: &[], edges: &[] };
    for (list, reason, detail) in [
        (List { coords: &[1, 2], ..TWO }, Reason::BrokenShot, 0),
        (List { coords: &[0; 12_291], ..TWO }, Reason::TooManyShots, 0),
        (List { field: 1025, ..TWO }, Reason::FieldRange, 0),
        (List { edge: 9, ..TWO }, Reason::EdgeRange, 0),
        (List { grid: 3, ..TWO }, Reason::GridRange, 0),
        (List { coords: &[6, 6, 6, 7, 6, 6], ..TWO }, Reason::OutsideField, 1),
        (List { coords: &[2, 2, 2], ..TWO }, Reason::ShortWork, 17),
    ] {
        let mut work = [5; 16];
        assert_eq!(price(&list, &mut work, &nothing), refused(reason, detail));
        assert_eq!(work, [5; 16]);
        let expected = if reason == Reason::ShortWork { (Reason::InvalidTable, 0) } else { (reason, detail) };
        assert_eq!(charges(&list, &nothing), refused(expected.0, expected.1));
    }
}

#[test]
fn refusals() {
    assert_eq!(quote(&List { coords: &[1, 2], ..TWO }), refused(Reason::BrokenShot, 0));
    assert_eq!(quote(&List { coords: &[0; 12_291], ..TWO }), refused(Reason::TooManyShots, 0));
    assert_eq!(quote(&List { field: 1025, ..TWO }), refused(Reason::FieldRange, 0));
    assert_eq!(quote(&List { edge: 9, ..TWO }), refused(Reason::EdgeRange, 0));
    assert_eq!(quote(&List { grid: 3, ..TWO }), refused(Reason::GridRange, 0));
    assert_eq!(quote(&List { coords: &[6, 6, 6, 7, 6, 6], ..TWO }), refused(Reason::OutsideField, 1));
    assert_eq!(measure(&List { coords: &[2, 2, 2], ..TWO }, &mut [0; 16]), refused(Reason::ShortWork, 17));
    assert_eq!(index(&List { coords: &[2, 2, 2], ..TWO }, &mut [0; 16]), refused(Reason::ShortWork, 17));
    assert_eq!(index(&List { coords: &[6, 6, 7], ..TWO }, &mut []), refused(Reason::OutsideField, 0));
    assert_eq!(credit(&List { coords: &[6, 6, 7], ..TWO }, &mut [], &mut []), refused(Reason::OutsideField, 0));
    assert_eq!(credit(&TWO, &mut [0; 10], &mut []), refused(Reason::ShortWork, 11));
    assert_eq!(credits(&List { edge: 9, ..TWO }), refused(Reason::EdgeRange, 0));
    assert_eq!(work_needed(&TWO), Ok(11));
    assert_eq!(write(&TWO, &mut [0; 14]), refused(Reason::ShortFile, 15));
    assert_eq!(read(&[0, 0], &mut [0; 2]), refused(Reason::NoPlace, 1));
    assert_eq!(read(&[0, 8], &mut [0; 3]), refused(Reason::UnknownBit, 1));
    assert_eq!(read(&[], &mut []), refused(Reason::CutShort, 0));
    assert_eq!(read(&[0; 4098], &mut [0; 20_000]), refused(Reason::TooManyShots, 4097));
    assert_eq!(read(&[0, 4, 0, 0], &mut [0; 3]), refused(Reason::NeedlessField, 1));
}

#[test]
fn vox_files() {
    let header = Header { field: 3, edge: 1, grid: 1, shots: 2 };
    let mut coords = [9; 8];
    assert_eq!(read_vox(&VOX, &mut coords), Ok(header));
    assert_eq!(coords, [1, 0, 2, 0, 0, 0, 9, 9]);
    let (header, coords) = from_vox(&VOX).unwrap();
    let list = List { field: header.field, edge: header.edge, grid: header.grid, coords: &coords };
    assert_eq!(work_needed(&list), Ok(4));
    assert_eq!(quote(&list), Ok(Totals { volume: 2, area: 12, edge: 24, inner: 0, corners: 16 }));
}

#[test]
fn refusals_of_vox_files() {
    // Each is the file with one byte changed, with so many places.
    for (place, byte, places, reason, detail) in [
        (0, b'v', 6, Reason::NotVox, 0),
        (4, 151, 6, Reason::NotVox, 0),
        (8, b'm', 6, Reason::NotVox, 8),
        (16, 0x4b, 6, Reason::BrokenChunk, 8),
        (47, b'X', 6, Reason::NotVox, 44),
        (52, 1, 6, Reason::BrokenChunk, 44),
        (56, 1, 0, Reason::BrokenChunk, 44),
        (63, 0, 5, Reason::NoPlace, 44),
        (36, 0, 6, Reason::VoxelRange, 20),
        (62, 3, 6, Reason::VoxelRange, 60),
        (67, 0, 6, Reason::VoxelRange, 64),
        (72, 3, 6, Reason::BrokenChunk, 68),
    ] {
        let mut file = VOX;
        file[place] = byte;
        let mut coords = vec![9; places];
        assert_eq!(read_vox(&file, &mut coords), refused(reason, detail), "byte {byte} at {place}");
        assert_eq!(coords, vec![9; places]);
    }
    assert_eq!(from_vox(&TWO_FILE), refused(Reason::NotVox, 0));
    assert_eq!(from_file(&VOX), refused(Reason::UnknownBit, 0));
    let mut crowded = VOX[..60].to_vec();
    crowded.resize(60 + 4 * 4097, 0);
    for (place, number) in [(16, 40 + 4 * 4097), (48, 4 + 4 * 4097), (56, 4097u32)] {
        crowded[place..place + 4].copy_from_slice(&number.to_le_bytes());
    }
    assert_eq!(read_vox(&crowded, &mut [0; 20_000]), refused(Reason::TooManyShots, 44));
}

#[test]
fn a_refusal_in_words() {
    let refusal = Refusal { reason: Reason::ShortWork, detail: 17 };
    assert_eq!(refusal.to_string(), "the work slice is too short, the entries needed being 17");
    assert_eq!(refusal.reason.number(), 10);
    let refusal = Refusal { reason: Reason::GridRange, detail: 0 };
    assert!(refusal.to_string().ends_with("does not divide the field side"));
    let refusal = Refusal { reason: Reason::BrokenChunk, detail: 44 };
    assert_eq!(refusal.to_string(), "a chunk is cut short, or a size of it does not match, at byte 44");
    let refusal = read_vox(&VOX, &mut [0; 5]).unwrap_err();
    assert_eq!(refusal.to_string(), "the coordinate slice has too few places for the shots, at byte 44");
    let refusal = credit(&TWO, &mut [0; 11], &mut [0; 1]).unwrap_err();
    assert_eq!(refusal.to_string(), "the credits are too short, the shots being 2");
    assert_eq!([Reason::NotVox, Reason::VoxelRange, Reason::ShortCredits].map(Reason::number), [13, 15, 16]);
    let refusal = from_file(&[0, 0, 1, 0, 0]).unwrap_err();
    assert_eq!(refusal.to_string(), "a field says what its absence would mean, in the record at byte 2");
    assert_eq!(Reason::NeedlessField.number(), 17);
    let refusal = charges(&TWO, &Tables { volume: &FREE, area: &FREE, edges: &[] }).unwrap_err();
    assert_eq!(
        refusal.to_string(),
        "a price table has a faulty band, no top, or more than 64 bands, the detail being 0"
    );
    assert_eq!(Reason::InvalidTable.number(), 18);
}
