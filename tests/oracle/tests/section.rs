//! The corners at one x: known listings, made and damaged, and what holds of the part in any bytes.

use oracle::calls::{corners_at, measured};
use oracle::corners::{listing, Corner};
use oracle::inputs::{accepted, Random, Size};
use oracle::list::List;
use oracle::section::{places, records};
use oracle::section_inputs::{any_bytes, damaged, few_planes, x};

/// A listing of corners with these x, each corner different.
fn with_xs(xs: &[u16]) -> Vec<u8> {
    listing(&xs.iter().zip(1..).map(|(x, n)| Corner { at: [*x, n, n], pattern: n as u8 }).collect::<Vec<Corner>>())
}

#[test]
fn the_first_unbroken_run() {
    let listing = with_xs(&[5, 5, 2, 2, 5]);
    assert_eq!((places(&listing, 2), places(&listing, 5)), (14..28, 0..14));
    assert_eq!((corners_at(&listing, 2), corners_at(&listing, 5)), ([0, 0, 14, 28], [0, 0, 0, 14]));
    assert_eq!(records(&listing, 2).iter().map(|corner| corner.pattern).collect::<Vec<u8>>(), [3, 4]);
    let falling = with_xs(&[4, 3, 2, 2, 1, 0]);
    assert_eq!([4, 3, 2, 1, 0].map(|x| places(&falling, x)), [0..7, 7..14, 14..28, 28..35, 35..42]);
}

#[test]
fn no_record_has_it() {
    assert_eq!(places(&[], 0), 0..0);
    let listing = with_xs(&[1, 3, 1_025]);
    assert!([0, 2, 4, 256, 257, 1_024, 65_535].iter().all(|x| corners_at(&listing, *x) == [0; 4]));
}

#[test]
fn any_x_of_16_bits() {
    let listing = with_xs(&[65_535, 1_025, 255, 65_280, 65_535]);
    assert_eq!([65_535, 1_025, 255, 65_280].map(|x| places(&listing, x)), [0..7, 7..14, 14..21, 21..28]);
}

/// Fewer than seven bytes at the end are not looked at, though they begin as a record does.
#[test]
fn a_remainder() {
    for cut in 1..7 {
        let listing = with_xs(&[9, 4, 4])[..21 - cut].to_vec();
        assert_eq!((places(&listing, 9), places(&listing, 4)), (0..7, 7..14), "{cut} bytes cut");
        assert_eq!(places(&vec![0; 7 - cut], 0), 0..0);
    }
}

/// Of the corners of a cube half lie at its lower x and half at its upper one.
#[test]
fn a_cube() {
    let listing = measured(&List { field: 8, edge: 2, grid: 2, coords: vec![1, 1, 1] }).listing;
    assert_eq!((places(&listing, 1), places(&listing, 2), places(&listing, 3)), (0..28, 0..0, 28..56));
    assert_eq!(records(&listing, 3)[0], Corner { at: [3, 1, 1], pattern: 8 });
}

/// In a made listing the parts at each x, one after another, are the listing.
#[test]
fn made_listings() {
    let mut random = Random::new(31);
    for _ in 0..500 {
        let list = accepted(&mut random, Size { field: 20, shots: 12 });
        let listing = measured(&list).listing;
        let parts: Vec<u8> = (0..=list.field).flat_map(|x| listing[places(&listing, x)].to_vec()).collect();
        assert_eq!(parts, listing, "{list:?}");
    }
}

/// The request's words once more, of any bytes: the part is whole records with that x, none before it has that x, and
/// the one behind it has another; where the part is empty, no record has that x.
#[test]
fn any_bytes_as_a_listing() {
    let mut random = Random::new(32);
    let (mut found, mut broken) = (0, 0);
    for turn in 0..20_000 {
        let listing = match turn % 3 {
            0 => few_planes(&mut random, 20),
            1 => {
                let whole = few_planes(&mut random, 20);
                damaged(&mut random, whole)
            }
            _ => any_bytes(&mut random, turn % 97),
        };
        let x = x(&mut random, &listing);
        let xs: Vec<u16> = listing.chunks_exact(7).map(|record| Corner::from_bytes(record).at[0]).collect();
        let places = places(&listing, x);
        let (first, end) = (places.start / 7, places.end / 7);
        if places.is_empty() {
            assert_eq!((places, xs.contains(&x)), (0..0, false), "{listing:?} at {x}");
            continue;
        }
        assert_eq!(7 * first..7 * end, places);
        assert!(xs[first..end].iter().all(|own| *own == x), "{listing:?} at {x}");
        assert!(!xs[..first].contains(&x) && xs.get(end) != Some(&x), "{listing:?} at {x}");
        found += 1;
        broken += usize::from(xs[end..].contains(&x));
    }
    assert!(found > 10_000 && broken > 2_000, "{found} found, {broken} with another run behind the first");
}
