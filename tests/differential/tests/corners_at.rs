//! The corners at one x in listings that the library made, in damaged ones and in any bytes: the places of the part,
//! every place of the answer, and a listing that stays as it was.

use differential::hold;
use differential::sections::SectionCase;
use heqdanu::{corners_at, records, Corner, RECORD};
use oracle::corners;
use oracle::inputs::{accepted, coarsen, Length, Random, Size};
use oracle::list::List;
use oracle::section;
use oracle::section_inputs::{any_bytes, damaged, few_planes};

/// The bytes that the library lists.
fn listed(list: &List) -> Vec<u8> {
    let lent = heqdanu::List { field: list.field, edge: list.edge, grid: list.grid, coords: &list.coords };
    let mut work = vec![0; heqdanu::work_needed(&lent).expect("the list is accepted")];
    let corners = heqdanu::measure(&lent, &mut work).expect("there is room").corners;
    let mut listing = vec![0; RECORD * corners as usize];
    heqdanu::list(&lent, &mut work, &mut listing).expect("there is room");
    listing
}

/// A listing that the library made of a list within the size, and the list.
fn made(random: &mut Random, size: Size) -> (List, Vec<u8>) {
    let mut list = accepted(random, size);
    coarsen(&mut list, 5_000);
    let listing = listed(&list);
    (list, listing)
}

/// A corner as the oracle has it.
fn told(corner: Corner) -> corners::Corner {
    corners::Corner { at: [corner.x, corner.y, corner.z], pattern: corner.pattern }
}

/// In a made listing the parts at each x of the field, one after another, are the listing; each holds the corners that
/// the cells have at that x, and there are none at any other x.
#[test]
fn every_x_of_a_made_listing() {
    let mut random = Random::new(91);
    for turn in 0..1_000 {
        let size = if turn % 20 == 0 { Size { field: 60, shots: 60 } } else { Size { field: 16, shots: 12 } };
        let (list, listing) = made(&mut random, size);
        let corners = corners::corners(&oracle::cells::Cells::of(&list));
        let mut parts = Vec::new();
        for x in 0..=list.field + 1 {
            hold(SectionCase::of(&mut random, &listing, x));
            let part = corners_at(&listing, x);
            let stepped: Vec<corners::Corner> = records(part).map(told).collect();
            assert_eq!(stepped, section::records(&listing, x), "{list:?} at {x}");
            assert!(stepped.iter().eq(corners.iter().filter(|corner| corner.at[0] == x)), "{list:?} at {x}");
            parts.extend_from_slice(part);
        }
        assert_eq!(parts, listing, "{list:?}");
        for x in [list.field + 2, list.field + 256, 1_025, 32_768, 65_535] {
            assert!(corners_at(&listing, x).is_empty(), "{list:?} at {x}");
        }
    }
}

/// Made listings that were cut, flipped, turned round or added to, so that x falls or records begin off their places.
#[test]
fn made_listings_that_are_damaged() {
    let mut random = Random::new(92);
    for _ in 0..2_000 {
        let (_, whole) = made(&mut random, Size { field: 20, shots: 10 });
        for _ in 0..20 {
            let mut listing = damaged(&mut random, whole.clone());
            if random.once_in(3) {
                listing = damaged(&mut random, listing);
            }
            hold(SectionCase::any(&mut random, &listing));
        }
    }
}

/// Few values of x, so that runs repeat and x falls: the first run counts, whatever stands around it.
#[test]
fn runs_that_repeat() {
    let mut random = Random::new(93);
    let (mut found, mut again, mut after_larger) = (0, 0, 0);
    for turn in 0..80_000 {
        let mut listing = few_planes(&mut random, if turn % 50 == 0 { 300 } else { 16 });
        if random.once_in(3) {
            listing = damaged(&mut random, listing);
        }
        let case = SectionCase::any(&mut random, &listing);
        let places = section::places(&listing, case.x);
        let mut before = records(&listing[..places.start]);
        found += usize::from(!places.is_empty());
        after_larger += usize::from(before.any(|corner| corner.x > case.x));
        again += usize::from(records(&listing[places.end..]).any(|corner| corner.x == case.x));
        hold(case);
    }
    let counts = format!("{found} found, {again} with a further run, {after_larger} behind a larger x");
    assert!(found > 40_000 && again > 8_000 && after_larger > 6_000, "{counts}");
}

/// All lengths from none to five records and a remainder of five bytes, of any bytes; a remainder is no record.
#[test]
fn every_small_length() {
    let mut random = Random::new(94);
    for length in 0..=40 {
        for _ in 0..1_000 {
            let listing = any_bytes(&mut random, length);
            hold(SectionCase::any(&mut random, &listing));
        }
    }
}

/// Every cut of a listing whose records all have that x, and of one whose last record alone has it.
#[test]
fn every_cut() {
    let mut random = Random::new(95);
    for x in [0, 1, 255, 256, 1_024, 1_025, 65_535] {
        for records in 1..=8 {
            let corner = |x| corners::Corner { at: [x, 7, 7], pattern: 7 };
            let alike = corners::listing(&vec![corner(x); records]);
            let mut last = corners::listing(&vec![corner(x ^ 1); records]);
            last.extend(corner(x).bytes());
            for listing in [alike, last] {
                for length in 0..=listing.len() {
                    hold(SectionCase::of(&mut random, &listing[..length], x));
                }
            }
        }
    }
}

/// A record with any x of 16 bits is found, and those next to it, or with one bit other than its, are not taken for it.
#[test]
fn any_x_of_16_bits() {
    let mut random = Random::new(96);
    for step in 0..4_096u16 {
        let x = 16 * step + random.within(0, 15) as u16;
        let bit = 1 << random.within(0, 15);
        let xs = [x ^ bit, x.wrapping_add(1), x, x, x.wrapping_sub(1), x];
        let listing = corners::listing(&xs.map(|x| corners::Corner { at: [x; 3], pattern: 255 }));
        for x in [x, x ^ bit, x ^ 1, x.swap_bytes()] {
            hold(SectionCase::of(&mut random, &listing, x));
        }
    }
}

/// Three places are one too few; a longer answer keeps what is behind four, whether or not a record has that x.
#[test]
fn answers_of_all_lengths() {
    let mut random = Random::new(97);
    for answer in (0..=9).map(Length::Fixed) {
        for _ in 0..300 {
            let listing = few_planes(&mut random, 6);
            hold(SectionCase { answer, ..SectionCase::any(&mut random, &listing) });
        }
    }
}

/// Listings of up to so many records as the program `listing` has room for.
#[test]
fn long_listings() {
    let mut random = Random::new(98);
    for most in [2_000, 20_000, 131_072] {
        for _ in 0..6 {
            let mut listing = few_planes(&mut random, most);
            listing.extend(vec![0; random.within(0, 6)]);
            for _ in 0..3 {
                hold(SectionCase::any(&mut random, &listing));
            }
            // A record behind all others, that none of them is like.
            listing.truncate(listing.len() / RECORD * RECORD);
            listing.extend([7; RECORD]);
            hold(SectionCase::of(&mut random, &listing, 0x707));
        }
    }
}
