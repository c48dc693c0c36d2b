//! Random and damaged lists: measure, recount, index, list, credit and write against the oracle; what the listing says of
//! the totals by itself, whatever order and grid the list has; and that the random lists are of every kind.
//!
//! HEQDANU_TESTS=quick leaves out the fields of 1,024.

use differential::hold;
use differential::lists::ListCase;
use heqdanu::Totals;
use oracle::corners::sums;
use oracle::grid;
use oracle::inputs::{accepted, accepted_with, coarsen, damaged, Length, Random, Size};
use oracle::list::{List, Shot};
use oracle::literal;

/// Holds so many accepted lists of a size, with buffers of all lengths.
fn hold_accepted(seed: u64, lists: usize, size: Size, entries: usize) {
    let mut random = Random::new(seed);
    for _ in 0..lists {
        let mut list = accepted(&mut random, size);
        coarsen(&mut list, entries);
        hold(ListCase::any(&mut random, list));
    }
}

#[test]
fn tiny_lists() {
    hold_accepted(11, 30_000, Size { field: 7, shots: 9 }, 5_000);
}

#[test]
fn small_lists() {
    hold_accepted(12, 8_000, Size { field: 32, shots: 50 }, 20_000);
}

#[test]
fn lists_of_some_hundred_shots() {
    hold_accepted(13, 400, Size { field: 160, shots: 400 }, 200_000);
}

#[test]
fn fields_about_a_word() {
    let mut random = Random::new(14);
    for field in [63, 64, 65, 127, 128, 129, 192, 255, 256, 257] {
        for edge in [1, 2, 3, 16, 31, 32, 62, 63] {
            let mut list = accepted_with(&mut random, field, edge, 120);
            coarsen(&mut list, 300_000);
            hold(ListCase::any(&mut random, list));
        }
    }
}

#[test]
fn damaged_lists() {
    let mut random = Random::new(15);
    for _ in 0..15_000 {
        let mut list = damaged(&mut random, Size { field: 20, shots: 12 });
        if list.check().is_ok() {
            coarsen(&mut list, 20_000);
        }
        hold(ListCase::any(&mut random, list));
    }
}

/// Every way to cover the eight cells about a point, which is on grid planes and off them: each pattern, and so each
/// entry of each table of weights, with a place of its own on each axis.
#[test]
fn every_pattern_about_a_point() {
    let mut random = Random::new(18);
    for pattern in 0..256u16 {
        for (point, grid) in [([2, 4, 6], 4), ([2, 4, 6], 1), ([5, 3, 1], 8), ([4, 7, 5], 2)] {
            let cells = (0..8).filter(|bit| pattern >> bit & 1 == 1).map(|bit| [bit >> 2, bit >> 1 & 1, bit & 1]);
            let coords = cells.flat_map(|above| [0, 1, 2].map(|axis| point[axis] + above[axis] - 1)).collect();
            hold(ListCase::roomy(&mut random, List { field: 8, edge: 1, grid, coords }));
        }
    }
}

/// What the library lists: the totals that go with it, and the bytes.
fn listed(list: &List) -> (Totals, Vec<u8>) {
    let lent = heqdanu::List { field: list.field, edge: list.edge, grid: list.grid, coords: &list.coords };
    let mut work = vec![0; grid::need(list)];
    let measured = heqdanu::measure(&lent, &mut work).expect("the list is accepted");
    let mut listing = vec![0; heqdanu::RECORD * measured.corners as usize];
    let totals = heqdanu::list(&lent, &mut work, &mut listing).expect("there is room");
    assert_eq!(totals, measured, "{list:?}");
    (totals, listing)
}

/// The corner sums, read back from the bytes of the library's listing and nothing else, are its totals; the same shots
/// in another order and another grid have the same bytes.
#[test]
fn listings_by_themselves() {
    let mut random = Random::new(19);
    for _ in 0..4_000 {
        let mut list = accepted(&mut random, Size { field: 24, shots: 20 });
        coarsen(&mut list, 5_000);
        let (totals, listing) = listed(&list);
        let figures = sums(&listing);
        let read_back = Totals {
            volume: figures.volume,
            area: figures.area,
            edge: figures.edge,
            inner: figures.inner,
            corners: (listing.len() / heqdanu::RECORD) as u64,
        };
        assert_eq!(read_back, totals, "{list:?}");
        let mut shots = list.shots();
        shots.reverse();
        shots.rotate_left(list.coords.len() / 6);
        let coords = shots.concat().into_iter().map(|c| c as u16).collect();
        let other = List { grid: if list.grid == 1 { list.field.min(8) } else { 1 }, coords, ..list.clone() };
        if other.check().is_ok() {
            assert_eq!(listed(&other), (totals, listing), "{list:?} {other:?}");
        }
    }
}

/// The cells of the field, covered or not.
fn cells(list: &List) -> Vec<bool> {
    let field = i64::from(list.field);
    let place = |n: i64| [n / field / field, n / field % field, n % field];
    (0..field.pow(3)).map(place).map(|[i, j, k]| literal::covered(list, i, j, k)).collect()
}

/// With a shot more, or another shot in the place of one, a list has the same listing exactly if it covers the same
/// cells. Some have other cells and yet the same totals.
#[test]
fn other_cells_another_listing() {
    let mut random = Random::new(21);
    let (mut same, mut other, mut twins) = (0, 0, 0);
    for _ in 0..3_000 {
        let list = accepted(&mut random, Size { field: 9, shots: 8 });
        let (totals, listing) = listed(&list);
        let shot = [0; 3].map(|_| random.within(0, (list.field - list.edge).into()) as u16);
        let more = [list.coords.clone(), shot.to_vec()].concat();
        let moved = more[3..].to_vec();
        for coords in [more, moved] {
            let changed = List { coords, ..list.clone() };
            let (their_totals, their_listing) = listed(&changed);
            let same_cells = cells(&list) == cells(&changed);
            assert_eq!(their_listing == listing, same_cells, "{list:?} {changed:?}");
            same += usize::from(same_cells);
            other += usize::from(!same_cells);
            twins += usize::from(!same_cells && their_totals == totals);
        }
    }
    let counts = format!("{same} with the same cells, {other} with others, {twins} of them with the same totals");
    assert!(same > 500 && other > 2_000 && twins > 100, "{counts}");
}

/// On how many axes two cubes touch without overlapping, where they overlap or lie alike on the others: 0 for a repeat,
/// 1 for a shared face, 2 for a shared edge, 3 for a shared corner. Nothing where they overlap in part or are apart.
fn shared(edge: usize, a: &Shot, b: &Shot) -> Option<usize> {
    let between = [0, 1, 2].map(|axis| a[axis].abs_diff(b[axis]));
    let touching = between.iter().filter(|steps| **steps == edge).count();
    let apart = between.iter().any(|steps| *steps > edge);
    (!apart && (touching > 0 || between == [0; 3])).then_some(touching)
}

/// How many pairs of a shot and a grid cell share a point and no volume.
fn merely_touching(list: &List) -> usize {
    let width = list.field as usize / list.grid as usize;
    let overlapped = |low: usize| {
        let meets = |g: &usize| g * width < low + list.edge as usize && low < (g + 1) * width;
        (0..list.grid as usize).filter(meets).count()
    };
    let overlaps: usize = list.shots().iter().map(|shot| shot.map(overlapped).iter().product::<usize>()).sum();
    grid::need(list) - (list.grid as usize).pow(3) - 1 - overlaps
}

/// Random lists have repeats, cubes that share a face, an edge or a corner, shots at the border of the field, inner
/// length, and grid cells that a shot only touches.
#[test]
fn lists_of_every_kind() {
    let mut random = Random::new(20);
    let mut kinds = [0; 7];
    for _ in 0..3_000 {
        let list = accepted(&mut random, Size { field: 12, shots: 12 });
        let (shots, edge) = (list.shots(), list.edge as usize);
        let top = list.field as usize - edge;
        let pairs = || (0..shots.len()).flat_map(|a| (0..a).map(move |b| (a, b)));
        for (kind, lists) in kinds[..4].iter_mut().enumerate() {
            *lists += usize::from(pairs().any(|(a, b)| shared(edge, &shots[a], &shots[b]) == Some(kind)));
        }
        kinds[4] += usize::from(shots.iter().flatten().any(|c| *c == 0 || *c == top));
        kinds[5] += usize::from(listed(&list).0.inner > 0);
        kinds[6] += usize::from(merely_touching(&list) > 0);
    }
    assert!(kinds.iter().all(|lists| *lists > 400), "{kinds:?} lists of each kind");
}

/// Six places are one too few for measuring, listing and counting again; a longer answer keeps what is behind seven,
/// whether or not the list is refused.
#[test]
fn answers_of_all_lengths() {
    let mut random = Random::new(16);
    let size = Size { field: 9, shots: 6 };
    for answer in (0..=9).map(Length::Fixed) {
        for turn in 0..150 {
            let mut list = if turn % 3 == 0 { damaged(&mut random, size) } else { accepted(&mut random, size) };
            if list.check().is_ok() {
                coarsen(&mut list, 3_000);
            }
            let lent = if turn % 3 == 1 { ListCase::roomy } else { ListCase::any };
            hold(ListCase { answer, ..lent(&mut random, list) });
        }
    }
}

/// Full lists on the largest field: spread, clustered, touching, on one plane, repeated.
#[test]
fn fields_of_1024() {
    if std::env::var("HEQDANU_TESTS").is_ok_and(|tests| tests == "quick") {
        return;
    }
    let mut random = Random::new(17);
    let spread = |random: &mut Random, edge: usize| -> Vec<u16> {
        (0..12_288).map(|_| random.within(0, 1024 - edge) as u16).collect()
    };
    for (edge, grid) in [(1, 8), (1, 64), (8, 16), (16, 1), (16, 8), (16, 64), (128, 16), (512, 8), (1000, 4)] {
        let coords = spread(&mut random, edge as usize);
        hold(ListCase::roomy(&mut random, List { field: 1024, edge, grid, coords }));
    }
    let clustered = (0..12_288).map(|_| 700 + random.within(0, 90) as u16).collect();
    hold(ListCase::roomy(&mut random, List { field: 1024, edge: 8, grid: 32, coords: clustered }));
    let touching = (0..4096u16).flat_map(|n| [n / 256, n / 16 % 16, n % 16].map(|c| 64 * c)).collect();
    hold(ListCase::roomy(&mut random, List { field: 1024, edge: 64, grid: 16, coords: touching }));
    let mut plane = spread(&mut random, 512);
    plane.chunks_mut(3).for_each(|shot| shot[2] = 0);
    hold(ListCase::roomy(&mut random, List { field: 1024, edge: 512, grid: 8, coords: plane }));
    hold(ListCase::roomy(&mut random, List { field: 1024, edge: 1024, grid: 8, coords: vec![0; 12_288] }));
    for field in [1023, 1022, 1020, 960, 521] {
        let edge = random.within(1, 40);
        let mut list = accepted_with(&mut random, field, edge, 2000);
        coarsen(&mut list, 2_000_000);
        hold(ListCase::any(&mut random, list));
    }
}
