//! Cells credited to shots: counted cell by cell, slices of every length about those that are needed, full lists, larger
//! fields, and what holds of credits whatever the order of the shots. Random and damaged lists are in lists.rs.
//!
//! HEQDANU_TESTS=quick leaves out the field of 1,024.

use differential::hold;
use differential::lists::ListCase;
use heqdanu::{corners, credits, quote};
use oracle::inputs::{accepted, accepted_with, coarsen, Length, Random, Size};
use oracle::list::List;
use oracle::literal;

/// A list as the wrapper takes it.
fn lent(list: &List) -> heqdanu::List<'_> {
    heqdanu::List { field: list.field, edge: list.edge, grid: list.grid, coords: &list.coords }
}

fn sum(credits: &[u32]) -> u64 {
    credits.iter().copied().map(u64::from).sum()
}

/// Shots in an order drawn by lot.
fn shuffled(random: &mut Random, list: &List) -> List {
    let mut shots: Vec<[u16; 3]> = list.coords.chunks_exact(3).map(|shot| [shot[0], shot[1], shot[2]]).collect();
    for place in (1..shots.len()).rev() {
        shots.swap(place, random.within(0, place));
    }
    List { coords: shots.concat(), ..list.clone() }
}

/// Every cell of the field asks every shot, in two grids. Some shots without credit repeat no earlier one: several
/// together cover their cells.
#[test]
fn counted_cell_by_cell() {
    let mut random = Random::new(77);
    let (mut none, mut hidden) = (0, 0);
    for _ in 0..10_000 {
        let mut list = accepted(&mut random, Size { field: 10, shots: 16 });
        coarsen(&mut list, 5_000);
        let counted = literal::credits(&list);
        for grid in [list.grid, 1] {
            let list = List { grid, ..list.clone() };
            assert_eq!(credits(&lent(&list)), Ok(counted.clone()), "{list:?}");
        }
        let shots = list.shots();
        for shot in (0..shots.len()).filter(|shot| counted[*shot] == 0) {
            none += 1;
            hidden += usize::from(!shots[..shot].contains(&shots[shot]));
        }
    }
    assert!(none > 10_000 && hidden > 200, "{none} shots of credit 0, {hidden} of them no repeats");
}

/// None, one short, exact, one more, many more; with work slices one short, exact and longer.
#[test]
fn slices_of_every_length() {
    let mut random = Random::new(71);
    for _ in 0..300 {
        let mut list = accepted(&mut random, Size { field: 9, shots: 8 });
        coarsen(&mut list, 1_000);
        for credits in [Length::Fixed(0), Length::About(-1), Length::About(0), Length::About(1), Length::Fixed(300)] {
            for work in [Length::About(-1), Length::About(0), Length::About(7)] {
                let case = ListCase::roomy(&mut random, list.clone());
                hold(ListCase { work, credits, ..case });
            }
        }
    }
}

/// As many shots as are allowed: small cubes and many repeats.
#[test]
fn full_lists() {
    let mut random = Random::new(72);
    for (field, edge) in [(4, 1), (8, 2), (20, 5), (60, 3)] {
        let coords = (0..12_288).map(|_| random.within(0, (field - edge).into()) as u16).collect();
        let mut list = List { field, edge, grid: field, coords };
        coarsen(&mut list, 60_000);
        for credits in [-1, 0, 1].map(Length::About) {
            let case = ListCase::roomy(&mut random, list.clone());
            hold(ListCase { credits, ..case });
        }
    }
}

/// Fields of some words, cubes of more than 65,536 cells, grids from one cell to one a unit cell.
#[test]
fn larger_fields() {
    let mut random = Random::new(73);
    for field in [40, 48, 63, 64, 65, 96, 100] {
        for edge in [1, 7, field / 3, field / 2, field - 1] {
            for entries in [2_000, 40_000, 400_000] {
                let mut list = accepted_with(&mut random, field, edge, 12);
                coarsen(&mut list, entries);
                hold(ListCase::any(&mut random, list));
            }
        }
    }
}

#[test]
fn another_order_has_the_same_sum() {
    let mut random = Random::new(74);
    let mut moved = 0;
    for _ in 0..2_000 {
        let mut list = accepted(&mut random, Size { field: 16, shots: 20 });
        coarsen(&mut list, 5_000);
        let other = shuffled(&mut random, &list);
        let volume = quote(&lent(&list)).expect("the list is accepted").volume;
        let mut all = [&list, &other].map(|list| credits(&lent(list)).expect("the list is accepted"));
        for (list, credits) in [&list, &other].into_iter().zip(&all) {
            assert_eq!(sum(credits), volume, "{list:?}");
        }
        all.iter_mut().for_each(|credits| credits.sort_unstable());
        moved += usize::from(all[0] != all[1]);
    }
    assert!(moved > 300, "{moved} orders move credit");
}

/// A shot of credit 0 left out, and all of them: the same totals and the same listing, and the others keep their credits.
#[test]
fn shots_of_credit_0_can_be_left_out() {
    let mut random = Random::new(75);
    let mut left_out = 0;
    for _ in 0..2_000 {
        let mut list = accepted(&mut random, Size { field: 12, shots: 30 });
        coarsen(&mut list, 5_000);
        let whole = credits(&lent(&list)).expect("the list is accepted");
        let Some(one) = (0..whole.len()).find(|shot| whole[*shot] == 0) else { continue };
        let without_one: Vec<usize> = (0..whole.len()).filter(|shot| *shot != one).collect();
        let without_any: Vec<usize> = (0..whole.len()).filter(|shot| whole[*shot] > 0).collect();
        for kept in [without_one, without_any] {
            let coords = kept.iter().flat_map(|shot| list.coords[3 * shot..][..3].to_vec()).collect();
            let fewer = List { coords, ..list.clone() };
            assert_eq!(quote(&lent(&fewer)), quote(&lent(&list)), "{list:?}");
            assert_eq!(corners(&lent(&fewer)), corners(&lent(&list)), "{list:?}");
            let credits = credits(&lent(&fewer)).expect("the list is accepted");
            assert_eq!(credits, kept.iter().map(|shot| whole[*shot]).collect::<Vec<u32>>(), "{list:?}");
        }
        left_out += 1;
    }
    assert!(left_out > 1_000, "{left_out} lists have a shot of credit 0");
}

/// The largest credit, cubes that meet in the largest field, and random ones in coarse and fine grids.
#[test]
fn the_field_of_1024() {
    if std::env::var("HEQDANU_TESTS").is_ok_and(|tests| tests == "quick") {
        return;
    }
    let hold = |edge, grid, coords: &[u16]| {
        let list = List { field: 1024, edge, grid, coords: coords.to_vec() };
        assert_eq!(credits(&lent(&list)), Ok(oracle::credits::credits(&list)), "{list:?}");
    };
    hold(1024, 1, &[0; 9]);
    hold(1000, 2, &[24, 24, 24, 0, 0, 0, 24, 0, 24]);
    hold(300, 16, &[0, 0, 0, 724, 724, 724, 512, 512, 512, 100, 200, 299]);
    let mut random = Random::new(76);
    for (edge, shots) in [(1, 4_096), (9, 1_500), (40, 300), (200, 40)] {
        let coords: Vec<u16> = (0..3 * shots).map(|_| random.within(0, 1024 - edge) as u16).collect();
        for grid in [1, 8, 64] {
            hold(edge as u16, grid, &coords);
        }
    }
}
