//! The oracle's quicker counts against the definitions taken word for word, on random small lists.

use oracle::calls::{self, measured, Calls};
use oracle::cells::Cells;
use oracle::corners::listing;
use oracle::credits::credits;
use oracle::inputs::{accepted, accepted_with, Random, Size};
use oracle::list::{refusal, List};
use oracle::shotfile::ABSENT;
use oracle::{grid, literal, shotfile};

#[test]
fn totals_corners_and_index() {
    let mut random = Random::new(1);
    for turn in 0..3000 {
        let size = if turn % 10 == 0 { Size { field: 12, shots: 40 } } else { Size { field: 6, shots: 8 } };
        let list = accepted(&mut random, size);
        let measured = measured(&list);
        assert_eq!(measured.numbers[..4], literal::totals(&list), "{list:?}");
        assert_eq!(measured.listing, listing(&literal::corners(&list)), "{list:?}");
        let index = grid::index(&list);
        assert_eq!(index, literal::index(&list), "{list:?}");
        assert_eq!(index.len(), grid::need(&list), "{list:?}");
    }
}

#[test]
fn the_cover_test_of_a_run() {
    let mut random = Random::new(6);
    for _ in 0..3000 {
        let list = accepted(&mut random, Size { field: 12, shots: 20 });
        let all: Vec<u32> = (0..list.coords.len() as u32 / 3).collect();
        let place = |random: &mut Random| random.within(0, list.field as usize - 1) as u16;
        let cell = [place(&mut random), place(&mut random), place(&mut random)];
        let [i, j, k] = cell.map(i64::from);
        let lowest = literal::lowest_covering(&list, i, j, k).map(|shot| shot as u32);
        let first = |run: &[u32]| grid::first_covering(&list, run, cell);
        assert_eq!(first(&all), lowest, "{list:?} {cell:?}");
        assert_eq!(first(&grid::run_about(&list, cell)), lowest, "{list:?} {cell:?}");
        assert_eq!(first(&[all.len() as u32, u32::MAX]), None, "{list:?} {cell:?}");
        // In a run that does not rise the first is not the lowest.
        let falling: Vec<u32> = all.iter().rev().copied().collect();
        let highest = all.iter().rev().copied().find(|shot| first(&[*shot]).is_some());
        assert_eq!(first(&falling), highest, "{list:?} {cell:?}");
        assert_eq!(calls::covers(&list, &falling, cell), highest.map_or([0, 0], |shot| [1, shot.into()]));
    }
}

#[test]
fn credits_of_shots() {
    let mut random = Random::new(7);
    let (mut none, mut part) = (0, 0);
    for turn in 0..3000 {
        let size = if turn % 10 == 0 { Size { field: 12, shots: 40 } } else { Size { field: 6, shots: 8 } };
        let list = accepted(&mut random, size);
        let credits = credits(&list);
        assert_eq!(credits, literal::credits(&list), "{list:?}");
        let volume = u32::from(list.edge).pow(3);
        none += credits.iter().filter(|credit| **credit == 0).count();
        part += credits.iter().filter(|credit| (1..volume).contains(*credit)).count();
    }
    assert!(none > 1000 && part > 1000, "{none} shots of credit 0, {part} of less than a cube");
}

#[test]
fn what_holds_of_credits() {
    let mut random = Random::new(8);
    for _ in 0..1000 {
        let list = accepted(&mut random, Size { field: 30, shots: 30 });
        let calls = Calls::on(&list);
        let (volume, shots) = (calls.measured().numbers[0], list.shots());
        let sum = |credits: &[u32]| credits.iter().copied().map(u64::from).sum::<u64>();
        // The first shot has its whole cube, a repeat nothing, and all of them together the volume.
        let credits = calls.credits();
        assert_eq!(sum(credits), volume, "{list:?}");
        assert!(credits.first().is_none_or(|first| *first == u32::from(list.edge).pow(3)), "{list:?}");
        for (number, shot) in shots.iter().enumerate() {
            assert!(!shots[..number].contains(shot) || credits[number] == 0, "{list:?}");
        }
        // Another order moves credit, not the sum.
        let mut order = shots.clone();
        order.rotate_left(shots.len() / 2);
        order.reverse();
        let coords = order.into_iter().flatten().map(|c| c as u16).collect();
        let other = List { coords, ..list.clone() };
        assert_eq!(sum(Calls::on(&other).credits()), volume, "{list:?}");
        // Without the shots of credit 0 the others keep theirs, and the part is the same.
        let kept = |number: &usize| credits[*number] > 0;
        let coords = (0..shots.len()).filter(kept).flat_map(|number| list.coords[3 * number..][..3].to_vec()).collect();
        let fewer = List { coords, ..list.clone() };
        let left: Vec<u32> = credits.iter().copied().filter(|credit| *credit > 0).collect();
        assert_eq!(Calls::on(&fewer).credits(), left, "{list:?}");
        assert_eq!(measured(&fewer).listing, calls.measured().listing, "{list:?}");
    }
}

#[test]
fn rows_of_more_than_one_word() {
    let mut random = Random::new(2);
    for field in [63, 64, 65, 66] {
        for edge in [1, 2, 63, 40] {
            let mut list = accepted_with(&mut random, field, edge, 3);
            list.coords.extend([0, 0, 0, (field - edge) as u16, 0, (field - edge) as u16]);
            let measured = measured(&list);
            assert_eq!(measured.numbers[..4], literal::totals(&list), "{list:?}");
            assert_eq!(measured.listing, listing(&literal::corners(&list)), "{list:?}");
            assert_eq!(credits(&list), literal::credits(&list), "{list:?}");
        }
    }
}

#[test]
fn painting_and_growing_cover_the_same_cells() {
    let mut random = Random::new(3);
    for _ in 0..300 {
        let list = accepted(&mut random, Size { field: 100, shots: 30 });
        let (shots, edge) = (list.shots(), list.edge as usize);
        let mut painted = Cells::empty_about(&shots, edge);
        let mut grown = Cells::empty_about(&shots, edge);
        painted.paint(&shots, edge);
        grown.grow(&shots, edge);
        for i in 0..painted.size[0] {
            for j in 0..painted.size[1] {
                assert_eq!(painted.row(i, j), grown.row(i, j), "{list:?}");
            }
        }
    }
}

#[test]
fn what_is_written_reads_back() {
    let mut random = Random::new(4);
    for _ in 0..2000 {
        let list = accepted(&mut random, Size { field: 1024, shots: 20 });
        let file = shotfile::shortest(&list);
        assert_eq!(shotfile::read(&file, list.coords.len()), Ok(list));
    }
}

/// Whole records of few values, so that many fields say what their absence would mean.
#[test]
fn the_first_needless_field() {
    let mut random = Random::new(9);
    let (mut accepted, mut later) = (0, 0);
    for _ in 0..20_000 {
        let mut file = Vec::new();
        for record in 0..random.within(1, 6) {
            let map = random.within(0, 7) as u8;
            file.push(map);
            for bit in (0..3).filter(|bit| map >> bit & 1 == 1) {
                let values = if record == 0 { [8, 4, 1, 0, ABSENT[bit]] } else { [0, 1, 2, 256, 257] };
                file.extend(random.one_of(&values).to_le_bytes());
            }
        }
        let needless = literal::first_needless(&file);
        assert_eq!(shotfile::read(&file, 15).err(), needless.map(|map| refusal(17, map)), "{file:02x?}");
        accepted += usize::from(needless.is_none());
        later += usize::from(needless.is_some_and(|map| map > file.len() / 2));
    }
    assert!(accepted > 2_000 && later > 2_000, "{accepted} accepted, {later} refused in their second half");
}

/// Fields of 1,024 take seconds at most.
#[test]
fn large_fields() {
    let mut random = Random::new(5);
    for edge in [16, 700] {
        let mut list = accepted_with(&mut random, 1024, edge, 1);
        list.grid = 8;
        list.coords = (0..12_288).map(|_| random.within(0, 1024 - edge) as u16).collect();
        let start = std::time::Instant::now();
        let measured = measured(&list);
        println!("edge {edge}: {:?} in {:?}", measured.numbers, start.elapsed());
    }
}
