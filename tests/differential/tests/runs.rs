//! The cover test on runs of any numbers, repeats and numbers past the list included, and on the runs of the index: the
//! shot that it names, and every place of its answer.

use differential::hold;
use differential::runs::RunCase;
use oracle::grid::{first_covering, run_about};
use oracle::inputs::{accepted, cell, coarsen, damaged, Length, Random, Size};
use oracle::list::List;

#[test]
fn any_numbers_as_a_run() {
    let mut random = Random::new(61);
    for turn in 0..10_000 {
        let size = Size { field: random.one_of(&[3, 9, 40, 1024]), shots: if turn % 50 == 0 { 300 } else { 8 } };
        let list = if random.once_in(3) { damaged(&mut random, size) } else { accepted(&mut random, size) };
        for _ in 0..10 {
            let most = random.one_of(&[1, 2, 3, 9, 40]);
            hold(RunCase::any(&mut random, &list, most));
        }
    }
}

/// Edges and coordinates of any size, where sums of 16 bits would wrap.
#[test]
fn any_numbers_as_a_list() {
    let mut random = Random::new(62);
    let any = |random: &mut Random| {
        let number = random.number() as u16;
        random.one_of(&[0, 1, 2, number, 32_767, 32_768, 65_534, 65_535])
    };
    for _ in 0..40_000 {
        let coords = (0..random.within(0, 10)).map(|_| any(&mut random)).collect();
        let list = List { field: any(&mut random), edge: any(&mut random), grid: any(&mut random), coords };
        hold(RunCase::any(&mut random, &list, 5));
    }
}

/// Shots that do not cover the cell, and behind them those that do, in any order: the first covering one is not the
/// run's first, and often not the lowest.
#[test]
fn the_first_of_several_covering_shots() {
    let mut random = Random::new(65);
    let (mut several, mut not_lowest) = (0, 0);
    for _ in 0..10_000 {
        let list = accepted(&mut random, Size { field: 12, shots: 20 });
        let cell = cell(&mut random, &list);
        let mut order: Vec<u32> = (0..list.coords.len() as u32 / 3).collect();
        for place in (1..order.len()).rev() {
            order.swap(place, random.within(0, place));
        }
        let covers = |number: &u32| first_covering(&list, &[*number], cell).is_some();
        let (covering, mut run): (Vec<u32>, Vec<u32>) = order.into_iter().partition(covers);
        run.extend(&covering);
        if covering.len() > 1 {
            several += 1;
            not_lowest += usize::from(covering[0] != *covering.iter().min().expect("it has shots"));
        }
        hold(RunCase::of(&mut random, &list, run, cell));
    }
    assert!(several > 1_000 && not_lowest > 500, "{several} runs of several, {not_lowest} not by the lowest");
}

/// Too short an answer slice takes nothing; a longer one keeps its places past the second.
#[test]
fn answers_of_all_lengths() {
    let mut random = Random::new(66);
    for places in 0..=4 {
        for _ in 0..500 {
            let list = accepted(&mut random, Size { field: 9, shots: 6 });
            let case = RunCase::any(&mut random, &list, 6);
            hold(RunCase { answer: Length::Fixed(places), ..case });
        }
    }
}

/// Runs as long as a list, and longer: the first shot that covers the cell stands anywhere in them, or nowhere.
#[test]
fn long_runs() {
    let mut random = Random::new(63);
    for _ in 0..200 {
        let list = accepted(&mut random, Size { field: 1024, shots: 4096 });
        let mut case = RunCase::any(&mut random, &list, 10_000);
        hold(case.clone());
        let covers = |number: &u32| first_covering(&list, &[*number], case.cell).is_some();
        case.run.retain(|number| !covers(number));
        let covering = (0..list.coords.len() as u32 / 3).find(covers);
        hold(case.clone());
        if let Some(covering) = covering {
            let place = random.within(0, case.run.len());
            case.run.insert(place, covering);
            hold(case);
        }
    }
}

/// The run of the grid cell that holds a unit cell names the list's lowest covering shot.
#[test]
fn runs_of_the_index() {
    let mut random = Random::new(64);
    for _ in 0..3_000 {
        let mut list = accepted(&mut random, Size { field: 60, shots: 40 });
        coarsen(&mut list, 20_000);
        let lent = heqdanu::List { field: list.field, edge: list.edge, grid: list.grid, coords: &list.coords };
        let all: Vec<u32> = (0..list.coords.len() as u32 / 3).collect();
        for _ in 0..10 {
            let cell = cell(&mut random, &list).map(|place| place % list.field);
            let run = run_about(&list, cell);
            let lowest = first_covering(&list, &all, cell);
            assert_eq!(heqdanu::first_covering(&lent, &run, cell), lowest, "{list:?} {cell:?}");
            hold(RunCase::of(&mut random, &list, run, cell));
        }
    }
}
