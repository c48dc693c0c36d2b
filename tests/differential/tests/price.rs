//! Price bands: random lists with tables of all kinds, tables broken in every way at every place, measuring's refusals
//! before those of tables, slices of every length, and what holds of charges whatever the order and the grid.
//!
//! HEQDANU_TESTS=quick leaves out the fields of 1,024.

use differential::hold;
use differential::prices::{amounts, priced, PriceCase};
use oracle::inputs::{accepted, coarsen, damaged, Length, Random, Size};
use oracle::list::List;
use oracle::met::Met;
use oracle::price::{Band, Tables, MOST_BANDS, MOST_CENTS, TOP};
use oracle::price_inputs::{any_bands, bands, broken, broken_at, flat, past_the_top, tables, valid};

/// An accepted list whose index is not too large.
fn made(random: &mut Random, size: Size) -> List {
    let mut list = accepted(random, size);
    coarsen(&mut list, 5_000);
    list
}

/// Two cubes that overlap in a unit cell: volume 15, area 42, edge length 42.
fn overlap() -> List {
    List { field: 8, edge: 2, grid: 2, coords: vec![0, 0, 0, 1, 1, 1] }
}

/// Valid tables about the amounts of a list.
fn valid_tables(random: &mut Random, amounts: [u64; 3]) -> Tables {
    amounts.map(|amount| {
        let bands = bands(random);
        valid(random, bands, &[amount])
    })
}

/// Holds a case, and counts what the oracle answers.
fn meet(met: &mut Met, case: PriceCase) {
    met.count(case.answered()[0]);
    hold(case);
}

/// Holds so many lists of a size, with tables of all kinds and slices of all lengths.
fn hold_lists(seed: u64, lists: usize, size: Size, least: usize) {
    let (mut random, mut met) = (Random::new(seed), Met::default());
    for _ in 0..lists {
        let list = made(&mut random, size);
        meet(&mut met, PriceCase::with_tables(&mut random, &list));
    }
    met.each(&[0, 10, 18], least);
}

#[test]
fn tiny_lists() {
    hold_lists(111, 15_000, Size { field: 7, shots: 9 }, 1_000);
}

#[test]
fn small_lists() {
    hold_lists(112, 3_000, Size { field: 32, shots: 50 }, 150);
}

/// Charges of more than 32 bits.
#[test]
fn larger_lists() {
    let mut random = Random::new(113);
    let mut large = 0;
    for _ in 0..150 {
        let list = made(&mut random, Size { field: 160, shots: 200 });
        let amounts = amounts(&list);
        let dear = amounts.map(|amount| {
            let mut table = valid(&mut random, 3, &[amount]);
            table.iter_mut().for_each(|band| band.cents = band.cents.max(MOST_CENTS - 5));
            table
        });
        large += usize::from(priced(&list, &dear)[2] > u32::MAX.into());
        hold(PriceCase::of(&mut random, &list, &dear));
        hold(PriceCase::with_tables(&mut random, &list));
    }
    assert!(large > 30, "{large} charges of more than 32 bits");
}

/// A band ends, or begins, at each amount of a list, right before it or right behind it.
#[test]
fn amounts_at_the_ends_of_bands() {
    let mut random = Random::new(114);
    for _ in 0..2_000 {
        let list = made(&mut random, Size { field: 12, shots: 12 });
        let amounts = amounts(&list);
        for (before, behind) in [(0, 0), (1, 0), (0, 1), (1, 1), (2, 0)] {
            let tables = amounts.map(|amount| {
                let ends = [amount.saturating_sub(before), amount + behind, TOP];
                let mut cents = 1 + random.within(0, 2_000) as u64;
                let mut table: Vec<Band> = Vec::new();
                for last in ends {
                    let first = table.last().map_or(0, |band| band.last + 1);
                    cents += 1 + random.within(0, 2_000) as u64;
                    table.extend((first <= last).then_some(Band { first, last, cents }));
                }
                table
            });
            hold(PriceCase::of(&mut random, &list, &tables));
        }
    }
}

/// Each table in turn, of few bands to the most, broken in every way at every place, beside two valid ones.
#[test]
fn tables_broken_at_every_place() {
    let (mut random, mut met) = (Random::new(115), Met::default());
    let list = overlap();
    for bands in [1, 2, 3, 9, 63, 64] {
        for turn in 0..3 {
            let whole = valid_tables(&mut random, amounts(&list));
            let table = valid(&mut random, bands, &amounts(&list));
            let mut all: Vec<Vec<Band>> = past_the_top(&table).into_iter().map(|(_, broken)| broken).collect();
            all.extend((0..bands).flat_map(|place| broken_at(&table, place)).map(|(_, broken)| broken));
            all.push(table);
            for table in all {
                let mut tables = whole.clone();
                tables[turn] = table;
                meet(&mut met, PriceCase::of(&mut random, &list, &tables));
            }
        }
    }
    assert_eq!(met.times(0), 18, "{met}");
    met.each(&[18], 9_000);
}

/// Tables of few bands that are broken more than once, or of any numbers: the first faulty band counts.
#[test]
fn tables_broken_more_than_once() {
    let (mut random, mut met) = (Random::new(116), Met::default());
    let list = overlap();
    for turn in 0..15_000 {
        let bands = bands(&mut random);
        let mut table = if turn % 8 == 0 {
            any_bands(&mut random, bands)
        } else {
            let whole = valid(&mut random, bands, &amounts(&list));
            broken(&mut random, whole)
        };
        if random.once_in(3) && !table.is_empty() {
            let place = random.within(0, table.len() - 1);
            table[place] = any_bands(&mut random, 1)[0];
        }
        let mut tables = valid_tables(&mut random, amounts(&list));
        tables[turn % 3] = table;
        meet(&mut met, PriceCase::of(&mut random, &list, &tables));
    }
    met.each(&[18], 12_000);
}

/// None, one, the most, one more, and many more bands than are allowed: valid but for that, or of any numbers.
#[test]
fn numbers_of_bands() {
    let (mut random, mut met) = (Random::new(117), Met::default());
    let list = overlap();
    for bands in [0, 1, 2, 62, 63, 64, 65, 66, 127, 128, 129, 256, 1_000, 65_536] {
        for place in 0..3 {
            let chained = if bands == 0 { Vec::new() } else { valid(&mut random, bands, &[15, 42]) };
            let mut short = chained.clone();
            short.iter_mut().filter(|band| band.last == TOP).for_each(|band| band.last -= 1);
            for table in [chained, short, any_bands(&mut random, bands), vec![flat(1)[0]; bands]] {
                let mut tables = valid_tables(&mut random, amounts(&list));
                tables[place] = table;
                meet(&mut met, PriceCase::of(&mut random, &list, &tables));
            }
        }
    }
    met.each(&[0], 15);
    met.each(&[18], 140);
}

/// The highest number, others past the top, the top and what is before it, in every field of every band, alone and
/// together.
#[test]
fn the_highest_numbers() {
    let (mut random, mut met) = (Random::new(118), Met::default());
    let list = overlap();
    for bands in [1, 2, 3, 5, 64] {
        let whole = valid(&mut random, bands, &[15, 42]);
        for place in 0..bands {
            for number in [u64::MAX, u64::MAX - 1, 1 << 63, TOP + 1, TOP, TOP - 1, (1 << 32) - 1] {
                for fields in 1..8 {
                    let mut table = whole.clone();
                    let Band { first, last, cents } = &mut table[place];
                    let chosen = [(first, 1), (last, 2), (cents, 4)].into_iter().filter(|(_, bit)| fields & bit != 0);
                    chosen.for_each(|(field, _)| *field = number);
                    let mut tables = [0; 3].map(|_| flat(7));
                    tables[(place + fields) % 3] = table;
                    meet(&mut met, PriceCase::of(&mut random, &list, &tables));
                }
            }
        }
    }
    met.each(&[18], 3_000);
}

/// What refuses a list, or its work slice, comes before its tables, whatever these hold.
#[test]
fn lists_that_measuring_refuses() {
    let (mut random, mut met) = (Random::new(119), Met::default());
    for turn in 0..15_000 {
        let mut list = damaged(&mut random, Size { field: 20, shots: 12 });
        if list.check().is_ok() {
            coarsen(&mut list, 20_000);
        }
        let tables = match turn % 3 {
            0 => [0; 3].map(|_| any_bands(&mut random, turn % 5)),
            1 => tables(&mut random, [5, 50, 500]),
            _ => valid_tables(&mut random, [5, 50, 500]),
        };
        meet(&mut met, PriceCase::any(&mut random, &list, &tables));
    }
    met.each(&[0, 1, 2, 6, 7, 8, 9, 10, 18], 30);
}

/// One, two or all of the tables are invalid, each by another band: volume's comes before area's, and that before the
/// one of the edge length. The details tell which one was named.
#[test]
fn several_invalid_tables() {
    let mut random = Random::new(120);
    let mut named = [0; 3];
    for turn in 0..6_000 {
        let list = made(&mut random, Size { field: 5, shots: 3 });
        let mut places = [0, 1, 2, 3, 4, 5];
        for place in 0..3 {
            places.swap(place, random.within(place, 5));
        }
        let mut tables = valid_tables(&mut random, amounts(&list));
        let invalid = |table: usize| (turn % 7 + 1) >> table & 1 == 1;
        for table in (0..3).filter(|table| invalid(*table)) {
            let bands = random.within(places[table] + 1, 10);
            tables[table] = valid(&mut random, bands, &[9]);
            tables[table][places[table]].cents = random.one_of(&[MOST_CENTS + 1, u64::MAX]);
        }
        let first = (0..3).find(|table| invalid(*table)).expect("one is invalid");
        let case = PriceCase::of(&mut random, &list, &tables);
        assert_eq!(case.answered(), [18, places[first] as u64, 0, 0, 0]);
        named[first] += 1;
        hold(case);
    }
    assert!(named.iter().all(|times| *times > 500), "{named:?}");
}

/// Four places are too few, and then nothing changes, whether the list or a table is refused or not; a longer answer
/// keeps what is behind five.
#[test]
fn answers_of_all_lengths() {
    let (mut random, mut met) = (Random::new(121), Met::default());
    let size = Size { field: 6, shots: 5 };
    for answer in (0..=8).map(Length::Fixed) {
        for turn in 0..300 {
            let mut list = if turn % 4 == 0 { damaged(&mut random, size) } else { accepted(&mut random, size) };
            if list.check().is_ok() {
                coarsen(&mut list, 3_000);
            }
            let tables =
                if turn % 2 == 0 { tables(&mut random, amounts(&list)) } else { valid_tables(&mut random, [9; 3]) };
            let lent = if turn % 3 == 0 { PriceCase::any } else { PriceCase::of };
            meet(&mut met, PriceCase { answer, ..lent(&mut random, &list, &tables) });
        }
    }
    met.each(&[0, 6, 7, 8, 9, 10, 18], 20);
}

/// Work slices of every length about the need, with valid tables and with an invalid one in each place.
#[test]
fn work_slices_of_every_length() {
    let (mut random, mut met) = (Random::new(122), Met::default());
    for _ in 0..250 {
        let list = made(&mut random, Size { field: 8, shots: 7 });
        for invalid in 0..4 {
            let mut tables = valid_tables(&mut random, amounts(&list));
            if invalid < 3 {
                let table = tables[invalid].clone();
                tables[invalid] = broken(&mut random, table);
            }
            for work in [Length::Fixed(0), Length::Fixed(1)].into_iter().chain((-3..=3).map(Length::About)) {
                let case = PriceCase::of(&mut random, &list, &tables);
                meet(&mut met, PriceCase { work, ..case });
            }
        }
    }
    met.each(&[0, 10, 18], 500);
}

/// Lists without shots have charges of 0, by tables that are valid.
#[test]
fn no_shots() {
    let (mut random, mut met) = (Random::new(123), Met::default());
    for grid in [1, 2, 4, 8] {
        for _ in 0..100 {
            let list = List { field: 8, edge: 2, grid, coords: Vec::new() };
            meet(&mut met, PriceCase::with_tables(&mut random, &list));
        }
    }
    met.each(&[0, 18], 50);
}

/// With a cent for each unit the charges are what the library measures of the same list; the inner length has no price.
#[test]
fn the_amounts_are_those_of_measuring() {
    let mut random = Random::new(124);
    let mut inner = 0;
    for _ in 0..5_000 {
        let list = made(&mut random, Size { field: 24, shots: 20 });
        let lent = heqdanu::List { field: list.field, edge: list.edge, grid: list.grid, coords: &list.coords };
        let totals = heqdanu::quote(&lent).expect("the list is accepted");
        let charges = priced(&list, &[0; 3].map(|_| flat(1)));
        assert_eq!(charges, [0, 0, totals.volume, totals.area, totals.edge], "{list:?}");
        inner += usize::from(totals.inner > 0);
    }
    assert!(inner > 1_000, "{inner} lists with inner length");
}

/// The same shots in another order and another grid have the same charges.
#[test]
fn another_order_and_grid() {
    let mut random = Random::new(125);
    let mut others = 0;
    for _ in 0..4_000 {
        let list = made(&mut random, Size { field: 24, shots: 20 });
        let mut shots: Vec<&[u16]> = list.coords.chunks_exact(3).collect();
        shots.reverse();
        shots.rotate_left(list.coords.len() / 6);
        let other = List { grid: if list.grid == 1 { list.field.min(8) } else { 1 }, coords: shots.concat(), ..list };
        if other.check().is_ok() {
            let tables = valid_tables(&mut random, amounts(&list));
            assert_eq!(priced(&other, &tables), priced(&list, &tables), "{list:?} {other:?} {tables:?}");
            others += 1;
        }
    }
    assert!(others > 2_000, "{others} lists with another order and grid");
}

/// The largest amounts, and full lists in the largest field, with tables of as many bands as are allowed.
#[test]
fn fields_of_1024() {
    if std::env::var("HEQDANU_TESTS").is_ok_and(|tests| tests == "quick") {
        return;
    }
    let mut random = Random::new(126);
    let spread = |random: &mut Random, edge: usize| -> Vec<u16> {
        (0..12_288).map(|_| random.within(0, 1024 - edge) as u16).collect()
    };
    let mut lists = vec![List { field: 1024, edge: 1024, grid: 8, coords: vec![0; 12_288] }];
    for (edge, grid) in [(1, 64), (16, 8), (16, 1), (128, 16), (512, 8)] {
        lists.push(List { field: 1024, edge, grid, coords: spread(&mut random, edge.into()) });
    }
    for list in lists {
        let tables = amounts(&list).map(|amount| valid(&mut random, MOST_BANDS, &[amount]));
        hold(PriceCase::of(&mut random, &list, &tables));
    }
    let whole = List { field: 1024, edge: 1024, grid: 1, coords: vec![0; 3] };
    let dearest = [0; 3].map(|_| flat(MOST_CENTS));
    assert_eq!(priced(&whole, &dearest), [0, 0, 10_737_418_240_000, 62_914_560_000, 122_880_000]);
}
