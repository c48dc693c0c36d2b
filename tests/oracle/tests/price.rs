//! Price bands: each rule by example, the order of refusals and what they leave, and what holds of every table.

use oracle::calls::{self, Calls};
use oracle::inputs::{accepted, Random, Size};
use oracle::list::List;
use oracle::met::Met;
use oracle::price::{charge, check, Band, Tables, MOST_BANDS, MOST_CENTS, TOP};
use oracle::price_inputs::{any_bands, bands, broken_at, chain, flat, past_the_top, table, tables, valid};

fn band(first: u64, last: u64, cents: u64) -> Band {
    Band { first, last, cents }
}

/// The detail by which a table is refused; none if it is valid.
fn detail(table: &[Band]) -> Option<u64> {
    check(table).err().map(|refusal| {
        assert_eq!(refusal.number, 18, "{table:?}");
        refusal.detail
    })
}

/// Bands of one amount each, 0, 1, 2 and so on; the last of them goes to the top.
fn single_amounts(bands: u64) -> Vec<Band> {
    (0..bands).map(|n| band(n, if n + 1 == bands { TOP } else { n }, n)).collect()
}

/// Two cubes that overlap in a unit cell: volume 15, area 42, edge length 42, inner length 6.
fn overlap() -> List {
    List { field: 8, edge: 2, grid: 2, coords: vec![0, 0, 0, 1, 1, 1] }
}

#[test]
fn a_table_of_three_bands() {
    assert_eq!(TOP, 1 << 40);
    let table = [band(0, 9, 5), band(10, 999, 3), band(1_000, TOP, 2)];
    assert_eq!(detail(&table), None);
    // The whole amount at one rate, at both ends of each band and beside them.
    for (amount, cents) in
        [(0, 0), (1, 5), (9, 45), (10, 30), (11, 33), (999, 2_997), (1_000, 2_000), (1_001, 2_002), (TOP, 2 * TOP)]
    {
        assert_eq!(charge(&table, amount), cents, "{amount}");
    }
}

#[test]
fn the_first_band_starts_at_0() {
    assert_eq!(detail(&[band(0, TOP, 1)]), None);
    for first in [1, 2, TOP, TOP + 1, 1 << 32, u64::MAX] {
        assert_eq!(detail(&[band(first, TOP, 1)]), Some(0), "{first}");
    }
}

#[test]
fn a_later_band_starts_one_past_the_end_before_it() {
    for first in [0, 1, 9, 10, 12, 1 << 33, TOP, u64::MAX] {
        assert_eq!(detail(&[band(0, 10, 1), band(first, TOP, 2)]), Some(1), "{first}");
    }
    assert_eq!(detail(&[band(0, 10, 1), band(11, TOP, 2)]), None);
    assert_eq!(detail(&[band(0, 0, 1), band(1, 1, 2), band(2, TOP, 3)]), None);
    assert_eq!(detail(&[band(0, 0, 1), band(1, 1, 2), band(1, TOP, 3)]), Some(2));
    assert_eq!(detail(&[band(0, TOP - 1, 1), band(TOP, TOP, 2)]), None);
}

#[test]
fn a_band_does_not_end_before_its_start() {
    assert_eq!(detail(&[band(0, 10, 1), band(11, 10, 2), band(11, TOP, 3)]), Some(1));
    assert_eq!(detail(&[band(0, 10, 1), band(11, 0, 2)]), Some(1));
    assert_eq!(detail(&[band(0, 10, 1), band(11, 11, 2), band(12, TOP, 3)]), None);
}

#[test]
fn a_band_does_not_end_past_the_top() {
    for last in [TOP + 1, TOP + (1 << 32), 2 * TOP, u64::MAX - 1, u64::MAX] {
        assert_eq!(detail(&[band(0, last, 1)]), Some(0), "{last}");
        assert_eq!(detail(&[band(0, 10, 1), band(11, last, 1)]), Some(1), "{last}");
        // The band behind it goes on where it ends, though that wraps.
        assert_eq!(detail(&[band(0, last, 1), band(last.wrapping_add(1), TOP, 1)]), Some(0), "{last}");
    }
}

#[test]
fn a_rate_is_at_most_10_000_cents() {
    assert_eq!(detail(&flat(10_000)), None);
    assert_eq!(charge(&flat(10_000), TOP), 10_995_116_277_760_000);
    for cents in [10_001, 1 << 32, u64::MAX] {
        assert_eq!(detail(&flat(cents)), Some(0), "{cents}");
        assert_eq!(detail(&[band(0, 5, 10_000), band(6, TOP, cents)]), Some(1), "{cents}");
    }
    assert_eq!((detail(&flat(0)), charge(&flat(0), 77)), (None, 0));
}

#[test]
fn a_missing_top() {
    assert_eq!(detail(&[]), Some(0));
    for last in [0, 10, TOP - 1] {
        assert_eq!(detail(&[band(0, last, 1)]), Some(1), "{last}");
    }
    assert_eq!(detail(&[band(0, 10, 1), band(11, TOP - 1, 1)]), Some(2));
}

#[test]
fn a_band_behind_the_top() {
    for (way, table) in past_the_top(&[band(0, 10, 1), band(11, TOP, 1)]) {
        assert_eq!(detail(&table), Some(2), "{way}");
    }
    for (way, table) in past_the_top(&single_amounts(64)) {
        assert_eq!(detail(&table), Some(64), "{way}");
    }
}

#[test]
fn as_many_bands_as_are_allowed() {
    assert_eq!(MOST_BANDS, 64);
    for bands in 1..=64 {
        assert_eq!(detail(&single_amounts(bands)), None, "{bands}");
    }
    // Without the top, 64 good bands have the detail of more than 64, whatever those hold.
    let mut short = single_amounts(64);
    short[63].last = TOP - 1;
    assert_eq!(detail(&short), Some(64));
    for bands in [65, 66, 100, 1_000] {
        assert_eq!(detail(&single_amounts(bands)), Some(64), "{bands}");
        assert_eq!(detail(&vec![band(u64::MAX, 0, u64::MAX); bands as usize]), Some(64), "{bands}");
        assert_eq!(detail(&vec![band(0, TOP, 1); bands as usize]), Some(64), "{bands}");
    }
    assert_eq!(detail(&vec![band(0, TOP, 1); 64]), Some(1));
}

#[test]
fn the_highest_numbers() {
    let most = u64::MAX;
    assert_eq!(detail(&[band(most, most, most)]), Some(0));
    assert_eq!(detail(&[band(0, most, 0), band(0, TOP, 0)]), Some(0));
    assert_eq!(detail(&[band(0, 5, 0), band(6, most, 0), band(0, TOP, 0)]), Some(1));
    assert_eq!(detail(&[band(0, 5, 0), band(6, TOP, most)]), Some(1));
}

#[test]
fn the_first_faulty_band_counts() {
    let mut table = single_amounts(10);
    table[7].cents = 10_001;
    assert_eq!(detail(&table), Some(7));
    table[4].first = 3;
    assert_eq!(detail(&table), Some(4));
    table[9].last = 0;
    table[2].last = 9;
    // Band 2 is good by itself; the one behind it starts wrong.
    assert_eq!(detail(&table), Some(3));
    table[2].last = 1;
    assert_eq!(detail(&table), Some(2));
}

/// Every way to break a table at each of its bands is refused, by that band or the next, or by the one before it where
/// the two are exchanged.
#[test]
fn every_way_to_break_a_table() {
    let mut random = Random::new(41);
    let mut ways = std::collections::BTreeMap::new();
    for bands in [1, 2, 3, 10, 63, 64] {
        let table = valid(&mut random, bands, &[15, 42]);
        for place in 0..bands {
            for (way, broken) in broken_at(&table, place) {
                let detail = detail(&broken).unwrap_or_else(|| panic!("{way}: {broken:?}"));
                let own = place as u64;
                let near = [own.saturating_sub(1), own, own + 1].contains(&detail);
                assert!(near || broken.len() > MOST_BANDS, "{way}: {detail} at {place} of {bands}");
                *ways.entry(way).or_insert(0) += 1;
            }
        }
    }
    assert!(ways.len() > 20 && ways.values().all(|times| *times >= 100), "{ways:?}");
}

/// The request's words once more: a table of at most 64 bands is valid exactly if its bands stand in order, none is
/// empty, no rate is too high, and every amount to the top lies in exactly one band, and no other amount in any. Of the
/// amounts those at the ends of bands and beside them decide.
fn valid_by_amounts(table: &[Band]) -> bool {
    let beside = |end: u64| [end.saturating_sub(1), end, end.saturating_add(1)];
    let ends = table.iter().flat_map(|band| [band.first, band.last]).chain([0, TOP, u64::MAX]);
    let once = ends.flat_map(beside).all(|amount| {
        let holding = table.iter().filter(|band| band.first <= amount && amount <= band.last).count();
        holding == usize::from(amount <= TOP)
    });
    let order = table.windows(2).all(|two| two[0].first < two[1].first);
    let own = table.iter().all(|band| band.first <= band.last && band.cents <= MOST_CENTS);
    once && order && own && table.len() <= MOST_BANDS
}

#[test]
fn valid_tables_hold_every_amount_once() {
    let mut random = Random::new(42);
    let mut met = Met::default();
    for turn in 0..60_000 {
        let amount = random.within(0, 1 << (turn % 33)) as u64;
        let table = table(&mut random, &[amount]);
        let answer = check(&table);
        assert_eq!(answer.is_ok(), valid_by_amounts(&table), "{table:?}");
        met.count(answer.map_or_else(|refusal| refusal.number, |()| 0));
        if answer.is_err() {
            continue;
        }
        let width: u64 = table.iter().map(|band| band.last - band.first + 1).sum();
        assert_eq!(width, TOP + 1, "{table:?}");
        let any = random.number() % (TOP + 1);
        for amount in [amount, amount + 1, amount.saturating_sub(1), any, 0, TOP] {
            let rates: Vec<u64> = table.iter().filter(|band| band.holds(amount)).map(|band| band.cents).collect();
            assert_eq!([charge(&table, amount)], [amount * rates[0]], "{amount} by {table:?}");
            assert_eq!(rates.len(), 1, "{amount} by {table:?}");
        }
    }
    met.each(&[0, 18], 10_000);
}

/// Bands of few amounts, in all orders and with gaps and overlaps, are valid exactly if they hold every amount once.
#[test]
fn small_tables_of_all_kinds() {
    let ends = [0, 1, 2, TOP - 1, TOP, TOP + 1, u64::MAX];
    let all: Vec<Band> = ends.iter().flat_map(|first| ends.map(|last| band(*first, last, 3))).collect();
    let mut good = 0;
    for one in &all {
        for two in &all {
            for three in &all {
                for table in [&[*one][..], &[*one, *two], &[*one, *two, *three]] {
                    assert_eq!(check(table).is_ok(), valid_by_amounts(table), "{table:?}");
                    good += usize::from(check(table).is_ok());
                }
            }
        }
    }
    // One band for each of two more behind it, three tables of two bands for each third, and three of three.
    assert_eq!(good, 49 * 49 + 3 * 49 + 3);
}

#[test]
fn the_price_of_two_cubes() {
    let tables: Tables = [
        vec![band(0, 14, 9), band(15, TOP, 7)],
        vec![band(0, 42, 11), band(43, TOP, 5)],
        vec![band(0, 40, 2), band(41, 41, 4), band(42, 42, 10_000), band(43, TOP, 6)],
    ];
    let mut work = vec![5; 30];
    assert_eq!(calls::price(&overlap(), &mut work, &tables), [0, 0, 105, 462, 420_000]);
    let mut index = vec![5; 30];
    calls::index(&overlap(), &mut index);
    assert_eq!(work, index);
    let none = List { coords: Vec::new(), ..overlap() };
    assert_eq!(calls::price(&none, &mut work, &tables), [0; 5]);
}

/// With one band of a cent the charges are the totals; the inner length has no price.
#[test]
fn a_cent_for_each_unit() {
    let tables = [0; 3].map(|_| flat(1));
    assert_eq!(calls::price(&overlap(), &mut [0; 30], &tables), [0, 0, 15, 42, 42]);
}

#[test]
fn eighteen_leaves_the_finished_index() {
    let mut index = vec![5; 30];
    calls::index(&overlap(), &mut index);
    let bad = |detail: u64| [single_amounts(detail), vec![band(7, 7, 7)]].concat();
    // Each of these tables is refused by another detail: volume's counts before area's, and that before the edge's.
    for (details, answered) in [
        ([Some(1), Some(2), Some(3)], 1),
        ([Some(3), None, Some(1)], 3),
        ([None, Some(2), Some(1)], 2),
        ([None, Some(3), None], 3),
        ([None, None, Some(2)], 2),
    ] {
        let tables = details.map(|detail| detail.map_or_else(|| flat(3), bad));
        let mut work = vec![5; 30];
        assert_eq!(calls::price(&overlap(), &mut work, &tables), [18, answered, 0, 0, 0], "{details:?}");
        assert_eq!(work, index);
    }
}

#[test]
fn eighteen_comes_last() {
    let list = |field, edge, grid, coords: &[u16]| List { field, edge, grid, coords: coords.to_vec() };
    let two = [6, 6, 6, 7, 6, 6];
    for (list, number, detail) in [
        (list(0, 9, 3, &vec![9; 12_289]), 1, 0),
        (list(0, 9, 3, &vec![9; 12_291]), 2, 0),
        (list(0, 9, 3, &two), 6, 0),
        (list(8, 9, 3, &two), 7, 0),
        (list(8, 2, 3, &two), 8, 0),
        (list(8, 2, 2, &two), 9, 1),
        (list(8, 2, 2, &[6; 6]), 10, 11),
    ] {
        let mut work = vec![5; 10];
        let tables = [Vec::new(), flat(10_001), Vec::new()];
        assert_eq!(calls::price(&list, &mut work, &tables), [number, detail, 0, 0, 0]);
        assert_eq!(work, vec![5; 10]);
    }
    assert_eq!(calls::price(&list(8, 2, 2, &[6; 6]), &mut [0; 11], &[const { Vec::new() }; 3]), [18, 0, 0, 0, 0]);
}

/// The generated tables have bands that begin and that end at the list's own amounts, and both sides have other rates.
#[test]
fn generated_tables_meet_the_amounts() {
    let mut random = Random::new(43);
    let (mut firsts, mut lasts, mut met) = (0, 0, Met::default());
    for _ in 0..3_000 {
        let list = accepted(&mut random, Size { field: 9, shots: 8 });
        let calls = Calls::on(&list);
        let amounts = calls.amounts();
        let tables = tables(&mut random, amounts);
        met.count(calls.price(&mut vec![0; oracle::grid::need(&list)], &tables)[0]);
        for (table, amount) in tables.iter().zip(amounts).filter(|(table, _)| check(table).is_ok()) {
            firsts += usize::from(table[1..].iter().any(|band| band.first == amount));
            lasts += usize::from(table[..table.len() - 1].iter().any(|band| band.last == amount));
            assert!(table.windows(2).all(|two| two[0].cents != two[1].cents));
        }
    }
    met.each(&[0, 18], 700);
    assert!(firsts > 2_000 && lasts > 2_000, "{firsts} amounts at a first, {lasts} at a last");
}

/// The generators give what they say: so many bands, and chains without gap or overlap.
#[test]
fn generated_tables() {
    let mut random = Random::new(44);
    for count in [1, 2, 64, 65, 300] {
        let table = valid(&mut random, count, &[]);
        assert_eq!((table.len(), table[count - 1].last), (count, TOP));
        assert_eq!(detail(&table), (count > MOST_BANDS).then_some(64));
        assert_eq!(any_bands(&mut random, count).len(), count);
    }
    assert!((0..1_000).map(|_| bands(&mut random)).all(|bands| (1..=MOST_BANDS).contains(&bands)));
    let two = chain(&mut random, [9, TOP]);
    assert_eq!([two[0].first, two[0].last, two[1].first, two[1].last], [0, 9, 10, TOP]);
}
