//! Price tables from a seed: valid ones, with bands that begin and end about given amounts, broken ones, and any bands.

use crate::inputs::Random;
use crate::price::{Band, Tables, MOST_BANDS, MOST_CENTS, TOP};
use std::collections::BTreeSet;

/// The table of one band, at one rate.
pub fn flat(cents: u64) -> Vec<Band> {
    vec![Band { first: 0, last: TOP, cents }]
}

/// Bands without gap or overlap from 0 on, with these ends, which rise; the rates are drawn by lot, each other than the
/// one before it.
pub fn chain(random: &mut Random, ends: impl IntoIterator<Item = u64>) -> Vec<Band> {
    let mut table: Vec<Band> = Vec::new();
    for last in ends {
        let (first, before) = table.last().map_or((0, u64::MAX), |band| (band.last + 1, band.cents));
        let mut cents = rate(random);
        while cents == before {
            cents = rate(random);
        }
        table.push(Band { first, last, cents });
    }
    table
}

/// A rate that is allowed: often the least or the most.
fn rate(random: &mut Random) -> u64 {
    let any = random.within(0, MOST_CENTS as usize) as u64;
    random.one_of(&[0, 1, MOST_CENTS - 1, MOST_CENTS, any, any, any, any])
}

/// An end of a band that is not the last: at one of the amounts, or right before or behind it, small, or anywhere up to
/// the top.
fn end(random: &mut Random, amounts: &[u64]) -> u64 {
    let about = if amounts.is_empty() { 0 } else { random.one_of(amounts) };
    let end = match random.within(0, 9) {
        0..=2 => about,
        3..=5 => about.saturating_sub(1),
        6 => about + 1,
        7 => random.within(0, 200) as u64,
        8 => random.number() >> random.within(24, 63),
        _ => TOP - 1 - random.within(0, 3) as u64,
    };
    end.min(TOP - 1)
}

/// A valid table of so many bands, or, with more than 64, one that nothing else is wrong with. Its bands begin and end
/// about these amounts.
pub fn valid(random: &mut Random, bands: usize, amounts: &[u64]) -> Vec<Band> {
    let mut ends = BTreeSet::from([TOP]);
    while ends.len() < bands {
        let mut end = end(random, amounts);
        while ends.contains(&end) && random.once_in(2) {
            end = random.within(0, 2 * bands) as u64;
        }
        ends.insert(end);
    }
    chain(random, ends)
}

/// A number of bands that is allowed: often few, often the most.
pub fn bands(random: &mut Random) -> usize {
    let any = random.within(1, MOST_BANDS);
    random.one_of(&[1, 2, 3, 4, any, any, MOST_BANDS - 1, MOST_BANDS])
}

/// Each way to break a valid table at one of its bands, with what it is.
pub fn broken_at(table: &[Band], place: usize) -> Vec<(&'static str, Vec<Band>)> {
    let own = table[place];
    let mut ways = broken_numbers(own, place, place + 1 == table.len());
    ways.retain(|(_, band)| *band != own);
    let mut tables: Vec<(&str, Vec<Band>)> = Vec::new();
    for (way, band) in ways {
        let mut other = table.to_vec();
        other[place] = band;
        tables.push((way, other));
    }
    let mut without = table.to_vec();
    without.remove(place);
    tables.push(("the band is left out", without));
    tables.push(("the table ends before the band", table[..place].to_vec()));
    let mut twice = table.to_vec();
    twice.insert(place, own);
    tables.push(("the band stands twice", twice));
    let wrapping = [Band { last: u64::MAX, ..own }, Band { first: 0, last: TOP, ..own }];
    tables.push(("the highest end, and behind it all amounts", [&table[..place], &wrapping].concat()));
    if place > 0 {
        let empty = Band { last: own.first.wrapping_sub(1), ..own };
        tables.push(("an empty band before the band", [&table[..place], &[empty], &table[place..]].concat()));
        let mut exchanged = table.to_vec();
        exchanged.swap(place - 1, place);
        tables.push(("the band stands before the one before it", exchanged));
    }
    tables
}

/// A band of a valid table with other numbers, each of which makes it, or the one behind it, a faulty one.
fn broken_numbers(own: Band, place: usize, last: bool) -> Vec<(&'static str, Band)> {
    let Band { first: from, last: to, .. } = own;
    let starting = |first| Band { first, ..own };
    let ending = |last| Band { last, ..own };
    let costing = |cents| Band { cents, ..own };
    let mut ways = vec![
        ("a gap of one before the band", starting(from + 1)),
        ("a start 2^32 too high", starting(from + (1 << 32))),
        ("a start past the top", starting(TOP + 1)),
        ("the highest start", starting(u64::MAX)),
        ("an end one too high", ending(to + 1)),
        ("an end 2^32 too high", ending(to + (1 << 32))),
        ("an end past the top", ending(TOP + 1)),
        ("the highest end", ending(u64::MAX)),
        ("a start and an end past all others", Band { first: u64::MAX, last: u64::MAX, ..own }),
        ("a rate of one cent too many", costing(MOST_CENTS + 1)),
        ("a rate 2^32 too high", costing(own.cents + (1 << 32))),
        ("the highest rate", costing(u64::MAX)),
        ("all numbers the highest", Band { first: u64::MAX, last: u64::MAX, cents: u64::MAX }),
    ];
    if place > 0 {
        ways.push(("an overlap of one before the band", starting(from.wrapping_sub(1))));
        ways.push(("a start at 0", starting(0)));
        ways.push(("an end right before the start", ending(from.wrapping_sub(1))));
        ways.push(("an end at 0", ending(0)));
    }
    // An end one too low leaves a gap, the last band short of the top, or an empty band.
    if to > 0 {
        ways.push(("an end one too low", ending(to - 1)));
    }
    if !last {
        ways.push(("an end at the top", ending(TOP)));
    }
    ways
}

/// A valid table with more behind the band that reaches the top, with what it is.
pub fn past_the_top(table: &[Band]) -> Vec<(&'static str, Vec<Band>)> {
    let band = |first, last| Band { first, last, cents: 1 };
    [
        ("a band of one amount past the top", band(TOP + 1, TOP + 1)),
        ("a band past the top to the highest amount", band(TOP + 1, u64::MAX)),
        ("a band from past the top back to it", band(TOP + 1, TOP)),
        ("the top once more", band(TOP, TOP)),
        ("a band from 0", band(0, TOP)),
        ("a band from the highest amount", band(u64::MAX, u64::MAX)),
        ("a band of zeros", band(0, 0)),
    ]
    .map(|(way, band)| (way, [table, &[band]].concat()))
    .to_vec()
}

/// A valid table that is broken in one way at one place, or in another at another too.
pub fn broken(random: &mut Random, mut table: Vec<Band>) -> Vec<Band> {
    let places = table.len();
    for _ in 0..random.within(1, 2) {
        let place = random.within(0, places - 1);
        let (_, other) = if random.once_in(20) {
            random.one_of(&past_the_top(&table))
        } else if place < table.len() && sound(&table[place]) {
            random.one_of(&broken_at(&table, place))
        } else {
            continue;
        };
        table = other;
    }
    table
}

/// Whether a band's numbers leave room to break it by steps.
fn sound(band: &Band) -> bool {
    band.first <= band.last && band.last <= TOP && band.cents <= MOST_CENTS
}

/// So many bands of any numbers: any 64 bits, small, about the top, about the most cents, the highest.
pub fn any_bands(random: &mut Random, bands: usize) -> Vec<Band> {
    let mut number = || {
        let any = random.number();
        let small = random.within(0, 3) as u64;
        random.one_of(&[any, any >> 24, small, small, TOP - 1 + small, MOST_CENTS - 1 + small, u64::MAX - small])
    };
    (0..bands).map(|_| Band { first: number(), last: number(), cents: number() }).collect()
}

/// A table for these amounts: mostly valid, else broken, of too many bands, empty or of any bands.
pub fn table(random: &mut Random, amounts: &[u64]) -> Vec<Band> {
    let bands = bands(random);
    match random.within(0, 23) {
        0 => Vec::new(),
        1 => any_bands(random, bands),
        2 => {
            let more = random.one_of(&[1, 2, 64, 200]);
            valid(random, MOST_BANDS + more, amounts)
        }
        3..=5 => {
            let whole = valid(random, bands, amounts);
            broken(random, whole)
        }
        _ => valid(random, bands, amounts),
    }
}

/// The three tables of a shop for its three amounts.
pub fn tables(random: &mut Random, amounts: [u64; 3]) -> Tables {
    amounts.map(|amount| table(random, &[amount]))
}
