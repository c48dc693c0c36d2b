//! Price bands that a shop edits: which tables are valid, and what an amount costs.

use crate::list::{refusal, Refusal};

/// The amount at which every table ends.
pub const TOP: u64 = 1_099_511_627_776;
/// The most bands of a table.
pub const MOST_BANDS: usize = 64;
/// The most cents for each unit.
pub const MOST_CENTS: u64 = 10_000;

/// A band of amounts, both ends included, and its cents for each unit. Any numbers may stand here.
#[derive(Clone, Copy, Debug, PartialEq, Eq)]
pub struct Band {
    pub first: u64,
    pub last: u64,
    pub cents: u64,
}

impl Band {
    /// Whether an amount lies in the band.
    pub fn holds(&self, amount: u64) -> bool {
        (self.first..=self.last).contains(&amount)
    }
}

/// A shop's three tables: volume's, area's and that of the outer edge length.
pub type Tables = [Vec<Band>; 3];

/// Where a band must start: at 0 if nothing is before it, else one past the end before it. 128 bits do not wrap.
fn start(before: &[Band]) -> u128 {
    before.last().map_or(0, |band| u128::from(band.last) + 1)
}

/// The length of the longest beginning of a table whose bands all start right, end neither before their start nor past
/// the top, and have no rate that is too high.
fn good_bands(table: &[Band]) -> usize {
    let good = |bands: &[Band]| {
        let (band, before) = bands.split_last().expect("a beginning of at least one band");
        let amounts = u128::from(band.first)..=u128::from(band.last);
        *amounts.start() == start(before) && !amounts.is_empty() && band.last <= TOP && band.cents <= MOST_CENTS
    };
    (1..=table.len()).take_while(|length| good(&table[..*length])).count()
}

/// Refusal 18 of one table. The first faulty band, from 0, has the number of the good ones before it; where all are
/// good, that is the number of bands, and the table is refused if they do not reach the top.
pub fn check(table: &[Band]) -> Result<(), Refusal> {
    if table.len() > MOST_BANDS {
        return Err(refusal(18, MOST_BANDS));
    }
    let good = good_bands(table);
    if good < table.len() || start(table) != u128::from(TOP) + 1 {
        return Err(refusal(18, good));
    }
    Ok(())
}

/// The refusal of the first invalid table: volume's, then area's, then that of the edge length.
pub fn check_all(tables: &Tables) -> Result<(), Refusal> {
    tables.iter().try_for_each(|table| check(table))
}

/// The charge for an amount up to the top by a valid table: the whole amount at the rate of the one band that holds it.
pub fn charge(table: &[Band], amount: u64) -> u64 {
    let holding: Vec<&Band> = table.iter().filter(|band| band.holds(amount)).collect();
    assert_eq!(holding.len(), 1, "{amount} lies in {} bands of {table:?}", holding.len());
    amount * holding[0].cents
}
