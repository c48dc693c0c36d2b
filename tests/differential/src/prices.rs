//! Cases for the price call.

use crate::lent::{Junk, Lent};
use crate::lists::{expect, smaller_lists};
use crate::smallest::Case;
use crate::{hex, same_answer};
use heqdanu::raw;
use oracle::calls::Calls;
use oracle::inputs::{Length, Random};
use oracle::list::List;
use oracle::price::{Band, Tables, MOST_CENTS, TOP};
use oracle::price_inputs::{self, flat};
use oracle::{grid, shotfile};

/// The tables' names, in the order of the call.
const NAMES: [&str; 3] = ["volume", "area", "edges"];

/// A list, three tables, the lengths of the work and the answer slice, and the seed of the junk in and about them.
#[derive(Clone)]
pub struct PriceCase {
    pub list: List,
    pub tables: Tables,
    pub work: Length,
    pub answer: Length,
    pub seed: u64,
}

/// The amounts of a list that have a price; zeros where it is refused.
pub fn amounts(list: &List) -> [u64; 3] {
    if list.check().is_ok() {
        Calls::on(list).amounts()
    } else {
        [0; 3]
    }
}

impl PriceCase {
    /// A case with this list and these tables, and room in both slices.
    pub fn of(random: &mut Random, list: &List, tables: &Tables) -> PriceCase {
        let (work, answer) = (Length::About(5), Length::About(2));
        PriceCase { list: list.clone(), tables: tables.clone(), work, answer, seed: random.number() }
    }

    /// A case with this list and these tables; the lengths are mostly enough, often exact, now and then short.
    pub fn any(random: &mut Random, list: &List, tables: &Tables) -> PriceCase {
        let answer = if random.once_in(20) { Length::any(random) } else { Length::About(0) };
        PriceCase { work: Length::any(random), answer, ..PriceCase::of(random, list, tables) }
    }

    /// The same with tables of all kinds, whose bands begin and end about the list's own amounts.
    pub fn with_tables(random: &mut Random, list: &List) -> PriceCase {
        let tables = price_inputs::tables(random, amounts(list));
        PriceCase::any(random, list, &tables)
    }

    /// The entries of the work slice.
    fn entries(&self) -> usize {
        self.work.places(self.list.check().map_or(0, |()| grid::need(&self.list)))
    }

    /// What the oracle answers where there is room for the answer.
    pub fn answered(&self) -> [u64; 5] {
        Calls::on(&self.list).price(&mut vec![0; self.entries()], &self.tables)
    }
}

/// A table as the library takes it.
fn told(table: &[Band]) -> Vec<heqdanu::Band> {
    table
        .iter()
        .map(|Band { first, last, cents }| heqdanu::Band { first: *first, last: *last, cents: *cents })
        .collect()
}

/// Values as they are lent to be read, with junk about them.
fn lent<T: Junk>(random: &mut Random, values: &[T]) -> Lent<T> {
    let mut lent = Lent::new(random, values.len());
    lent.slice().copy_from_slice(values);
    lent
}

/// The price call of the library on a list with these coordinates. What it must not write is lent as if it could be
/// written, so that a change of it is seen.
fn price(
    list: &List,
    coords: &mut [u16],
    work: &mut [u32],
    tables: [&mut [heqdanu::Band]; 3],
    answer: &mut [u64],
) -> u8 {
    let [volume, area, edges] = tables;
    // SAFETY: each pointer comes from a slice with the length beside it, and no two of them overlap.
    unsafe {
        raw::heqdanu_price(
            list.field,
            list.edge,
            list.grid,
            coords.as_mut_ptr(),
            coords.len(),
            work.as_mut_ptr(),
            work.len(),
            volume.as_mut_ptr(),
            volume.len(),
            area.as_mut_ptr(),
            area.len(),
            edges.as_mut_ptr(),
            edges.len(),
            answer.as_mut_ptr(),
            answer.len(),
        )
    }
}

/// What the library answers for a list that is accepted, with as many work entries as it needs.
pub fn priced(list: &List, tables: &Tables) -> [u64; 5] {
    let mut tables = tables.each_ref().map(|table| told(table));
    let (mut coords, mut work, mut answer) = (list.coords.clone(), vec![0; grid::need(list)], [0; 5]);
    price(list, &mut coords, &mut work, tables.each_mut().map(|table| &mut table[..]), &mut answer);
    answer
}

impl Case for PriceCase {
    fn run(&self) -> Result<(), String> {
        let mut random = Random::new(self.seed);
        let mut work = Lent::<u32>::new(&mut random, self.entries());
        let mut answer = Lent::<u64>::new(&mut random, self.answer.places(5));
        let coords = lent(&mut random, &self.list.coords);
        let tables = self.tables.each_ref().map(|table| lent(&mut random, &told(table)));
        let (mut our_work, mut our_answer) = (work.clone(), answer.clone());
        let (mut our_coords, mut our_tables) = (coords.clone(), tables.clone());
        let bands = our_tables.each_mut().map(|table| table.slice());
        let written = price(&self.list, our_coords.slice(), our_work.slice(), bands, our_answer.slice());
        let calls = Calls::on(&self.list);
        let expected = expect(answer.slice(), || calls.price(work.slice(), &self.tables));
        same_answer("price", &[written.into()], &[expected])?;
        same_answer("price", our_answer.slice(), answer.slice())?;
        our_answer.same_as(&answer, "price", "answer")?;
        our_work.same_as(&work, "price", "work")?;
        our_coords.same_as(&coords, "price", "coordinate")?;
        let mut both = our_tables.iter().zip(&tables).zip(NAMES);
        both.try_for_each(|((ours, table), name)| ours.same_as(table, "price", name))
    }

    fn describe(&self) -> String {
        let List { field, edge, grid, coords } = &self.list;
        let band = |Band { first, last, cents }: &Band| format!("{first} to {last} at {cents}");
        let table = |table: &[Band]| table.iter().map(band).collect::<Vec<String>>().join(", ");
        let tables = [0, 1, 2].map(|place| format!("; {}: {}", NAMES[place], table(&self.tables[place]))).concat();
        format!(
            "price: field {field}, edge {edge}, grid {grid}, {} coordinates, work {:?}, answer {:?}\n\
             shot file: {}{tables}",
            coords.len(),
            self.work,
            self.answer,
            hex(&shotfile::shortest(&self.list)),
        )
    }

    fn smaller(&self) -> Vec<PriceCase> {
        let with_table = |place: usize, table: Vec<Band>| {
            let mut case = self.clone();
            case.tables[place] = table;
            case
        };
        let mut cases = Vec::new();
        for place in 0..3 {
            cases.extend(smaller_tables(&self.tables[place]).into_iter().map(|table| with_table(place, table)));
        }
        let lists = smaller_lists(&self.list).into_iter();
        cases.extend(lists.map(|list| PriceCase { list, ..self.clone() }));
        cases
    }
}

/// Tables next to this one that are smaller, the smallest first: none and of one band, with some bands left out or put
/// together, and with smaller numbers.
fn smaller_tables(table: &[Band]) -> Vec<Vec<Band>> {
    let size = |table: &[Band]| -> (usize, u128) {
        (table.len(), table.iter().flat_map(|band| [band.first, band.last, band.cents]).map(u128::from).sum())
    };
    let mut tables = vec![Vec::new(), flat(0), flat(1)];
    let mut part = table.len();
    while part > 0 {
        for start in (0..table.len()).step_by(part) {
            let end = (start + part).min(table.len());
            tables.push([&table[..start], &table[end..]].concat());
            let joined = Band { last: table[end - 1].last, ..table[start] };
            tables.push([&table[..start], &[joined], &table[end..]].concat());
        }
        part /= 2;
    }
    if table.len() <= 8 {
        (0..table.len()).for_each(|place| tables.extend(smaller_numbers(table, place)));
    }
    tables.retain(|other| size(other) < size(table));
    tables
}

/// The table with a smaller number in one band, or with an earlier end of it and start of the next.
fn smaller_numbers(table: &[Band], place: usize) -> Vec<Vec<Band>> {
    let with = |band: Band| [&table[..place], &[band], &table[place + 1..]].concat();
    let own = table[place];
    let mut tables = Vec::new();
    tables.extend(less(own.cents).map(|cents| with(Band { cents, ..own })));
    tables.extend(less(own.first).map(|first| with(Band { first, ..own })));
    for last in less(own.last) {
        let mut shorter = with(Band { last, ..own });
        tables.push(shorter.clone());
        if place + 1 < table.len() {
            shorter[place + 1].first = last + 1;
            tables.push(shorter);
        }
    }
    tables
}

/// Numbers that are smaller than a number: some by which a table is valid or not, and then by large and small steps.
fn less(number: u64) -> impl Iterator<Item = u64> {
    let limits = [0, 1, MOST_CENTS + 1, TOP, TOP + 1].into_iter();
    let steps = (1..64).step_by(4).map(move |shift| number.saturating_sub((number >> shift).max(1)));
    limits.chain(steps).filter(move |other| *other < number)
}
