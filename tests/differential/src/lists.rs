//! Cases for the calls that take a list: measure, recount, index, list, credit and write.

use crate::lent::{Junk, Lent};
use crate::smallest::Case;
use crate::{hex, same_answer};
use heqdanu::raw;
use oracle::calls::{self, Calls};
use oracle::inputs::{Length, Random};
use oracle::list::List;
use oracle::{grid, shotfile};

/// The largest field that the recount is tried on, since it looks at every cell.
const RECOUNT_FIELD: u16 = 32;
/// The most steps for which credits are counted, where each cell asks the whole run of its grid cell.
const CREDIT_STEPS: usize = 10_000_000;

/// A list, the lengths of the buffers, and the seed of the junk in them.
#[derive(Clone)]
pub struct ListCase {
    pub list: List,
    pub work: Length,
    pub listing: Length,
    pub credits: Length,
    pub bytes: Length,
    pub answer: Length,
    pub seed: u64,
}

impl ListCase {
    /// A case with this list; the lengths are mostly enough, often exact, now and then short.
    pub fn any(random: &mut Random, list: List) -> ListCase {
        ListCase {
            list,
            work: Length::any(random),
            listing: Length::any(random),
            credits: Length::any(random),
            bytes: Length::any(random),
            answer: if random.once_in(20) { Length::any(random) } else { Length::About(0) },
            seed: random.number(),
        }
    }

    /// A case with this list and enough room in every buffer.
    pub fn roomy(random: &mut Random, list: List) -> ListCase {
        let (work, answer, seed) = (Length::About(5), Length::About(2), random.number());
        ListCase { list, work, listing: work, credits: work, bytes: work, answer, seed }
    }

    /// The work entries and listing bytes that the list needs; 0 where it is refused before they count.
    fn needs(&self, calls: &Calls) -> (usize, usize) {
        match self.list.check() {
            Ok(()) => (grid::need(&self.list), calls.measured().listing.len()),
            Err(_) => (0, 0),
        }
    }

    /// Holds a call that leaves the index in a work slice to what the oracle answers and leaves.
    fn indexing<const N: usize>(
        &self,
        (call, library): (&str, raw::Indexing),
        work: usize,
        oracle: impl FnOnce(&mut [u32]) -> [u64; N],
    ) -> Result<(), String> {
        let mut random = Random::new(self.seed);
        let mut work = Lent::new(&mut random, work);
        let mut answer = Lent::<u64>::new(&mut random, self.answer.places(N));
        let (mut our_work, mut our_answer) = (work.clone(), answer.clone());
        let List { field, edge, grid, coords } = &self.list;
        let (w, a) = (our_work.slice(), our_answer.slice());
        // SAFETY: each pointer comes from a slice with the length beside it, and no two of them overlap.
        let written = unsafe {
            library(
                *field,
                *edge,
                *grid,
                coords.as_ptr(),
                coords.len(),
                w.as_mut_ptr(),
                w.len(),
                a.as_mut_ptr(),
                a.len(),
            )
        };
        let expected = expect(answer.slice(), || oracle(work.slice()));
        same_answer(call, &[written.into()], &[expected])?;
        same_answer(call, our_answer.slice(), answer.slice())?;
        our_answer.same_as(&answer, call, "answer")?;
        our_work.same_as(&work, call, "work")
    }

    /// Holds a call that also fills a slice of its own, of so many places, to what the oracle answers and leaves.
    fn filling<T: Junk, const N: usize>(
        &self,
        (call, library): (&str, raw::Filling<T>),
        work: usize,
        (name, places): (&str, usize),
        oracle: impl FnOnce(&mut [u32], &mut [T]) -> [u64; N],
    ) -> Result<(), String> {
        let mut random = Random::new(self.seed);
        let mut work = Lent::new(&mut random, work);
        let mut filled = Lent::new(&mut random, places);
        let mut answer = Lent::<u64>::new(&mut random, self.answer.places(N));
        let (mut our_work, mut our_filled, mut our_answer) = (work.clone(), filled.clone(), answer.clone());
        let List { field, edge, grid, coords } = &self.list;
        let (w, f, a) = (our_work.slice(), our_filled.slice(), our_answer.slice());
        // SAFETY: each pointer comes from a slice with the length beside it, and no two of them overlap.
        let written = unsafe {
            library(
                *field,
                *edge,
                *grid,
                coords.as_ptr(),
                coords.len(),
                w.as_mut_ptr(),
                w.len(),
                f.as_mut_ptr(),
                f.len(),
                a.as_mut_ptr(),
                a.len(),
            )
        };
        let expected = expect(answer.slice(), || oracle(work.slice(), filled.slice()));
        same_answer(call, &[written.into()], &[expected])?;
        same_answer(call, our_answer.slice(), answer.slice())?;
        our_answer.same_as(&answer, call, "answer")?;
        our_work.same_as(&work, call, "work")?;
        our_filled.same_as(&filled, call, name)
    }

    /// Whether the credits take few enough steps to count, or are not counted, since the list is refused.
    fn quickly_credited(&self, work: usize, credits: usize) -> bool {
        let List { field, grid, coords, .. } = &self.list;
        if self.list.check().is_err() || work < grid::need(&self.list) || credits < coords.len() / 3 {
            return true;
        }
        let (field, grid) = (*field as usize, *grid as usize);
        let pairs = grid::need(&self.list) - grid.pow(3) - 1;
        field.pow(3) + pairs * (field / grid).pow(3) <= CREDIT_STEPS
    }

    fn write(&self) -> Result<(), String> {
        let mut random = Random::new(self.seed);
        let mut bytes = Lent::new(&mut random, self.bytes.places(shotfile::shortest(&self.list).len()));
        let mut answer = Lent::<u64>::new(&mut random, self.answer.places(3));
        let (mut our_bytes, mut our_answer) = (bytes.clone(), answer.clone());
        let List { field, edge, grid, coords } = &self.list;
        let (b, a) = (our_bytes.slice(), our_answer.slice());
        // SAFETY: each pointer comes from a slice with the length beside it, and no two of them overlap.
        let written = unsafe {
            raw::heqdanu_write(
                *field,
                *edge,
                *grid,
                coords.as_ptr(),
                coords.len(),
                b.as_mut_ptr(),
                b.len(),
                a.as_mut_ptr(),
                a.len(),
            )
        };
        let expected = expect(answer.slice(), || calls::write(&self.list, bytes.slice()));
        same_answer("write", &[written.into()], &[expected])?;
        same_answer("write", our_answer.slice(), answer.slice())?;
        our_answer.same_as(&answer, "write", "answer")?;
        our_bytes.same_as(&bytes, "write", "byte")
    }
}

/// Stores the oracle's answer where it has room; else nothing is called, as nothing may change.
pub fn expect<const N: usize>(answer: &mut [u64], call: impl FnOnce() -> [u64; N]) -> u64 {
    if answer.len() < N {
        return 0;
    }
    answer[..N].copy_from_slice(&call());
    1
}

impl Case for ListCase {
    fn run(&self) -> Result<(), String> {
        let calls = Calls::on(&self.list);
        let (work, listing) = self.needs(&calls);
        let (work, listing) = (self.work.places(work), self.listing.places(listing));
        let credits = self.credits.places(self.list.coords.len() / 3);
        self.indexing(("measure", raw::heqdanu_measure), work, |work| calls.measure(work))?;
        self.indexing(("index", raw::heqdanu_index), work, |work| calls.index(work))?;
        let list = ("list", raw::heqdanu_list as raw::Filling<u8>);
        self.filling(list, work, ("listing", listing), |work, listing| calls.list(work, listing))?;
        if self.quickly_credited(work, credits) {
            let credit = ("credit", raw::heqdanu_credit as raw::Filling<u32>);
            self.filling(credit, work, ("credit", credits), |work, credits| calls.credit(work, credits))?;
        }
        if self.list.field <= RECOUNT_FIELD || self.list.check().is_err() {
            self.indexing(("recount", raw::heqdanu_recount), work, |work| calls.measure(work))?;
        }
        self.write()
    }

    fn describe(&self) -> String {
        let List { field, edge, grid, coords } = &self.list;
        let beyond = &coords[coords.len() / 3 * 3..];
        format!(
            "field {field}, edge {edge}, grid {grid}, {} coordinates\n\
             work {:?}, listing {:?}, credits {:?}, bytes {:?}, answer {:?}\n\
             shot file: {}{}",
            coords.len(),
            self.work,
            self.listing,
            self.credits,
            self.bytes,
            self.answer,
            hex(&shotfile::shortest(&self.list)),
            if beyond.is_empty() { String::new() } else { format!("\nand the coordinates {beyond:?} after its shots") }
        )
    }

    fn smaller(&self) -> Vec<ListCase> {
        smaller_lists(&self.list).into_iter().map(|list| ListCase { list, ..self.clone() }).collect()
    }
}

/// Lists next to this one that are smaller, the smallest first.
pub fn smaller_lists(list: &List) -> Vec<List> {
    let mut lists = Vec::new();
    let shots = list.coords.len() / 3;
    let mut part = shots;
    while part > 0 {
        for start in (0..shots).step_by(part).take(200) {
            let mut coords = list.coords.clone();
            coords.drain(3 * start..3 * (start + part).min(shots));
            lists.push(List { coords, ..list.clone() });
        }
        part /= 2;
    }
    for field in [list.field / 2, list.field.saturating_sub(1)] {
        lists.push(List { field, ..list.clone() });
    }
    for edge in [list.edge / 2, list.edge.saturating_sub(1)] {
        lists.push(List { edge, ..list.clone() });
    }
    for grid in [1, list.grid / 2, list.grid.saturating_sub(1)] {
        if grid < list.grid {
            lists.push(List { grid, ..list.clone() });
        }
    }
    if shots <= 16 {
        for place in 0..list.coords.len() {
            for value in [0, list.coords[place] / 2, list.coords[place].saturating_sub(1)] {
                let mut coords = list.coords.clone();
                coords[place] = value;
                lists.push(List { coords, ..list.clone() });
            }
        }
    }
    lists.retain(|other| other != list);
    lists
}
