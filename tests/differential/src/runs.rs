//! Cases for the cover test of a run.

use crate::lent::Lent;
use crate::lists::expect;
use crate::smallest::Case;
use crate::{hex, same_answer};
use heqdanu::raw;
use oracle::inputs::{self, Length, Random};
use oracle::list::List;
use oracle::{calls, shotfile};

/// A list, a run of its shots or of any numbers, a unit cell, the length of the answer slice, and the seed of the junk
/// in it.
#[derive(Clone)]
pub struct RunCase {
    pub list: List,
    pub run: Vec<u32>,
    pub cell: [u16; 3],
    pub answer: Length,
    pub seed: u64,
}

impl RunCase {
    /// A case with this list, run and cell; the answer slice is mostly of the two places that are needed.
    pub fn of(random: &mut Random, list: &List, run: Vec<u32>, cell: [u16; 3]) -> RunCase {
        let answer = if random.once_in(20) { Length::any(random) } else { Length::About(0) };
        RunCase { list: list.clone(), run, cell, answer, seed: random.number() }
    }

    /// A case with this list: a run of up to so many numbers, and a cell about one of the shots, mostly.
    pub fn any(random: &mut Random, list: &List, most: usize) -> RunCase {
        let (run, cell) = (inputs::run(random, list, most), inputs::cell(random, list));
        RunCase::of(random, list, run, cell)
    }
}

impl Case for RunCase {
    fn run(&self) -> Result<(), String> {
        let mut answer = Lent::<u64>::new(&mut Random::new(self.seed), self.answer.places(2));
        let mut our_answer = answer.clone();
        let (coords, run, [i, j, k]) = (self.list.coords.clone(), self.run.clone(), self.cell);
        let a = our_answer.slice();
        // SAFETY: each pointer comes from a slice with the length beside it, and no two of them overlap.
        let written = unsafe {
            raw::heqdanu_covers(
                self.list.edge,
                coords.as_ptr(),
                coords.len(),
                run.as_ptr(),
                run.len(),
                i,
                j,
                k,
                a.as_mut_ptr(),
                a.len(),
            )
        };
        let expected = expect(answer.slice(), || calls::covers(&self.list, &self.run, self.cell));
        same_answer("covers", &[written.into()], &[expected])?;
        same_answer("covers", our_answer.slice(), answer.slice())?;
        our_answer.same_as(&answer, "covers", "answer")?;
        if (&coords, &run) != (&self.list.coords, &self.run) {
            return Err("covers: the coordinates or the run changed".to_string());
        }
        Ok(())
    }

    fn describe(&self) -> String {
        let RunCase { list, run, cell, answer, .. } = self;
        let (edge, beyond, file) = (list.edge, list.coords.len() % 3, hex(&shotfile::shortest(list)));
        format!(
            "edge {edge}, {beyond} coordinates after the last shot, answer {answer:?}\n\
             shot file: {file}; run {run:?}, cell {cell:?}"
        )
    }

    fn smaller(&self) -> Vec<RunCase> {
        let without = |place: usize| {
            let mut case = self.clone();
            case.run.remove(place);
            case
        };
        let mut cases: Vec<RunCase> = (0..self.run.len()).map(without).collect();
        let settings = List { field: 1, grid: 1, ..self.list.clone() };
        cases.push(RunCase { list: settings, ..self.clone() });
        for shots in [0, self.list.coords.len() / 6, (self.list.coords.len() / 3).saturating_sub(1)] {
            if 3 * shots < self.list.coords.len() {
                let coords = self.list.coords[..3 * shots].to_vec();
                cases.push(RunCase { list: List { coords, ..self.list.clone() }, ..self.clone() });
            }
        }
        for place in 0..self.run.len() {
            for number in [0, self.run[place] / 2] {
                let mut case = self.clone();
                case.run[place] = number;
                cases.push(case);
            }
        }
        cases.retain(|case| case.run != self.run || case.list != self.list);
        cases
    }
}
