//! Cases for the corners at one x.

use crate::lent::Lent;
use crate::lists::expect;
use crate::smallest::Case;
use crate::{hex, same_answer};
use heqdanu::{raw, RECORD};
use oracle::calls;
use oracle::inputs::{Length, Random};
use oracle::section_inputs;

/// A listing, an x, the length of the answer slice, and the seed of the junk in it and about the listing.
#[derive(Clone)]
pub struct SectionCase {
    pub listing: Vec<u8>,
    pub x: u16,
    pub answer: Length,
    pub seed: u64,
}

impl SectionCase {
    /// A case with this listing and x; the answer slice is mostly of the four places that are needed.
    pub fn of(random: &mut Random, listing: &[u8], x: u16) -> SectionCase {
        let answer = if random.once_in(20) { Length::any(random) } else { Length::About(0) };
        SectionCase { listing: listing.to_vec(), x, answer, seed: random.number() }
    }

    /// A case with this listing and mostly the x of one of its records.
    pub fn any(random: &mut Random, listing: &[u8]) -> SectionCase {
        let x = section_inputs::x(random, listing);
        SectionCase::of(random, listing, x)
    }

    /// The case without some of its bytes.
    fn without(&self, bytes: std::ops::Range<usize>) -> SectionCase {
        let mut case = self.clone();
        case.listing.drain(bytes.start..bytes.end.min(self.listing.len()));
        case
    }
}

impl Case for SectionCase {
    fn run(&self) -> Result<(), String> {
        let mut random = Random::new(self.seed);
        let mut listing = Lent::<u8>::new(&mut random, self.listing.len());
        listing.slice().copy_from_slice(&self.listing);
        let mut answer = Lent::<u64>::new(&mut random, self.answer.places(4));
        let (mut our_listing, mut our_answer) = (listing.clone(), answer.clone());
        let (l, a) = (our_listing.slice(), our_answer.slice());
        // SAFETY: each pointer comes from a slice with the length beside it, and the two do not overlap.
        let written = unsafe { raw::heqdanu_corners_at(l.as_mut_ptr(), l.len(), self.x, a.as_mut_ptr(), a.len()) };
        let expected = expect(answer.slice(), || calls::corners_at(&self.listing, self.x));
        same_answer("corners_at", &[written.into()], &[expected])?;
        same_answer("corners_at", our_answer.slice(), answer.slice())?;
        our_answer.same_as(&answer, "corners_at", "answer")?;
        our_listing.same_as(&listing, "corners_at", "listing")
    }

    fn describe(&self) -> String {
        let SectionCase { listing, x, answer, .. } = self;
        let (records, remainder) = (listing.len() / RECORD, listing.len() % RECORD);
        let listing = hex(listing);
        format!("corners_at: {records} records and {remainder} bytes, answer {answer:?}\nlisting: {listing}; x = {x}")
    }

    fn smaller(&self) -> Vec<SectionCase> {
        let (length, records) = (self.listing.len(), self.listing.len() / RECORD);
        let mut cases = Vec::new();
        let mut part = records;
        while part > 0 {
            let starts = (0..records).step_by(part).take(300);
            cases.extend(starts.map(|start| self.without(RECORD * start..RECORD * (start + part))));
            part /= 2;
        }
        cases.extend((1..=length.min(RECORD)).map(|bytes| self.without(length - bytes..length)));
        if length <= 40 {
            for place in (0..length).filter(|place| self.listing[*place] > 0) {
                for value in [0, self.listing[place] / 2] {
                    let mut case = self.clone();
                    case.listing[place] = value;
                    cases.push(case);
                }
            }
        }
        cases
    }
}
