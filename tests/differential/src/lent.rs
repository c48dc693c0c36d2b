//! Lent buffers: junk in every place, and junk on both sides that nobody may touch.

use heqdanu::Band;
use oracle::inputs::Random;
use std::fmt::Debug;

const BESIDE: usize = 8;

/// A buffer with junk beside it.
#[derive(Clone)]
pub struct Lent<T> {
    places: Vec<T>,
}

/// What junk can be made of.
pub trait Junk: Copy + PartialEq + Debug {
    fn junk(random: &mut Random) -> Self;
}

macro_rules! junk {
    ($($number:ty)*) => {$(
        impl Junk for $number {
            fn junk(random: &mut Random) -> Self {
                random.number() as $number
            }
        }
    )*};
}

junk!(u8 u16 u32 u64);

impl Junk for Band {
    fn junk(random: &mut Random) -> Self {
        Band { first: random.number(), last: random.number(), cents: random.number() }
    }
}

impl<T: Junk> Lent<T> {
    /// A buffer of so many places.
    pub fn new(random: &mut Random, places: usize) -> Lent<T> {
        Lent { places: (0..places + 2 * BESIDE).map(|_| T::junk(random)).collect() }
    }

    /// The places that are lent.
    pub fn slice(&mut self) -> &mut [T] {
        let end = self.places.len() - BESIDE;
        &mut self.places[BESIDE..end]
    }

    /// Says where this buffer differs from the oracle's.
    pub fn same_as(&self, expected: &Lent<T>, call: &str, name: &str) -> Result<(), String> {
        let place = (0..self.places.len()).find(|place| self.places[*place] != expected.places[*place]);
        match place {
            None => Ok(()),
            Some(place) => Err(format!(
                "{call}: place {} of the {name} slice is {:?}, the oracle has {:?}",
                place as i64 - BESIDE as i64,
                self.places[place],
                expected.places[place]
            )),
        }
    }
}
