//! The calls with lent buffers, as a caller sees them: an answer, and every buffer's state afterwards.

use crate::cells::Cells;
use crate::list::{refusal, List, Refusal};
use crate::price::{self, Tables};
use crate::{corners, credits, grid, section, shotfile, totals, vox};
use std::cell::OnceCell;

/// A call's answer: refusal number (0 if accepted), detail, then the call's numbers (all 0 if refused).
pub type Answer<const N: usize> = [u64; N];

fn refused<const N: usize>(refusal: Refusal) -> Answer<N> {
    let mut answer = [0; N];
    answer[0] = refusal.number;
    answer[1] = refusal.detail;
    answer
}

/// An accepted list's numbers: volume, area, edge length, inner length and corner count, with the
/// listing beside them.
pub struct Measured {
    pub numbers: [u64; 5],
    pub listing: Vec<u8>,
}

/// Counts an accepted list. The corner sums must give the totals again.
pub fn measured(list: &List) -> Measured {
    let cells = Cells::of(list);
    let totals = totals::count(&cells);
    let corners = corners::corners(&cells);
    let listing = corners::listing(&corners);
    assert_eq!(totals, corners::sums(&listing), "cell counts and corner sums differ for {list:?}");
    let numbers = [totals.volume, totals.area, totals.edge, totals.inner, corners.len() as u64];
    Measured { numbers, listing }
}

/// The calls on one list, which is counted once for all of them.
pub struct Calls<'a> {
    list: &'a List,
    measured: OnceCell<Measured>,
    credits: OnceCell<Vec<u32>>,
}

impl<'a> Calls<'a> {
    pub fn on(list: &'a List) -> Calls<'a> {
        Calls { list, measured: OnceCell::new(), credits: OnceCell::new() }
    }

    /// The list's numbers and its listing; only for a list that `check` accepts.
    pub fn measured(&self) -> &Measured {
        self.measured.get_or_init(|| measured(self.list))
    }

    /// The shots' credits, which must sum to the volume; only for a list that `check` accepts.
    pub fn credits(&self) -> &[u32] {
        self.credits.get_or_init(|| {
            let credits = credits::credits(self.list);
            let sum: u64 = credits.iter().copied().map(u64::from).sum();
            assert_eq!(sum, self.measured().numbers[0], "credits and volume differ for {:?}", self.list);
            credits
        })
    }

    /// The measuring call; success leaves the index in the work slice.
    pub fn measure(&self, work: &mut [u32]) -> Answer<7> {
        match self.check_with(work) {
            Err(refusal) => refused(refusal),
            Ok(()) => self.accept(work),
        }
    }

    /// The listing call; refusal 11 leaves the index in the work slice and the listing buffer as it was.
    pub fn list(&self, work: &mut [u32], listing: &mut [u8]) -> Answer<7> {
        if let Err(refusal) = self.check_with(work) {
            return refused(refusal);
        }
        let answer = self.accept(work);
        let records = &self.measured().listing;
        if listing.len() < records.len() {
            return refused(refusal(11, records.len() / 7));
        }
        listing[..records.len()].copy_from_slice(records);
        answer
    }

    /// The index alone; success leaves it in the work slice.
    pub fn index(&self, work: &mut [u32]) -> Answer<2> {
        match self.check_with(work) {
            Err(refusal) => refused(refusal),
            Ok(()) => {
                self.store_index(work);
                [0, 0]
            }
        }
    }

    /// The credit call; refusal 16 leaves the index in the work slice and the credits as they were.
    pub fn credit(&self, work: &mut [u32], credits: &mut [u32]) -> Answer<2> {
        if let Err(refusal) = self.check_with(work) {
            return refused(refusal);
        }
        self.store_index(work);
        let shots = self.list.coords.len() / 3;
        if credits.len() < shots {
            return refused(refusal(16, shots));
        }
        credits[..shots].copy_from_slice(self.credits());
        [0, 0]
    }

    /// The amounts that have a price, volume, area and edge length; only for a list that `check` accepts.
    pub fn amounts(&self) -> [u64; 3] {
        let [volume, area, edge, _, _] = self.measured().numbers;
        [volume, area, edge]
    }

    /// The price call; refusal 18 leaves the index in the work slice.
    pub fn price(&self, work: &mut [u32], tables: &Tables) -> Answer<5> {
        if let Err(refusal) = self.check_with(work) {
            return refused(refusal);
        }
        self.store_index(work);
        if let Err(refusal) = price::check_all(tables) {
            return refused(refusal);
        }
        let amounts = self.amounts();
        let [volume, area, edge] = [0, 1, 2].map(|figure| price::charge(&tables[figure], amounts[figure]));
        [0, 0, volume, area, edge]
    }

    /// Refusals 1, 2, 6 to 9 and 10.
    fn check_with(&self, work: &[u32]) -> Result<(), Refusal> {
        self.list.check()?;
        let need = grid::need(self.list);
        if work.len() < need {
            return Err(refusal(10, need));
        }
        Ok(())
    }

    fn store_index(&self, work: &mut [u32]) {
        let index = grid::index(self.list);
        work[..index.len()].copy_from_slice(&index);
    }

    fn accept(&self, work: &mut [u32]) -> Answer<7> {
        self.store_index(work);
        let [volume, area, edge, inner, corners] = self.measured().numbers;
        [0, 0, volume, area, edge, inner, corners]
    }
}

/// The measuring call on a list.
pub fn measure(list: &List, work: &mut [u32]) -> Answer<7> {
    Calls::on(list).measure(work)
}

/// The index alone of a list.
pub fn index(list: &List, work: &mut [u32]) -> Answer<2> {
    Calls::on(list).index(work)
}

/// The credit call on a list.
pub fn credit(list: &List, work: &mut [u32], credits: &mut [u32]) -> Answer<2> {
    Calls::on(list).credit(work, credits)
}

/// The price call on a list.
pub fn price(list: &List, work: &mut [u32], tables: &Tables) -> Answer<5> {
    Calls::on(list).price(work, tables)
}

/// The cover test, which refuses nothing: 1 and the number of the run's first shot that covers the cell, or 0 and 0.
pub fn covers(list: &List, run: &[u32], cell: [u16; 3]) -> Answer<2> {
    grid::first_covering(list, run, cell).map_or([0, 0], |shot| [1, shot.into()])
}

/// The listing call on a list.
pub fn list(list: &List, work: &mut [u32], listing: &mut [u8]) -> Answer<7> {
    Calls::on(list).list(work, listing)
}

/// The corners at one x, which refuses nothing: 0, 0, the place of the part's first byte and the place after its last.
pub fn corners_at(listing: &[u8], x: u16) -> Answer<4> {
    let places = section::places(listing, x);
    [0, 0, places.start as u64, places.end as u64]
}

/// The reader of shot files; a refusal stores nothing.
pub fn read(file: &[u8], coords: &mut [u16]) -> Answer<6> {
    store(shotfile::read(file, coords.len()), coords)
}

/// The reader of VOX files; a refusal stores nothing.
pub fn read_vox(file: &[u8], coords: &mut [u16]) -> Answer<6> {
    store(vox::read(file, coords.len()), coords)
}

/// What a reader answers for what its file holds; the coordinates of a list are stored.
fn store(held: Result<List, Refusal>, coords: &mut [u16]) -> Answer<6> {
    match held {
        Err(refusal) => refused(refusal),
        Ok(list) => {
            coords[..list.coords.len()].copy_from_slice(&list.coords);
            let shots = list.coords.len() as u64 / 3;
            [0, 0, list.field.into(), list.edge.into(), list.grid.into(), shots]
        }
    }
}

/// The writer; a refusal stores nothing.
pub fn write(list: &List, bytes: &mut [u8]) -> Answer<3> {
    if let Err(refusal) = list.check() {
        return refused(refusal);
    }
    let file = shotfile::shortest(list);
    if bytes.len() < file.len() {
        return refused(refusal(12, file.len()));
    }
    bytes[..file.len()].copy_from_slice(&file);
    [0, 0, file.len() as u64]
}
