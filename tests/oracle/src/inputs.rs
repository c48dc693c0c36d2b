//! Random and damaged inputs from a seed: lists, runs of shots, shot files, and the sizes of lent buffers.
//!
//! The same seed gives the same inputs on every machine.

use crate::grid;
use crate::list::{List, MOST_SHOTS};
use crate::shotfile::{self, ABSENT};

/// A small generator of random numbers (splitmix64).
#[derive(Clone)]
pub struct Random(u64);

impl Random {
    pub fn new(seed: u64) -> Random {
        Random(seed)
    }

    pub fn number(&mut self) -> u64 {
        self.0 = self.0.wrapping_add(0x9e37_79b9_7f4a_7c15);
        let mut z = self.0;
        z = (z ^ z >> 30).wrapping_mul(0xbf58_476d_1ce4_e5b9);
        z = (z ^ z >> 27).wrapping_mul(0x94d0_49bb_1331_11eb);
        z ^ z >> 31
    }

    /// A number from `low` to `high`, both included.
    pub fn within(&mut self, low: usize, high: usize) -> usize {
        low + (self.number() % (high - low + 1) as u64) as usize
    }

    /// True once in `n` times.
    pub fn once_in(&mut self, n: usize) -> bool {
        self.within(1, n) == 1
    }

    /// One of the given values.
    pub fn one_of<T: Clone>(&mut self, values: &[T]) -> T {
        values[self.within(0, values.len() - 1)].clone()
    }
}

/// How large a list's field and shot count may be.
#[derive(Clone, Copy, Debug)]
pub struct Size {
    pub field: usize,
    pub shots: usize,
}

/// A list within the size that every call accepts, given room. Often enough its settings are such as a shot file leaves
/// out.
pub fn accepted(random: &mut Random, size: Size) -> List {
    let field = field(random, size.field);
    let edge = match random.within(0, 5) {
        0 => 1,
        1 => random.within(1, field),
        2 => field - random.within(0, field.min(3) - 1),
        3 if field > ABSENT[1].into() => ABSENT[1].into(),
        _ => random.within(1, field.div_ceil(3)),
    };
    accepted_with(random, field, edge, size.shots)
}

/// A field side up to the largest, one in six that the absent grid size divides; one in twelve the absent field side,
/// where it is not too large.
fn field(random: &mut Random, most: usize) -> usize {
    let [absent, _, grid] = ABSENT.map(usize::from);
    match random.within(1, 12) {
        1 if absent <= most => absent,
        2 | 3 if grid <= most => grid * random.within(1, most / grid),
        _ => random.within(1, most),
    }
}

/// A list with the given field and edge that every call accepts, given room.
pub fn accepted_with(random: &mut Random, field: usize, edge: usize, most_shots: usize) -> List {
    let grids: Vec<usize> = (1..=field.min(64)).filter(|g| field.is_multiple_of(*g)).collect();
    let absent = ABSENT[2].into();
    let grid = if grids.contains(&absent) && random.once_in(3) { absent } else { random.one_of(&grids) };
    let shots = if random.once_in(40) { 0 } else { random.within(1, most_shots) };
    let coords = coords(random, field, edge, grid, shots);
    List { field: field as u16, edge: edge as u16, grid: grid as u16, coords }
}

/// Coordinates of shots that stay in the field: spread, in one cluster, in steps of the edge (so that cubes touch), on
/// grid planes, or as repeats of earlier shots.
fn coords(random: &mut Random, field: usize, edge: usize, grid: usize, shots: usize) -> Vec<u16> {
    let top = field - edge;
    let style = random.within(0, 5);
    let reach = random.within(0, 2 * edge).min(top);
    let base = [0; 3].map(|_| random.within(0, top - reach));
    let mut coords: Vec<u16> = Vec::with_capacity(3 * shots);
    for shot in 0..shots {
        if shot > 0 && (style == 4 || random.once_in(16)) && random.once_in(2) {
            let earlier = 3 * random.within(0, shot - 1);
            coords.extend_from_within(earlier..earlier + 3);
            continue;
        }
        for low in base {
            let coordinate = match style {
                0 => random.within(0, top),
                1 => low + random.within(0, reach),
                2 => (low % edge + edge * random.within(0, 3)).min(top),
                3 => (field / grid * random.within(0, grid)).saturating_sub(edge * random.within(0, 1)).min(top),
                4 => random.one_of(&[0, top, top / 2, low]),
                _ => (low + edge * random.within(0, 1) + random.within(0, 1)).min(top),
            };
            coords.push(coordinate as u16);
        }
    }
    coords
}

/// A list with one or a few faults, so that some call refuses it by 1, 2, 6, 7, 8 or 9, mostly.
pub fn damaged(random: &mut Random, size: Size) -> List {
    let mut list = accepted(random, size);
    for _ in 0..random.within(1, 2) {
        match random.within(0, 6) {
            0 => list.field = random.one_of(&[0, 1025, 1026, 2048, 32768, 65535]),
            1 => list.edge = random.one_of(&[0, list.field.wrapping_add(1), 1025, 65535]),
            2 => list.grid = random.one_of(&[0, 65, 64, 3, 7, 65535, list.grid.wrapping_add(1)]),
            3 => drop(list.coords.pop()),
            4 => list.coords.push(random.number() as u16),
            5 => leave_field(random, &mut list),
            _ => too_many(random, &mut list),
        }
    }
    list
}

/// Moves a coordinate so that its cube ends past the field, by little or so far that 16 bits would wrap.
fn leave_field(random: &mut Random, list: &mut List) {
    if list.coords.is_empty() {
        list.coords = vec![0; 3];
    }
    for _ in 0..random.within(1, 3) {
        let place = random.within(0, list.coords.len() - 1);
        let room = list.field.wrapping_sub(list.edge);
        list.coords[place] =
            random.one_of(&[room.wrapping_add(1), list.field, 65535, 0u16.wrapping_sub(list.edge), 32768]);
    }
}

/// Repeats shots until the count is at, or just past, the most that is allowed.
fn too_many(random: &mut Random, list: &mut List) {
    if !random.once_in(8) {
        return;
    }
    let numbers = 3 * MOST_SHOTS + random.one_of(&[0, 1, 2, 3, 4, 6, 300]);
    if list.coords.is_empty() {
        list.coords.push(0);
    }
    let kept = list.coords.clone();
    list.coords = kept.into_iter().cycle().take(numbers).collect();
}

/// A unit cell: about the faces of a shot mostly, or anywhere.
pub fn cell(random: &mut Random, list: &List) -> [u16; 3] {
    let shots = list.coords.len() / 3;
    let beside = |random: &mut Random, place: u16| {
        let step = random.one_of(&[0, 0, list.edge / 2, list.edge.wrapping_sub(1), list.edge, u16::MAX]);
        place.wrapping_add(step)
    };
    match random.within(0, 7) {
        0 => [0; 3].map(|_| random.number() as u16),
        1 => [0; 3].map(|_| random.within(0, list.field.into()) as u16),
        _ if shots == 0 => [0; 3],
        _ => {
            let shot = 3 * random.within(0, shots - 1);
            [0, 1, 2].map(|axis| beside(random, list.coords[shot + axis]))
        }
    }
}

/// A run of up to so many numbers for the cover test: shots of the list, in any order or rising, often repeated, and
/// numbers past the list among them.
pub fn run(random: &mut Random, list: &List, most: usize) -> Vec<u32> {
    let shots = list.coords.len() / 3;
    let share = random.one_of(&[2, 4, 30]);
    let mut run = Vec::new();
    for _ in 0..random.within(0, most) {
        let any = random.number() as u32;
        run.push(match random.within(1, share) {
            1 => random.one_of(&[shots as u32, shots as u32 + 1, 1 << 31, u32::MAX, any]),
            _ => random.within(0, shots) as u32,
        });
    }
    if random.once_in(2) {
        run.sort_unstable();
    }
    run
}

/// The records of a list's shot file, the header first: the values of each, and what their absence means there.
fn records(list: &List) -> Vec<[[u16; 3]; 2]> {
    let mut records = vec![[[list.field, list.edge, list.grid], ABSENT]];
    let mut previous = [0; 3];
    for shot in list.coords.chunks_exact(3) {
        let shot = [shot[0], shot[1], shot[2]];
        records.push([shot, previous]);
        previous = shot;
    }
    records
}

/// A shot file of the list in which fields stand although their absence would mean the same, so that it is refused by
/// 17: one of those that the shortest file leaves out, in any record, and besides it all others, a third of them or
/// none. A list whose shortest file leaves out nothing has no longer one, and gets that.
pub fn longer_file(random: &mut Random, list: &List) -> Vec<u8> {
    let records = records(list);
    let left_out = |[values, absent]: &[[u16; 3]; 2], bit: usize| values[bit] == absent[bit];
    let fields = (0..records.len()).flat_map(|number| [0, 1, 2].map(|bit| (number, bit)));
    let needless: Vec<(usize, usize)> = fields.filter(|(number, bit)| left_out(&records[*number], *bit)).collect();
    if needless.is_empty() {
        return shotfile::shortest(list);
    }
    let one = random.one_of(&needless);
    let share = random.one_of(&[1, 3, usize::MAX]);
    let mut file = Vec::new();
    for (number, record) in records.iter().enumerate() {
        let map = file.len();
        file.push(0);
        for bit in 0..3 {
            if !left_out(record, bit) || (number, bit) == one || random.once_in(share) {
                file[map] |= 1 << bit;
                file.extend(record[0][bit].to_le_bytes());
            }
        }
    }
    file
}

/// A shot file, one in ten longer than the shortest: whole, cut, with flipped bits, with more bytes after it, or
/// random bytes. One in sixteen has the grid size that files leave out, whether or not it divides the field side.
pub fn file(random: &mut Random, size: Size) -> Vec<u8> {
    let mut list = if random.once_in(4) { damaged(random, size) } else { accepted(random, size) };
    if random.once_in(16) {
        list.grid = ABSENT[2];
    }
    let mut file = if random.once_in(10) { longer_file(random, &list) } else { shotfile::shortest(&list) };
    match random.within(0, 10) {
        0 => file.truncate(random.within(0, file.len())),
        1 => flip(random, &mut file, 1),
        2 => flip(random, &mut file, 8),
        3 => file.extend((0..random.within(1, 9)).map(|_| random.number() as u8 & 7).collect::<Vec<u8>>()),
        4 => file = (0..random.within(0, 60)).map(|_| random.number() as u8).collect(),
        5 => file = (0..random.within(0, 60)).map(|_| random.number() as u8 & 7).collect(),
        _ => {}
    }
    file
}

/// A file about the largest number of shots, to meet refusal 2 and the end of the bytes that the quoting program reads.
/// All its shots name the same fields, and none says what the shot before says, so that damage alone meets 17.
pub fn crowded_file(random: &mut Random) -> Vec<u8> {
    let map = random.one_of(&[0u8, 1, 4, 7]);
    let shots = MOST_SHOTS + random.within(0, 3) - 1;
    let mut file = vec![7];
    for value in [64u16, 2, random.one_of(&[1, 2, 4])] {
        file.extend(value.to_le_bytes());
    }
    let mut shot = [0; 3];
    for _ in 0..shots {
        file.push(map);
        for (_, place) in shot.iter_mut().enumerate().filter(|(bit, _)| map >> bit & 1 == 1) {
            *place = (*place + random.within(1, 62)) % 63;
            file.extend((*place as u16).to_le_bytes());
        }
    }
    match random.within(0, 7) {
        0 => file.push(random.number() as u8),
        1 => file.truncate(file.len() - 1),
        2 => flip(random, &mut file, 1),
        3 => file.extend([0, 255, 1]),
        4 => repeat_x(random, &mut file, shots),
        _ => {}
    }
    file
}

/// Puts one shot more into a crowded file of so many, behind any of them or about the last that is allowed: it says the
/// x of the shot before it.
fn repeat_x(random: &mut Random, file: &mut Vec<u8>, shots: usize) {
    let header = 7;
    let length = (file.len() - header) / shots;
    let any = random.within(0, shots);
    let before = random.one_of(&[any, shots, MOST_SHOTS - 1, MOST_SHOTS]).min(shots);
    let place = header + before * length;
    let x = if before > 0 && file[header] & 1 == 1 { file[place - length + 1] } else { 0 };
    file.splice(place..place, [1, x, 0]);
}

/// Flips one bit or a few, up to `most`.
pub fn flip(random: &mut Random, file: &mut [u8], most: usize) {
    if file.is_empty() {
        return;
    }
    for _ in 0..random.within(1, most) {
        let place = random.within(0, file.len() - 1);
        file[place] ^= 1 << random.within(0, 7);
    }
}

/// Makes the grid of an accepted list coarser until its index needs at most `entries`, as far as that goes.
pub fn coarsen(list: &mut List, entries: usize) {
    while list.grid > 1 && grid::need(list) > entries {
        list.grid = (1..list.grid).rev().find(|g| list.field.is_multiple_of(*g)).unwrap_or(1);
    }
}

/// The length of a lent buffer: so many places more or fewer than the call needs, or a number of its own.
#[derive(Clone, Copy, Debug, PartialEq, Eq)]
pub enum Length {
    About(i64),
    Fixed(usize),
}

impl Length {
    /// The length where a call needs so many places.
    pub fn places(self, need: usize) -> usize {
        match self {
            Length::About(more) => (need as i64 + more).max(0) as usize,
            Length::Fixed(places) => places,
        }
    }

    /// Mostly enough, often exact, now and then short.
    pub fn any(random: &mut Random) -> Length {
        match random.within(0, 11) {
            0 => Length::About(-1),
            1 => Length::About(-(random.within(1, 9) as i64)),
            2 => Length::Fixed(random.within(0, 20)),
            3..=6 => Length::About(0),
            _ => Length::About(random.within(1, 30) as i64),
        }
    }
}
