//! Cases for the readers of shot files and of VOX files.

use crate::lent::Lent;
use crate::lists::expect;
use crate::smallest::Case;
use crate::{hex, hold, same_answer};
use heqdanu::raw;
use oracle::inputs::{Length, Random};
use oracle::met::Met;
use oracle::{calls, vox_inputs};

/// A reader: its name, what it reads, the library's call and the oracle's.
pub struct Reader {
    name: &'static str,
    reads: &'static str,
    library: raw::Reading,
    oracle: fn(&[u8], &mut [u16]) -> [u64; 6],
}

/// The reader of shot files.
pub static SHOTS: Reader = Reader { name: "read", reads: "shot", library: raw::heqdanu_read, oracle: calls::read };
/// The reader of VOX files.
pub static VOX: Reader =
    Reader { name: "read_vox", reads: "VOX", library: raw::heqdanu_read_vox, oracle: calls::read_vox };

/// A reader, a file, the length of the coordinate slice, and the seed of the junk in it.
#[derive(Clone)]
pub struct FileCase {
    pub reader: &'static Reader,
    pub file: Vec<u8>,
    pub places: usize,
    pub answer: Length,
    pub seed: u64,
}

impl FileCase {
    /// A case with this file; the slice is mostly long enough.
    pub fn any(random: &mut Random, reader: &'static Reader, file: Vec<u8>) -> FileCase {
        let places = match random.within(0, 4) {
            0 => random.within(0, 100),
            1 => 12_288,
            _ => 3 * file.len() + random.within(0, 4),
        };
        let answer = if random.once_in(20) { Length::any(random) } else { Length::About(0) };
        FileCase { reader, file, places, answer, seed: random.number() }
    }
}

/// Holds a case, and counts the oracle's answer to it among those met, where the slice has room for an answer.
pub fn hold_counted(met: &mut Met, case: FileCase) {
    if case.answer.places(6) >= 6 {
        met.count((case.reader.oracle)(&case.file, &mut vec![0; case.places])[0]);
    }
    hold(case);
}

impl Case for FileCase {
    fn run(&self) -> Result<(), String> {
        let mut random = Random::new(self.seed);
        let mut coords = Lent::new(&mut random, self.places);
        let mut answer = Lent::<u64>::new(&mut random, self.answer.places(6));
        let (mut our_coords, mut our_answer) = (coords.clone(), answer.clone());
        let (c, a) = (our_coords.slice(), our_answer.slice());
        // SAFETY: each pointer comes from a slice with the length beside it, and no two of them overlap.
        let written = unsafe {
            (self.reader.library)(self.file.as_ptr(), self.file.len(), c.as_mut_ptr(), c.len(), a.as_mut_ptr(), a.len())
        };
        let expected = expect(answer.slice(), || (self.reader.oracle)(&self.file, coords.slice()));
        let name = self.reader.name;
        same_answer(name, &[written.into()], &[expected])?;
        same_answer(name, our_answer.slice(), answer.slice())?;
        our_answer.same_as(&answer, name, "answer")?;
        our_coords.same_as(&coords, name, "coordinate")
    }

    fn describe(&self) -> String {
        let Reader { name, reads, .. } = self.reader;
        let (places, answer, file) = (self.places, self.answer, hex(&self.file));
        format!("{name}: {places} coordinate places, answer {answer:?}\n{reads} file: {file}")
    }

    fn smaller(&self) -> Vec<FileCase> {
        let mut cases = Vec::new();
        let length = self.file.len();
        let mut part = length;
        while part > 0 {
            for start in (0..length).step_by(part).take(300) {
                let mut file = self.file.clone();
                file.drain(start..(start + part).min(length));
                if self.reader.reads == "VOX" {
                    cases.push(FileCase { file: vox_inputs::main_put_right(file.clone()), ..self.clone() });
                }
                cases.push(FileCase { file, ..self.clone() });
            }
            part /= 2;
        }
        for places in [self.places / 2, self.places.saturating_sub(1)] {
            if places < self.places {
                cases.push(FileCase { places, ..self.clone() });
            }
        }
        if length <= 40 {
            for place in (0..length).filter(|place| self.file[*place] > 0) {
                for value in [0, self.file[place] / 2] {
                    let mut file = self.file.clone();
                    file[place] = value;
                    cases.push(FileCase { file, ..self.clone() });
                }
            }
        }
        cases
    }
}
