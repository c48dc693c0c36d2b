//! VOX files of the voxel editor MagicaVoxel, read from front to back: the mark, the version, then chunks.
//!
//! A chunk is a name of four bytes, the size of its content and that of its children, and then both. Numbers have 32
//! bits, least byte first; they are kept in 64, so that no sum of sizes wraps.

use crate::list::{refusal, List, Refusal, MOST_SHOTS};

/// The largest side that SIZE may give.
const LARGEST_SIDE: u64 = 256;

/// What is left of a file, and where that begins.
struct Rest<'a> {
    bytes: &'a [u8],
    offset: usize,
}

/// The head of a chunk: where it begins and the two sizes.
struct Head {
    offset: usize,
    content: u64,
    children: u64,
}

impl<'a> Rest<'a> {
    fn length(&self) -> u64 {
        self.bytes.len() as u64
    }

    /// The next bytes, if there are so many.
    fn take(&mut self, count: u64) -> Option<&'a [u8]> {
        if count > self.length() {
            return None;
        }
        let (taken, rest) = self.bytes.split_at(count as usize);
        self.bytes = rest;
        self.offset += taken.len();
        Some(taken)
    }

    /// The next number, if there are four bytes.
    fn number(&mut self) -> Option<u64> {
        let bytes = self.take(4)?;
        Some(bytes.iter().rev().fold(0, |number, byte| 256 * number + u64::from(*byte)))
    }

    /// The head of a chunk: 14 if it is cut, 13 if it has another name than the required one, where one is.
    fn head(&mut self, required: Option<&[u8; 4]>) -> Result<Head, Refusal> {
        let offset = self.offset;
        let cut = refusal(14, offset);
        let name = self.take(4).ok_or(cut)?;
        if required.is_some_and(|required| name != required) {
            return Err(refusal(13, offset));
        }
        let content = self.number().ok_or(cut)?;
        let children = self.number().ok_or(cut)?;
        Ok(Head { offset, content, children })
    }

    /// The head of the chunk that must come here: 13 also if the file ends before it.
    fn required(&mut self, name: &[u8; 4]) -> Result<Head, Refusal> {
        if self.bytes.is_empty() {
            return Err(refusal(13, self.offset));
        }
        self.head(Some(name))
    }
}

/// The list of the file's voxels, edge 1 and grid 1, where `places` coordinates can be stored; else the first refusal,
/// by 13, 14, 2, 3 or 15, with the offset of the mark, the chunk or the voxel.
pub fn read(file: &[u8], places: usize) -> Result<List, Refusal> {
    let mut rest = Rest { bytes: file, offset: 0 };
    let mark = rest.take(4);
    let version = rest.number();
    if mark != Some(b"VOX ") || version != Some(150) {
        return Err(refusal(13, 0));
    }
    let main = rest.required(b"MAIN")?;
    if main.content != 0 || main.children != rest.length() {
        return Err(refusal(14, main.offset));
    }
    let sides = sides(&mut rest)?;
    let coords = voxels(&mut rest, sides, places)?;
    while rest.length() > 0 {
        skip(&mut rest)?;
    }
    let field = sides.into_iter().max().expect("there are three sides") as u16;
    Ok(List { field, edge: 1, grid: 1, coords })
}

/// SIZE: three sides, each 1 to 256.
fn sides(rest: &mut Rest) -> Result<[u64; 3], Refusal> {
    let size = rest.required(b"SIZE")?;
    let broken = refusal(14, size.offset);
    if size.content != 12 || size.children != 0 {
        return Err(broken);
    }
    let mut sides = [0; 3];
    for side in &mut sides {
        *side = rest.number().ok_or(broken)?;
    }
    if sides.iter().any(|side| *side == 0 || *side > LARGEST_SIDE) {
        return Err(refusal(15, size.offset));
    }
    Ok(sides)
}

/// XYZI: how many voxels there are, and then each in four bytes. The chunk as a whole is looked at before any voxel is.
fn voxels(rest: &mut Rest, sides: [u64; 3], places: usize) -> Result<Vec<u16>, Refusal> {
    let xyzi = rest.required(b"XYZI")?;
    let broken = refusal(14, xyzi.offset);
    if xyzi.children != 0 || xyzi.content > rest.length() || xyzi.content < 4 {
        return Err(broken);
    }
    let count = rest.number().ok_or(broken)?;
    if xyzi.content != 4 + 4 * count {
        return Err(broken);
    }
    if count > MOST_SHOTS as u64 {
        return Err(refusal(2, xyzi.offset));
    }
    if count > places as u64 / 3 {
        return Err(refusal(3, xyzi.offset));
    }
    let mut coords = Vec::new();
    for _ in 0..count {
        let offset = rest.offset;
        let voxel = rest.take(4).ok_or(broken)?;
        let outside = (0..3).any(|axis| u64::from(voxel[axis]) >= sides[axis]);
        if outside || voxel[3] == 0 {
            return Err(refusal(15, offset));
        }
        coords.extend(voxel[..3].iter().map(|coordinate| u16::from(*coordinate)));
    }
    Ok(coords)
}

/// A later chunk, with its content and its children.
fn skip(rest: &mut Rest) -> Result<(), Refusal> {
    let head = rest.head(None)?;
    rest.take(head.content + head.children).ok_or(refusal(14, head.offset))?;
    Ok(())
}
