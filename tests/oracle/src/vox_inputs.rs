//! VOX files from a seed: whole ones, and ones that are cut, flipped or have wrong sizes.

use crate::inputs::{flip, Random};

/// Where MAIN's size of children stands in a file.
const MAIN_CHILDREN: usize = 16;
/// Where a file's first numbers stand: version, MAIN's sizes, SIZE's sizes and sides, XYZI's sizes and count.
const NUMBERS: [usize; 11] = [4, 12, 16, 24, 28, 32, 36, 40, 48, 52, 56];

/// A voxel: x, y, z, colour.
pub type Voxel = [u8; 4];

/// A chunk: name, size of content, size of children, content, children.
pub fn chunk(name: &[u8; 4], content: &[u8], children: &[u8]) -> Vec<u8> {
    let mut bytes = name.to_vec();
    bytes.extend((content.len() as u32).to_le_bytes());
    bytes.extend((children.len() as u32).to_le_bytes());
    bytes.extend(content);
    bytes.extend(children);
    bytes
}

/// The SIZE chunk of three sides.
pub fn size(sides: [u32; 3]) -> Vec<u8> {
    chunk(b"SIZE", &sides.map(u32::to_le_bytes).concat(), &[])
}

/// The XYZI chunk of some voxels.
pub fn xyzi(voxels: &[Voxel]) -> Vec<u8> {
    let mut content = (voxels.len() as u32).to_le_bytes().to_vec();
    content.extend(voxels.concat());
    chunk(b"XYZI", &content, &[])
}

/// A file whose MAIN has these children.
pub fn file_of(children: &[u8]) -> Vec<u8> {
    let mut file = b"VOX ".to_vec();
    file.extend(150u32.to_le_bytes());
    file.extend(chunk(b"MAIN", &[], children));
    file
}

/// A file of SIZE, XYZI and the bytes of further chunks.
pub fn model(sides: [u32; 3], voxels: &[Voxel], further: &[u8]) -> Vec<u8> {
    file_of(&[size(sides), xyzi(voxels), further.to_vec()].concat())
}

/// Puts a number at a place of the file, as far as the file goes.
pub fn put_number(file: &mut [u8], place: usize, number: u32) {
    for (byte, value) in file.iter_mut().skip(place).zip(number.to_le_bytes()) {
        *byte = value;
    }
}

/// The file with MAIN's size of children made that of what follows MAIN's head, where the file goes so far.
pub fn main_put_right(mut file: Vec<u8>) -> Vec<u8> {
    if file.len() >= MAIN_CHILDREN + 4 {
        let children = file.len() - MAIN_CHILDREN - 4;
        put_number(&mut file, MAIN_CHILDREN, children as u32);
    }
    file
}

/// Three sides: small ones mostly, now and then as large as can be.
pub fn sides(random: &mut Random) -> [u32; 3] {
    let most = random.one_of(&[1, 3, 8, 8, 20, 60, 256]);
    [0; 3].map(|_| if random.once_in(8) { 256 } else { random.within(1, most) as u32 })
}

/// Voxels within the sides: spread, in a cluster, or many of them twice; now and then at the largest places.
pub fn voxels(random: &mut Random, sides: [u32; 3], count: usize) -> Vec<Voxel> {
    let reach = random.one_of(&[0, 2, 5, 255]);
    let low = sides.map(|side| random.within(0, side as usize - 1));
    let mut voxels: Vec<Voxel> = Vec::with_capacity(count);
    for number in 0..count {
        if number > 0 && random.once_in(9) {
            voxels.push(voxels[random.within(0, number - 1)]);
            continue;
        }
        let mut voxel = [0, 0, 0, random.within(1, 255) as u8];
        for axis in 0..3 {
            let top = sides[axis] as usize - 1;
            let place = if random.once_in(20) { top } else { low[axis] + random.within(0, reach) };
            voxel[axis] = place.min(top) as u8;
        }
        voxels.push(voxel);
    }
    voxels
}

/// Chunks that may follow XYZI: known and unknown names, further SIZE and XYZI chunks, children of any bytes.
pub fn further(random: &mut Random) -> Vec<u8> {
    let mut bytes = Vec::new();
    while random.once_in(2) && bytes.len() < 2000 {
        bytes.extend(any_chunk(random, 3));
    }
    bytes
}

fn any_chunk(random: &mut Random, depth: usize) -> Vec<u8> {
    let names =
        [*b"RGBA", *b"nTRN", *b"nGRP", *b"nSHP", *b"SIZE", *b"XYZI", *b"PACK", *b"MAIN", *b"VOX ", [0, 255, 1, 13]];
    let name = random.one_of(&names);
    if name == *b"XYZI" && random.once_in(2) {
        let voxels = voxels(random, [256; 3], 3);
        return xyzi(&voxels);
    }
    let longest = random.one_of(&[0, 4, 30, 30, 1024]);
    let content: Vec<u8> = (0..random.within(0, longest)).map(|_| random.number() as u8).collect();
    // Children are skipped whole, so they need not be chunks.
    let mut children: Vec<u8> = Vec::new();
    if random.once_in(6) {
        children.extend((0..random.within(1, 20)).map(|_| random.number() as u8));
    }
    while depth > 0 && random.once_in(3) {
        children.extend(any_chunk(random, depth - 1));
    }
    chunk(&name, &content, &children)
}

/// A file that is accepted where there is room for at most so many voxels.
pub fn accepted(random: &mut Random, most_voxels: usize) -> Vec<u8> {
    let sides = sides(random);
    let count = if random.once_in(12) { 0 } else { random.within(0, most_voxels) };
    let voxels = voxels(random, sides, count);
    let further = further(random);
    model(sides, &voxels, &further)
}

/// A file about the largest number of voxels: 4,095 to 4,098 of them, now and then with one fault.
pub fn crowded(random: &mut Random) -> Vec<u8> {
    let sides = sides(random);
    let count = random.within(4095, 4098);
    let voxels = voxels(random, sides, count);
    let further = further(random);
    let mut file = model(sides, &voxels, &further);
    match random.within(0, 4) {
        0 => flip(random, &mut file, 1),
        1 => file = main_put_right(file[..file.len() - random.within(1, 5)].to_vec()),
        2 => file[60 + 4 * random.within(0, 4094) + 3] = 0,
        _ => {}
    }
    file
}

/// A file with a fault, or a few.
pub fn damaged(random: &mut Random, most_voxels: usize) -> Vec<u8> {
    let mut file = accepted(random, most_voxels);
    for _ in 0..random.within(1, 2) {
        damage(random, &mut file);
        if random.once_in(2) {
            file = main_put_right(file);
        }
    }
    file
}

fn damage(random: &mut Random, file: &mut Vec<u8>) {
    match random.within(0, 9) {
        0 => file.truncate(random.within(0, file.len())),
        1 => {
            let front = file.len().min(72);
            flip(random, &mut file[..front], 2)
        }
        2 => flip(random, file, 6),
        3 => file.extend((0..random.within(1, 15)).map(|_| random.within(0, 3) as u8).collect::<Vec<u8>>()),
        4 | 5 => wrong_number(random, file),
        6 => wrong_voxel(random, file),
        7 => another_count(random, file),
        8 => drop_part(random, file),
        _ => {
            let place = random.within(0, file.len());
            let more = any_chunk(random, 1);
            file.splice(place..place, more);
        }
    }
}

/// Another value for a number, of the front or anywhere: next to the right one, far off, or such that a sum of 32 bits
/// wraps.
fn wrong_number(random: &mut Random, file: &mut [u8]) {
    let place = if random.once_in(4) { random.within(0, file.len()) } else { random.one_of(&NUMBERS) };
    let old = file.get(place..place + 4).map_or(0, |four| u32::from_le_bytes([four[0], four[1], four[2], four[3]]));
    let values = [0, 1, 3, 4, 8, 11, 12, 256, 257, 65_537, 0x4000_0000, 0x4000_0002, 0xffff_fffc, 0xffff_ffff];
    let value = match random.within(0, 3) {
        0 => old.wrapping_add(1),
        1 => old.wrapping_sub(1),
        2 => old.wrapping_add(1 << random.within(0, 31)),
        _ => random.one_of(&values),
    };
    put_number(file, place, value);
}

/// A voxel on a side, or past it, or of no colour, where the front is as it was.
fn wrong_voxel(random: &mut Random, file: &mut [u8]) {
    let count = file.get(56..58).map_or(0, |two| usize::from(two[0]) + 256 * usize::from(two[1]));
    if count == 0 {
        return;
    }
    let (place, axis) = (60 + 4 * random.within(0, count - 1), random.within(0, 3));
    let side = file.get(32 + 4 * axis).copied().unwrap_or(0);
    let value = if axis == 3 { 0 } else { random.one_of(&[side, side.saturating_add(1), 255]) };
    if let Some(byte) = file.get_mut(place + axis) {
        *byte = value;
    }
}

/// Another count, with XYZI's content size to match, so that voxels are missing or left over.
fn another_count(random: &mut Random, file: &mut [u8]) {
    let count = random.one_of(&[0, 1, 2, 5, 4096, 4097, 0x3fff_fffe, 0x3fff_ffff, 0x4000_0000, 0x4000_0002]);
    put_number(file, 56, count);
    put_number(file, 48, count.wrapping_mul(4).wrapping_add(4));
}

/// Takes a part out: a whole head or SIZE chunk, or any bytes.
fn drop_part(random: &mut Random, file: &mut Vec<u8>) {
    let (start, length) = random.one_of(&[(0, 8), (8, 12), (20, 24), (44, 12), (56, 4), (60, 4), (0, 0)]);
    let start = if length == 0 { random.within(0, file.len()) } else { start.min(file.len()) };
    let length = if length == 0 { random.within(1, 9) } else { length };
    let end = (start + length).min(file.len());
    file.drain(start..end);
}

/// A file of any kind: whole, damaged, or bytes without a form.
pub fn any_file(random: &mut Random, most_voxels: usize) -> Vec<u8> {
    match random.within(0, 19) {
        0..=6 => accepted(random, most_voxels),
        7 => (0..random.within(0, 90)).map(|_| random.number() as u8).collect(),
        8 => {
            let rest: Vec<u8> = (0..random.within(0, 60)).map(|_| random.within(0, 4) as u8).collect();
            file_of(&rest)
        }
        _ => damaged(random, most_voxels),
    }
}
