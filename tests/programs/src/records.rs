//! The records of a shot file: where they begin, a file in which all have all their fields, and one with a field more
//! than the shortest form has.

use oracle::inputs::Random;
use oracle::quote::PLACES;
use oracle::shotfile::{self, ABSENT};

/// The offset after the record at an offset.
pub fn after(file: &[u8], offset: usize) -> usize {
    offset + 1 + 2 * (file[offset] & 7).count_ones() as usize
}

/// The fields that a file of whole records leaves out: the offset of the map, the header's being 0, and the bit.
pub fn left_out(file: &[u8]) -> Vec<(usize, usize)> {
    let mut fields = Vec::new();
    let mut map = 0;
    while map < file.len() {
        fields.extend((0..3).filter(|bit| file[map] >> bit & 1 == 0).map(|bit| (map, bit)));
        map = after(file, map);
    }
    fields
}

/// The file with a field that it leaves out put in, which says what its absence means.
pub fn with_needless(file: &[u8], (map, bit): (usize, usize)) -> Vec<u8> {
    assert_eq!(file[map] >> bit & 1, 0, "the field is left out");
    let meant = if map == 0 {
        ABSENT[bit]
    } else {
        let before = shotfile::read(&file[..map], PLACES).expect("the records before are whole");
        before.coords.chunks(3).next_back().map_or(0, |shot| shot[bit])
    };
    let mut longer = file.to_vec();
    let place = map + 1 + 2 * (file[map] & ((1 << bit) - 1)).count_ones() as usize;
    longer[map] |= 1 << bit;
    longer.splice(place..place, meant.to_le_bytes());
    longer
}

/// A file of the most shots, each with all its fields, none of which says what the shot before says: as long as a file
/// can be.
pub fn longest(random: &mut Random) -> Vec<u8> {
    let mut file = vec![7, 64, 0, 2, 0, 4, 0];
    let mut shot = [0; 3];
    for _ in 0..4096 {
        shot = shot.map(|before| (before + random.within(1, 62)) % 63);
        let [x, y, z] = shot.map(|coordinate| coordinate as u8);
        file.extend([7, x, 0, y, 0, z, 0]);
    }
    file
}
