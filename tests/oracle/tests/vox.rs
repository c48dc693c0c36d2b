//! VOX files: what is read, each refusal with its detail, their order, and that a refusal stores nothing.

use oracle::calls;
use oracle::inputs::Random;
use oracle::quote::{quote, quote_vox};
use oracle::vox_inputs::{self, chunk, file_of, main_put_right, model, put_number, size, xyzi, Voxel};

const SIDES: [u32; 3] = [7, 3, 5];
const VOXELS: [Voxel; 2] = [[6, 2, 4, 1], [0, 1, 2, 255]];

/// A small whole file without further chunks: 68 bytes.
fn small() -> Vec<u8> {
    model(SIDES, &VOXELS, &[])
}

/// Number and detail for a file and a slice of so many places. A refusal gives nothing else and stores nothing.
fn read_with(file: &[u8], places: usize) -> (u64, u64) {
    let mut coords = vec![7; places];
    let answer = calls::read_vox(file, &mut coords);
    if answer[0] != 0 {
        assert_eq!(coords, vec![7; places]);
        assert_eq!(answer[2..], [0; 4]);
    }
    (answer[0], answer[1])
}

fn read(file: &[u8]) -> (u64, u64) {
    read_with(file, 12_288)
}

/// The small file with a number put elsewhere, MAIN's children size as it was.
fn with(place: usize, number: u32) -> Vec<u8> {
    let mut file = small();
    put_number(&mut file, place, number);
    file
}

/// The small file's first bytes, with MAIN's children size put right.
fn cut(length: usize) -> Vec<u8> {
    main_put_right(small()[..length].to_vec())
}

/// The small file's first bytes and then others, with MAIN's children size put right.
fn cut_then(length: usize, more: &[u8]) -> Vec<u8> {
    main_put_right([&small()[..length], more].concat())
}

#[test]
fn voxels_keep_file_order() {
    let mut coords = [9; 8];
    assert_eq!(small().len(), 68);
    assert_eq!(calls::read_vox(&small(), &mut coords), [0, 0, 7, 1, 1, 2]);
    assert_eq!(coords, [6, 2, 4, 0, 1, 2, 9, 9]);
    let twice = model([1, 1, 256], &[[0, 0, 255, 3], [0, 0, 0, 1], [0, 0, 255, 9]], &[]);
    let mut coords = [9; 9];
    assert_eq!(calls::read_vox(&twice, &mut coords), [0, 0, 256, 1, 1, 3]);
    assert_eq!(coords, [0, 0, 255, 0, 0, 0, 0, 0, 255]);
}

#[test]
fn the_largest_side_is_the_field() {
    for (sides, field) in [([1, 1, 1], 1), ([9, 3, 5], 9), ([3, 9, 5], 9), ([3, 5, 9], 9), ([256, 1, 1], 256)] {
        let mut coords = [];
        assert_eq!(calls::read_vox(&model(sides, &[], &[]), &mut coords), [0, 0, field, 1, 1, 0]);
    }
}

#[test]
fn a_wrong_or_cut_mark_or_version() {
    for length in 0..8 {
        assert_eq!(read(&small()[..length]), (13, 0), "{length} bytes");
    }
    for place in 0..4 {
        let mut file = small();
        file[place] ^= 32;
        assert_eq!(read(&file), (13, 0));
    }
    for version in [0, 149, 151, 200, 150 + 256, 150 + (1 << 16), 150 + (1 << 31)] {
        assert_eq!(read(&with(4, version)), (13, 0), "version {version}");
    }
    assert_eq!(read(b"VOX"), (13, 0));
    assert_eq!(read(&[7, 8, 0, 2, 0, 2, 0, 0]), (13, 0));
    assert_eq!(read(&[b"XOV ", &small()[4..]].concat()), (13, 0));
}

#[test]
fn main_where_it_is_cut_or_another() {
    assert_eq!(read(&small()[..8]), (13, 8));
    for length in 9..12 {
        assert_eq!(read(&small()[..length]), (14, 8), "{length} bytes");
    }
    assert_eq!(read(&[&small()[..8], b"mai"].concat()), (14, 8));
    for length in 12..20 {
        assert_eq!(read(&small()[..length]), (14, 8), "{length} bytes");
        let mut other = small()[..length].to_vec();
        other[8..12].copy_from_slice(b"NIAM");
        assert_eq!(read(&other), (13, 8), "{length} bytes");
    }
    assert_eq!(read(&[&small()[..8], &small()[20..]].concat()), (13, 8));
}

#[test]
fn main_with_content_or_children_that_are_not_the_rest() {
    assert_eq!(read(&with(12, 1)), (14, 8));
    assert_eq!(read(&with(12, 48)), (14, 8));
    // Content and children together would fill the file.
    let mut file = with(12, 24);
    put_number(&mut file, 16, 24);
    assert_eq!(read(&file), (14, 8));
    for children in [0, 24, 47, 49, 48 + 256, 0xffff_ffff] {
        assert_eq!(read(&with(16, children)), (14, 8), "{children}");
    }
    // A byte after the children, and one too few, whatever stands there.
    assert_eq!(read(&[small(), vec![0]].concat()), (14, 8));
    assert_eq!(read(&[small(), chunk(b"RGBA", &[], &[])].concat()), (14, 8));
    for length in 20..68 {
        assert_eq!(read(&small()[..length]), (14, 8), "{length} bytes");
    }
    // 14 of MAIN before 13 of SIZE.
    let mut file = with(16, 5);
    file[20] = b'T';
    assert_eq!(read(&file), (14, 8));
}

#[test]
fn size_where_it_is_cut_or_another() {
    assert_eq!(read(&cut(20)), (13, 20));
    for length in 21..24 {
        assert_eq!(read(&cut(length)), (14, 20), "{length} bytes");
    }
    assert_eq!(read(&cut_then(20, b"xyz")), (14, 20));
    for length in 24..32 {
        assert_eq!(read(&cut(length)), (14, 20), "{length} bytes");
        let mut other = cut(length);
        other[20..24].copy_from_slice(b"EZIS");
        assert_eq!(read(&other), (13, 20), "{length} bytes");
    }
    // The head whole, the sides cut.
    for length in 32..44 {
        assert_eq!(read(&cut(length)), (14, 20), "{length} bytes");
    }
    let pack = [chunk(b"PACK", &[1, 0, 0, 0], &[]), size(SIDES), xyzi(&VOXELS)].concat();
    assert_eq!(read(&file_of(&pack)), (13, 20));
    assert_eq!(read(&file_of(&[xyzi(&VOXELS), size(SIDES)].concat())), (13, 20));
}

#[test]
fn size_with_sizes_that_do_not_match() {
    for content in [0, 11, 13, 16, 24, 12 + 256, 0xffff_ffff] {
        assert_eq!(read(&with(24, content)), (14, 20), "{content}");
    }
    for children in [1, 12, 24, 0xffff_ffff] {
        assert_eq!(read(&with(28, children)), (14, 20), "{children}");
    }
    // Children that are there.
    let inner = chunk(b"SIZE", &SIDES.map(u32::to_le_bytes).concat(), &chunk(b"note", &[], &[]));
    assert_eq!(read(&file_of(&[inner, xyzi(&VOXELS)].concat())), (14, 20));
    // A content of sixteen bytes that are there.
    let long = chunk(b"SIZE", &[7u32, 3, 5, 1].map(u32::to_le_bytes).concat(), &[]);
    assert_eq!(read(&file_of(&[long, xyzi(&VOXELS)].concat())), (14, 20));
    // 14 before 15.
    let mut file = with(32, 0);
    put_number(&mut file, 28, 1);
    assert_eq!(read(&file), (14, 20));
}

#[test]
fn sides_outside_their_range() {
    for axis in 0..3 {
        for side in [0, 257, 512, 65_536, 65_537, 65_543, 1 << 24, 0xffff_ffff] {
            let mut sides = [256; 3];
            sides[axis] = side;
            let file = model(sides, &[[0, 0, 0, 1]], &[]);
            assert_eq!(read(&file), (15, 20), "{sides:?}");
            // 15 of SIZE before 13 of XYZI.
            assert_eq!(read(&main_put_right(file[..44].to_vec())), (15, 20));
        }
        let mut sides = [256; 3];
        sides[axis] = 1;
        assert_eq!(read(&model(sides, &[[0, 0, 0, 1]], &[])), (0, 0));
    }
}

#[test]
fn xyzi_where_it_is_cut_or_another() {
    assert_eq!(read(&cut(44)), (13, 44));
    for length in 45..48 {
        assert_eq!(read(&cut(length)), (14, 44), "{length} bytes");
    }
    assert_eq!(read(&cut_then(44, b"abc")), (14, 44));
    for length in 48..56 {
        assert_eq!(read(&cut(length)), (14, 44), "{length} bytes");
        let mut other = cut(length);
        other[44..48].copy_from_slice(b"IZYX");
        assert_eq!(read(&other), (13, 44), "{length} bytes");
    }
    for length in 56..68 {
        assert_eq!(read(&cut(length)), (14, 44), "{length} bytes");
    }
    assert_eq!(read(&file_of(&[size(SIDES), size(SIDES), xyzi(&VOXELS)].concat())), (13, 44));
    let between = [size(SIDES), chunk(b"RGBA", &[], &[]), xyzi(&VOXELS)].concat();
    assert_eq!(read(&file_of(&between)), (13, 44));
}

#[test]
fn xyzi_with_sizes_that_do_not_match() {
    for content in [0, 1, 3, 4, 8, 11, 13, 16, 268, 0xffff_fffc, 0xffff_ffff] {
        assert_eq!(read(&with(48, content)), (14, 44), "{content}");
    }
    for children in [1, 4, 0xffff_ffff] {
        assert_eq!(read(&with(52, children)), (14, 44), "{children}");
    }
    // In 32 bits 4 + 4 times 0x40000002 is 12, the content that stands there.
    for count in [0, 1, 3, 0x4000_0002, 0x8000_0002, 0xc000_0002, 0xffff_ffff] {
        assert_eq!(read(&with(56, count)), (14, 44), "{count}");
    }
    // In 32 bits 4 + 4 times this count is 0; and a content of which no file has so much.
    let mut file = with(48, 0);
    put_number(&mut file, 56, 0x3fff_ffff);
    assert_eq!(read(&file), (14, 44));
    let mut file = with(48, 0xffff_ffff);
    put_number(&mut file, 56, 0x3fff_ffff);
    assert_eq!(read(&file), (14, 44));
    // A match that overruns.
    let mut file = with(48, 16);
    put_number(&mut file, 56, 3);
    assert_eq!(read(&file), (14, 44));
    // Fewer than four bytes of content, with nothing or enough after them.
    for content in 0..4 {
        let short = chunk(b"XYZI", &vec![0; content], &[]);
        assert_eq!(read(&file_of(&[size(SIDES), short.clone()].concat())), (14, 44), "{content}");
        let more = [size(SIDES), short, chunk(b"RGBA", &[0; 40], &[])].concat();
        assert_eq!(read(&file_of(&more)), (14, 44), "{content}");
    }
    // Bytes after the last voxel that belong to the content.
    let mut content = 1u32.to_le_bytes().to_vec();
    content.extend([0, 0, 0, 1, 0]);
    assert_eq!(read(&file_of(&[size(SIDES), chunk(b"XYZI", &content, &[])].concat())), (14, 44));
    // Children that are there.
    let inner = chunk(b"XYZI", &[0; 4], &chunk(b"note", &[], &[]));
    assert_eq!(read(&file_of(&[size(SIDES), inner].concat())), (14, 44));
}

#[test]
fn too_many_voxels_or_too_few_places_come_before_any_voxel() {
    let bad = [255, 255, 255, 0];
    let most = model(SIDES, &[[6, 2, 4, 1]; 4096], &[]);
    assert_eq!(read(&most), (0, 0));
    assert_eq!(read_with(&most, 12_287), (3, 44));
    assert_eq!(read_with(&most, 0), (3, 44));
    let more = model(SIDES, &[bad; 4097], &[]);
    assert_eq!(read(&more), (2, 44));
    assert_eq!(read_with(&more, 20_000), (2, 44));
    assert_eq!(read_with(&more, 0), (2, 44));
    assert_eq!(read_with(&model(SIDES, &[bad; 3], &[]), 8), (3, 44));
    assert_eq!(read_with(&model(SIDES, &[bad; 3], &[]), 9), (15, 60));
    for (places, number) in [(0, 3), (2, 3), (3, 3), (5, 3), (6, 0), (7, 0)] {
        assert_eq!(read_with(&small(), places).0, number, "{places} places");
    }
    // 14 on XYZI comes before 2 and 3.
    let mut file = more.clone();
    put_number(&mut file, 52, 1);
    assert_eq!(read_with(&file, 0), (14, 44));
    assert_eq!(read_with(&main_put_right(more[..more.len() - 1].to_vec()), 0), (14, 44));
    // 15 on SIZE too.
    let mut file = more;
    put_number(&mut file, 40, 0);
    assert_eq!(read_with(&file, 0), (15, 20));
}

#[test]
fn a_voxel_outside_size_or_without_a_colour() {
    for (voxel, good) in [
        ([6, 2, 4, 1], true),
        ([7, 2, 4, 1], false),
        ([6, 3, 4, 1], false),
        ([6, 2, 5, 1], false),
        ([6, 6, 0, 1], false),
        ([0, 0, 6, 1], false),
        ([255, 0, 0, 1], false),
        ([0, 0, 0, 0], false),
        ([0, 0, 0, 255], true),
    ] {
        let expected = if good { 0 } else { 15 };
        for number in 0..4 {
            let mut voxels = [[0, 0, 0, 1]; 4];
            voxels[number] = voxel;
            let detail = if good { 0 } else { 60 + 4 * number as u64 };
            assert_eq!(read(&model(SIDES, &voxels, &[])), (expected, detail), "{voxel:?} as voxel {number}");
        }
    }
    // The first of two decides.
    assert_eq!(read(&model(SIDES, &[[0, 0, 0, 1], [0, 3, 0, 1], [0, 0, 0, 0]], &[])), (15, 64));
    // A side of 256 takes every byte.
    assert_eq!(read(&model([256, 1, 1], &[[255, 0, 0, 1]], &[])), (0, 0));
    assert_eq!(read(&model([256, 1, 1], &[[0, 255, 0, 1]], &[])), (15, 60));
    assert_eq!(read(&model([255, 1, 1], &[[255, 0, 0, 1]], &[])), (15, 60));
}

#[test]
fn a_later_chunk_that_is_cut_or_overruns() {
    let later = |bytes: &[u8]| read(&model(SIDES, &VOXELS, bytes));
    for length in 1..12 {
        assert_eq!(later(&chunk(b"RGBA", &[], &[])[..length]), (14, 68), "{length} bytes");
    }
    let palette = chunk(b"RGBA", &[5; 1024], &chunk(b"note", &[1, 2], &[]));
    assert_eq!(later(&palette), (0, 0));
    for length in 1..palette.len() {
        assert_eq!(later(&palette[..length]), (14, 68), "{length} bytes");
    }
    let second = [palette.clone(), palette.clone()].concat();
    assert_eq!(later(&second), (0, 0));
    assert_eq!(later(&second[..second.len() - 1]), (14, 68 + palette.len() as u64));
    assert_eq!(later(&[palette.clone(), vec![0]].concat()), (14, 68 + palette.len() as u64));
    for (content, children) in
        [(0xffff_ffff, 0xffff_ffff), (0xffff_ffff, 1), (0x8000_0000, 0x8000_0000), (0, 1), (1, 0)]
    {
        let mut head = chunk(b"nTRN", &[], &[]);
        put_number(&mut head, 4, content);
        put_number(&mut head, 8, children);
        assert_eq!(later(&head), (14, 68), "{content} and {children}");
    }
    // What stands inside a later chunk is not looked at, in its children neither.
    assert_eq!(later(&chunk(b"nGRP", b"VOX MAINSIZE", b"SIZE of no chunk")), (0, 0));
    // All voxels come first.
    let file = model(SIDES, &[[0, 0, 0, 1], [0, 0, 0, 0]], &[1, 2, 3]);
    assert_eq!(read(&file), (15, 64));
    assert_eq!(read_with(&model(SIDES, &VOXELS, &[1, 2, 3]), 5), (3, 44));
}

#[test]
fn a_second_size_or_xyzi_is_skipped_whole() {
    let broken = [size([0, 300, 9]), xyzi(&[[255, 255, 255, 0]])].concat();
    let again = [broken.clone(), chunk(b"SIZE", &[1], &broken), chunk(b"XYZI", &[], &[9; 5])].concat();
    let file = model(SIDES, &VOXELS, &again);
    let mut coords = [9; 7];
    assert_eq!(calls::read_vox(&file, &mut coords), [0, 0, 7, 1, 1, 2]);
    assert_eq!(coords, [6, 2, 4, 0, 1, 2, 9]);
}

#[test]
fn no_voxel_is_fine() {
    assert_eq!(read_with(&model(SIDES, &[], &[]), 0), (0, 0));
    assert_eq!(quote_vox(&model(SIDES, &[], &[])), "volume 0\narea 0\nedge 0\ninner 0\ncorners 0\n");
}

#[test]
fn the_cells_are_quoted() {
    let around: Vec<Voxel> = (0..27u8).filter(|n| *n != 13).map(|n| [n / 9, n / 3 % 3, n % 3, n + 1]).collect();
    assert_eq!(quote_vox(&model([3, 3, 3], &around, &[])), "volume 26\narea 60\nedge 36\ninner 12\ncorners 16\n");
    assert_eq!(quote_vox(&model([9, 3, 40], &around, &[])), "volume 26\narea 60\nedge 36\ninner 12\ncorners 16\n");
    assert_eq!(quote_vox(&[]), "refused 13 0\n");
    assert_eq!(quote_vox(&[7, 8, 0, 2, 0, 2, 0, 0, 7, 1, 0, 1, 0, 1, 0]), "refused 13 0\n");
    assert_eq!(quote(&small()), "refused 4 0\n");
}

#[test]
fn every_accepted_file_is_quoted_and_needs_its_count_and_two() {
    let mut random = Random::new(71);
    for _ in 0..300 {
        let file = vox_inputs::accepted(&mut random, 60);
        let list = oracle::vox::read(&file, 180).expect("the file is accepted");
        assert_eq!(list.check(), Ok(()));
        assert_eq!(oracle::grid::need(&list), list.coords.len() / 3 + 2);
        assert!(!quote_vox(&file).starts_with("refused"));
    }
}

#[test]
fn damaged_files_meet_every_refusal() {
    let mut random = Random::new(72);
    let mut met = [0; 16];
    for turn in 0..20_000 {
        let most = if turn % 40 == 0 { 4096 } else { 6 };
        let file = vox_inputs::any_file(&mut random, most);
        met[read_with(&file, random.clone().one_of(&[0, 9, 12_288, 12_288, 12_288])).0 as usize] += 1;
    }
    for number in [0, 3, 13, 14, 15] {
        assert!(met[number] > 300, "{met:?}");
    }
    let mut crowded = [0; 16];
    for _ in 0..100 {
        crowded[read(&vox_inputs::crowded(&mut random)).0 as usize] += 1;
    }
    assert!(crowded[0] > 20 && crowded[2] > 20 && crowded[15] > 5, "{crowded:?}");
}
