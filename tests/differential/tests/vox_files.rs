//! Whole and damaged VOX files: read against the oracle, and what is read is measured.

use differential::files::{FileCase, SHOTS, VOX};
use differential::hold;
use differential::lists::ListCase;
use oracle::inputs::{self, Length, Random, Size};
use oracle::vox_inputs::{accepted, any_file, crowded, main_put_right, model, put_number, voxels};

/// Holds a file as it is, and with MAIN's size of children put right.
fn hold_both(random: &mut Random, file: Vec<u8>) {
    hold(FileCase::any(random, &VOX, file.clone()));
    hold(FileCase::any(random, &VOX, main_put_right(file)));
}

#[test]
fn files_whole_and_damaged() {
    let mut random = Random::new(81);
    for turn in 0..40_000 {
        let file = any_file(&mut random, if turn % 50 == 0 { 500 } else { 12 });
        hold(FileCase::any(&mut random, &VOX, file));
    }
}

#[test]
fn files_about_the_largest_number_of_voxels() {
    let mut random = Random::new(82);
    for _ in 0..400 {
        let file = crowded(&mut random);
        let places = random.one_of(&[0, 12_284, 12_285, 12_287, 12_288, 12_289, 12_291, 12_294]);
        hold(FileCase { places, ..FileCase::any(&mut random, &VOX, file) });
    }
}

#[test]
fn every_cut_of_a_file() {
    let mut random = Random::new(83);
    for _ in 0..40 {
        let whole = accepted(&mut random, 12);
        for length in 0..=whole.len().min(400) {
            hold_both(&mut random, whole[..length].to_vec());
        }
    }
}

/// A file of 106 bytes with two voxels, and a chunk with a child.
fn small() -> Vec<u8> {
    let child = oracle::vox_inputs::chunk(b"note", &[1, 2], &[]);
    let further = oracle::vox_inputs::chunk(b"nTRN", &[0; 12], &child);
    model([7, 3, 5], &[[6, 2, 4, 1], [0, 1, 2, 255]], &further)
}

#[test]
fn every_byte_of_a_file() {
    let mut random = Random::new(84);
    let whole = small();
    assert_eq!(whole.len(), 106);
    for place in 0..whole.len() {
        for byte in 0..=255 {
            let mut file = whole.clone();
            file[place] = byte;
            hold(FileCase::any(&mut random, &VOX, file));
        }
        for more in 0..20 {
            let mut file = whole.clone();
            file.splice(place..place, vec![0; more]);
            hold_both(&mut random, file);
        }
    }
}

#[test]
fn sizes_that_wrap_in_32_bits() {
    let mut random = Random::new(85);
    let values =
        [0, 1, 4, 12, 14, 0x3fff_ffff, 0x4000_0000, 0x4000_0002, 0x8000_0000, 0xffff_fff4, 0xffff_fffc, 0xffff_ffff];
    // MAIN, SIZE, XYZI, the later chunk: both sizes; and XYZI's count beside its content.
    for (one, other) in [(12, 16), (24, 28), (48, 52), (72, 76), (48, 56)] {
        for first in values {
            for second in values {
                let mut file = small();
                put_number(&mut file, one, first);
                put_number(&mut file, other, second);
                hold_both(&mut random, file);
            }
        }
    }
}

#[test]
fn slices_of_every_small_length() {
    let mut random = Random::new(86);
    for count in 0..7 {
        for places in 0..22 {
            for answer in 0..9 {
                let voxels = voxels(&mut random, [9, 4, 6], count);
                let mut file = model([9, 4, 6], &voxels, &[]);
                if random.once_in(4) && count > 0 {
                    file[63] = 0;
                }
                let case = FileCase::any(&mut random, &VOX, file);
                hold(FileCase { places, answer: Length::Fixed(answer), ..case });
            }
        }
    }
}

#[test]
fn each_reader_on_the_other_s_files() {
    let mut random = Random::new(87);
    for _ in 0..4_000 {
        let file = inputs::file(&mut random, Size { field: 300, shots: 12 });
        hold_both(&mut random, file);
        let file = any_file(&mut random, 12);
        hold(FileCase::any(&mut random, &SHOTS, file));
    }
}

#[test]
fn what_is_read_is_measured() {
    let mut random = Random::new(88);
    for turn in 0..300 {
        let file = accepted(&mut random, if turn % 60 == 0 { 4096 } else { 200 });
        let (header, coords) = heqdanu::from_vox(&file).expect("the file is read");
        let list = oracle::vox::read(&file, 12_288).expect("the oracle reads it");
        assert_eq!((header.field, header.edge, header.grid, &coords), (list.field, 1, 1, &list.coords));
        let lent = heqdanu::List { field: header.field, edge: 1, grid: 1, coords: &coords };
        assert_eq!(heqdanu::work_needed(&lent), Ok(header.shots + 2));
        hold(ListCase::any(&mut random, list));
    }
}
