//! Whole and damaged shot files, and those with needless fields, which say what their absence would mean: read against
//! the oracle; what is written reads back, and what is read is written back to the same bytes. Tests on generated files
//! see which answers these meet.

use differential::files::{hold_counted, FileCase, SHOTS};
use differential::hold;
use heqdanu::{from_file, read, to_file};
use oracle::inputs::{accepted, crowded_file, file, longer_file, Length, Random, Size};
use oracle::list::List;
use oracle::literal::maps;
use oracle::met::Met;
use oracle::shotfile::{shortest, ABSENT};
use std::collections::HashMap;

#[test]
fn files_whole_and_damaged() {
    let mut random = Random::new(21);
    let mut met = Met::default();
    for turn in 0..40_000 {
        let shots = if turn % 50 == 0 { 500 } else { 12 };
        let file = file(&mut random, Size { field: 1024, shots });
        hold_counted(&mut met, FileCase::any(&mut random, &SHOTS, file));
    }
    met.each(&[0, 3, 4, 5, 17], 500);
    met.each(&[2], 20);
}

#[test]
fn files_about_the_largest_number_of_shots() {
    let mut random = Random::new(22);
    let mut met = Met::default();
    for _ in 0..400 {
        let file = crowded_file(&mut random);
        hold_counted(&mut met, FileCase::any(&mut random, &SHOTS, file));
    }
    met.each(&[0, 2, 3, 4, 5, 17], 5);
}

/// Cuts of shortest files, which are accepted where a record ends, and of longer ones.
#[test]
fn every_cut_of_a_file() {
    let mut random = Random::new(23);
    let mut met = Met::default();
    for _ in 0..40 {
        let list = accepted(&mut random, Size { field: 300, shots: 12 });
        for whole in [shortest(&list), longer_file(&mut random, &list)] {
            for length in 0..=whole.len() {
                hold_counted(&mut met, FileCase::any(&mut random, &SHOTS, whole[..length].to_vec()));
            }
        }
    }
    met.each(&[0, 5, 17], 300);
    met.each(&[3], 20);
}

/// Beginnings of a file, and what the absence of each field means in the record that follows: in the header, in the
/// first shot, behind a shot that says nothing, behind one that says all, behind one that leaves out what the shot
/// before it says, and behind two of which each says a part.
const BEGINNINGS: [(&[u8], [u16; 3]); 6] = [
    (&[], ABSENT),
    (&[0], [0, 0, 0]),
    (&[0, 0], [0, 0, 0]),
    (&[0, 7, 5, 1, 3, 0, 7, 2], [0x105, 3, 0x207]),
    (&[0, 7, 5, 1, 3, 0, 7, 2, 0], [0x105, 3, 0x207]),
    (&[0, 4, 7, 2, 3, 5, 1, 3, 0], [0x105, 3, 0x207]),
];

/// Every map, any of whose fields may say what their absence means, and up to eight bytes after it: the record is
/// whole, or cut, or the next one begins behind it.
#[test]
fn every_map_byte() {
    let mut random = Random::new(24);
    let mut met = Met::default();
    for (beginning, absent) in BEGINNINGS {
        for (map, needless) in (0..=255u8).flat_map(|map| (0..8u8).map(move |needless| (map, needless))) {
            let mut bytes = Vec::new();
            for bit in (0..3).filter(|bit| map >> bit & 1 == 1) {
                let value = if needless >> bit & 1 == 1 { absent[bit] } else { random.number() as u16 };
                bytes.extend(value.to_le_bytes());
            }
            bytes.extend((0..8).map(|_| random.number() as u8 & random.one_of(&[7, 255])));
            for length in 0..=8 {
                let file = [beginning, &[map], &bytes[..length]].concat();
                hold_counted(&mut met, FileCase::any(&mut random, &SHOTS, file));
            }
        }
    }
    met.each(&[0, 3, 4, 5, 17], 100);
}

/// The number and the detail with which the library reads a file, 0 and 0 where it accepts.
fn answer(file: &[u8], places: usize) -> (u64, u64) {
    hold(FileCase { reader: &SHOTS, file: file.to_vec(), places, answer: Length::About(2), seed: places as u64 });
    read(file, &mut vec![0; places]).map_or_else(|refusal| (refusal.reason.number(), refusal.detail), |_| (0, 0))
}

/// A record of these fields, by their bits.
fn record(fields: &[(u8, u16)]) -> Vec<u8> {
    let map = fields.iter().map(|(bit, _)| 1u8 << bit).sum();
    [vec![map], fields.iter().flat_map(|(_, value)| value.to_le_bytes()).collect()].concat()
}

/// Each field that says what its absence means is refused, alone or beside others. One that differs in a bit is read,
/// and so is a 0, or what the absence of another field means, where that is something else.
#[test]
fn each_needless_field() {
    for (beginning, absent) in BEGINNINGS {
        let at = (17, beginning.len() as u64);
        let numbers = |record: Vec<u8>| answer(&[beginning, &record].concat(), 12);
        for bit in 0..3u8 {
            let needless = absent[bit as usize];
            assert_eq!(numbers(record(&[(bit, needless)])), at, "bit {bit} behind {beginning:?}");
            let beside = |other: u8| (other, absent[other as usize] ^ u16::from(other != bit));
            assert_eq!(numbers(record(&[0, 1, 2].map(beside))), at, "bit {bit} of three behind {beginning:?}");
            let near = (0..16).map(|place| needless ^ 1 << place).chain(absent).chain([0]);
            for value in near.filter(|value| *value != needless) {
                assert_eq!(numbers(record(&[(bit, value)])), (0, 0), "{value} of bit {bit} behind {beginning:?}");
            }
        }
        assert_eq!(numbers(record(&[0, 1, 2].map(|bit| (bit, absent[bit as usize])))), at, "all behind {beginning:?}");
        assert_eq!(numbers(record(&[])), (0, 0), "none behind {beginning:?}");
    }
}

/// On one record 17 comes after 3, 4 and 5, and before any fault of the next.
#[test]
fn needless_fields_among_other_faults() {
    for (beginning, absent) in BEGINNINGS {
        let at = beginning.len() as u64;
        let needless = record(&[0, 1, 2].map(|bit| (bit, absent[bit as usize])));
        let file = |record: &[u8]| [beginning, record].concat();
        for length in 1..needless.len() {
            assert_eq!(answer(&file(&needless[..length]), 12), (5, at), "cut behind {beginning:?}");
        }
        for bit in 3..8 {
            let unknown = [&[needless[0] | 1 << bit], &needless[1..]].concat();
            assert_eq!(answer(&file(&unknown), 12), (4, at), "bit {bit} behind {beginning:?}");
        }
        for next in [&[0][..], &[8], &[255, 0], &[1], &[7, 1, 0, 2], &[1, 9, 0]] {
            let more = file(&[&needless, next].concat());
            assert_eq!(answer(&more, 12), (17, at), "then {next:?} behind {beginning:?}");
        }
        // The header takes no place; a shot takes three, and the next has none.
        let places = 3 * if beginning.is_empty() { 0 } else { maps(beginning).len() };
        assert_eq!(answer(&file(&[&needless[..], &[0]].concat()), places), (17, at), "behind {beginning:?}");
        if places > 0 {
            assert_eq!(answer(&file(&needless), places - 1), (3, at), "no place behind {beginning:?}");
        }
    }
}

/// The last shot that is allowed is refused by 17, and the first that is not by 2.
#[test]
fn needless_fields_of_the_last_shots() {
    let says_none = &[0][..];
    for (first, last) in [
        (says_none, &[1, 0, 0][..]),
        (says_none, &[2, 0, 0]),
        (says_none, &[7, 9, 0, 0, 0, 9, 0]),
        (&[4, 7, 0], &[4, 7, 0]),
    ] {
        for (shots, number) in [(4095, 17), (4096, 2)] {
            let before = [&[0], first, &vec![0; shots - 1]].concat();
            let at = before.len() as u64;
            for behind in [&[][..], &[0], &[255]] {
                let file = [&before, last, behind].concat();
                for places in [12_288, 20_000] {
                    assert_eq!(answer(&file, places), (number, at), "{last:?} behind {shots} shots");
                }
                assert_eq!(answer(&file, 12_287).0, 3, "{last:?} behind {shots} shots");
            }
        }
    }
}

/// All files of up to seven bytes out of six, which are maps, and the bytes of what the absence of a field means. No
/// two that are read hold the same settings and shots.
#[test]
fn all_small_files() {
    let mut random = Random::new(28);
    let mut met = Met::default();
    let mut held = HashMap::new();
    let bytes = [0, 1, 2, 3, 4, 16];
    for length in 0..=7 {
        for number in 0..bytes.len().pow(length) {
            let file: Vec<u8> = (0..length).map(|place| bytes[number / bytes.len().pow(place) % bytes.len()]).collect();
            let places = random.one_of(&[2, 5, 18, 20]);
            let (answer, seed) = (Length::About(0), random.number());
            hold_counted(&mut met, FileCase { reader: &SHOTS, file: file.clone(), places, answer, seed });
            let mut coords = [0; 18];
            if let Ok(header) = read(&file, &mut coords) {
                let list = (header.field, header.edge, header.grid, coords[..3 * header.shots].to_vec());
                if let Some(other) = held.insert(list, file.clone()) {
                    panic!("{file:02x?} holds the list of {other:02x?}");
                }
            }
        }
    }
    met.each(&[0, 3, 4, 5, 17], 1_000);
}

/// Five places are one too few for reading; a longer answer keeps what is behind six, whether or not the file is refused.
#[test]
fn answers_of_all_lengths() {
    let mut random = Random::new(26);
    let mut met = Met::default();
    for answer in (0..=9).map(Length::Fixed) {
        for _ in 0..200 {
            let file = file(&mut random, Size { field: 40, shots: 5 });
            hold_counted(&mut met, FileCase { answer, ..FileCase::any(&mut random, &SHOTS, file) });
        }
    }
    met.each(&[0, 3, 4, 5, 17], 5);
}

#[test]
fn what_is_written_reads_back() {
    let mut random = Random::new(25);
    for _ in 0..5_000 {
        let list = accepted(&mut random, Size { field: 1024, shots: 40 });
        let lent = heqdanu::List { field: list.field, edge: list.edge, grid: list.grid, coords: &list.coords };
        let file = to_file(&lent).expect("an accepted list is written");
        let (header, coords) = from_file(&file).expect("a written file is read");
        assert_eq!((header.field, header.edge, header.grid), (list.field, list.edge, list.grid));
        assert_eq!((header.shots, coords), (list.coords.len() / 3, list.coords));
    }
}

/// Whatever the file is: where it is read it is the shortest of its list, so no other holds the same list, and where
/// that is written, the bytes are the file's own.
#[test]
fn what_is_read_is_written_back() {
    let mut random = Random::new(27);
    let (mut not_read, mut not_written, mut written) = (0, 0, 0);
    for turn in 0..20_000 {
        let size = Size { field: 1024, shots: 12 };
        let file = if turn % 50 == 0 { crowded_file(&mut random) } else { file(&mut random, size) };
        let Ok((header, coords)) = from_file(&file) else {
            not_read += 1;
            continue;
        };
        let lent = heqdanu::List { field: header.field, edge: header.edge, grid: header.grid, coords: &coords };
        let list = List { field: header.field, edge: header.edge, grid: header.grid, coords: coords.clone() };
        assert_eq!(shortest(&list), file);
        match to_file(&lent) {
            Err(_) => not_written += 1,
            Ok(again) => {
                assert_eq!(again, file);
                written += 1;
            }
        }
    }
    let counts = format!("{not_read} files are not read, {not_written} are and not written, {written} are both");
    assert!(not_read > 2_000 && not_written > 1_000 && written > 5_000, "{counts}");
}
