//! Only the shortest file is read: a field that says what its absence would mean is refused by 17, at the map of its
//! record, by every program and command that reads shot files. And so every accepted file is written back to its own
//! bytes.

use oracle::inputs::{self, Random, Size};
use oracle::shotfile::{shortest, ABSENT};
use programs::records::{left_out, longest, with_needless};
use programs::run::on;
use programs::text::{sentence, NOT_SHORTEST};
use programs::tree::Tree;

/// F = 8, E = 2, G = 2; the first shot's map is at 7.
const HEADER: [u8; 7] = [7, 8, 0, 2, 0, 2, 0];
const SETTINGS: &str = "field 8\nedge 2\ngrid 2\n";
const CUBE: [u8; 8] = [7, 8, 0, 2, 0, 2, 0, 0];

/// Headers that say 1,024, 16 or 16: alone, together, beside fields that are needed, and before shots.
const HEADERS: [&[u8]; 12] = [
    &[1, 0, 4],
    &[2, 16, 0],
    &[4, 16, 0],
    &[3, 0, 4, 16, 0],
    &[5, 0, 4, 16, 0],
    &[6, 16, 0, 16, 0],
    &[7, 0, 4, 16, 0, 16, 0],
    &[7, 0, 4, 2, 0, 2, 0],
    &[7, 64, 0, 16, 0, 2, 0],
    &[7, 64, 0, 2, 0, 16, 0],
    &[4, 16, 0, 0],
    &[6, 2, 0, 16, 0, 7, 1, 0, 2, 0, 3, 0, 0],
];

/// Records behind `HEADER` of which the last has a needless field: the records before it, that record, and what `shots`
/// prints of those before.
const SHOTS: [(&[u8], &[u8], &str); 19] = [
    // The first shot says 0.
    (&[], &[1, 0, 0], ""),
    (&[], &[2, 0, 0], ""),
    (&[], &[4, 0, 0], ""),
    (&[], &[7, 0, 0, 0, 0, 0, 0], ""),
    (&[], &[7, 1, 0, 0, 0, 3, 0], ""),
    // The shot before says the same.
    (&[7, 1, 0, 2, 0, 3, 0], &[1, 1, 0], "shot 1 2 3 # number 0, byte 7\n"),
    (&[7, 1, 0, 2, 0, 3, 0], &[2, 2, 0], "shot 1 2 3 # number 0, byte 7\n"),
    (&[7, 1, 0, 2, 0, 3, 0], &[4, 3, 0], "shot 1 2 3 # number 0, byte 7\n"),
    (&[7, 1, 0, 2, 0, 3, 0], &[7, 1, 0, 2, 0, 3, 0], "shot 1 2 3 # number 0, byte 7\n"),
    (&[7, 1, 0, 2, 0, 3, 0], &[7, 2, 0, 3, 0, 3, 0], "shot 1 2 3 # number 0, byte 7\n"),
    (&[0, 1, 4, 0], &[1, 4, 0], "shot 0 0 0 # number 0, byte 7\nshot 4 0 0 # number 1, byte 8\n"),
    // The shot before leaves it out, and means the same.
    (&[1, 4, 0], &[2, 0, 0], "shot 4 0 0 # number 0, byte 7\n"),
    (&[1, 4, 0], &[5, 5, 0, 0, 0], "shot 4 0 0 # number 0, byte 7\n"),
    (&[2, 4, 0], &[1, 0, 0], "shot 0 4 0 # number 0, byte 7\n"),
    (&[4, 4, 0, 0], &[4, 4, 0], "shot 0 0 4 # number 0, byte 7\nshot 0 0 4 # number 1, byte 10\n"),
    (&[7, 1, 0, 2, 0, 3, 0, 0], &[1, 1, 0], "shot 1 2 3 # number 0, byte 7\nshot 1 2 3 # number 1, byte 14\n"),
    (&[7, 1, 0, 2, 0, 3, 0, 0], &[2, 2, 0], "shot 1 2 3 # number 0, byte 7\nshot 1 2 3 # number 1, byte 14\n"),
    (&[7, 1, 0, 2, 0, 3, 0, 1, 6, 0], &[4, 3, 0], "shot 1 2 3 # number 0, byte 7\nshot 6 2 3 # number 1, byte 14\n"),
    (&[0, 0, 0, 1, 6, 0], &[6, 0, 0, 5, 0], {
        "shot 0 0 0 # number 0, byte 7\nshot 0 0 0 # number 1, byte 8\nshot 0 0 0 # number 2, byte 9\n\
         shot 6 0 0 # number 3, byte 10\n"
    }),
];

/// The files of both tables: the bytes, the offset of the map, and what `shots` prints before its last line.
fn needless() -> Vec<(Vec<u8>, usize, String)> {
    let headers = HEADERS.iter().map(|header| (header.to_vec(), 0, String::new()));
    let shots = SHOTS.iter().map(|(before, record, printed)| {
        let file = [&HEADER[..], before, record].concat();
        (file, HEADER.len() + before.len(), format!("{SETTINGS}{printed}"))
    });
    headers.chain(shots).collect()
}

/// The last line that `shots` prints.
fn verdict(number: u64, at: usize) -> String {
    format!("refused {number} at byte {at}: {}\n", sentence(number))
}

/// Whether a text of `shots` ends with a refusal.
fn is_refused(text: &[u8]) -> bool {
    String::from_utf8_lossy(text).lines().next_back().is_some_and(|line| line.starts_with("refused "))
}

/// That an accepted file is written back to its own bytes from what is printed of it.
fn rewritten(file: &[u8]) {
    let text = on("shots", file).good();
    assert!(!is_refused(&text), "{file:02x?}: {}", String::from_utf8_lossy(&text));
    assert_eq!(on("write_shots", &text).good(), file);
}

/// That the programs refuse a file by a number at an offset.
fn refused(file: &[u8], number: u64, at: usize) {
    for name in ["quote", "recount", "credits"] {
        assert_eq!(on(name, file).good(), format!("refused {number} {at}\n").into_bytes(), "{name} on {file:02x?}");
    }
    let told = on("listing", file);
    let complaint = format!("listing: refused {number} {at}: {}\n", sentence(number));
    assert_eq!((&told.output[..], told.complaint), (&[][..], complaint), "listing on {file:02x?}");
    let text = on("shots", file);
    assert!(text.text().ends_with(&verdict(number, at)), "{} for {file:02x?}", text.text());
    assert_eq!(text.text().matches("refused").count(), 1, "{file:02x?}");
    // No file is made of such a text.
    let told = on("write_shots", &text.good());
    assert_eq!((&told.output[..], told.complaint.lines().count()), (&[][..], 1), "{file:02x?}");
}

#[test]
fn every_program() {
    for (file, at, printed) in needless() {
        refused(&file, 17, at);
        assert_eq!(on("shots", &file).text(), printed.clone() + &verdict(17, at));
        // The text ends there, whatever stands behind the record.
        for more in [&[0][..], &[7, 5, 0, 5, 0, 5, 0], &[1], &[8]] {
            let file = [&file[..], more].concat();
            assert_eq!(on("quote", &file).text(), format!("refused 17 {at}\n"), "{file:02x?}");
            assert_eq!(on("shots", &file).text(), printed.clone() + &verdict(17, at));
        }
    }
}

#[test]
fn every_command() {
    let tree = Tree::built();
    tree.file("cube", &CUBE);
    let files = needless();
    // A header, a first shot, and a shot whose field the one before says, and leaves out.
    for (file, at, printed) in [2, 9, 12, 18, 23, 30].map(|number| &files[number]) {
        tree.file("a part", file);
        let hint = |command: &str| format!("{command}: a part: {NOT_SHORTEST}\n");
        for command in ["quote", "recount", "credits"] {
            let complaint = format!("{command}: a part: at byte {at}: {}\n{}", sentence(17), hint(command));
            tree.run(command, &["a part"]).is(&format!("refused 17 {at}\n"), &complaint, 1);
            if command != "credits" {
                tree.run(command, &["-t", "a part"]).is(&format!("a part\trefused\t17\t{at}\n"), &complaint, 1);
            }
        }
        tree.run("shots", &["a part"]).is(&format!("{printed}{}", verdict(17, *at)), &hint("shots"), 1);
        let said = |command: &str| format!("{command}: a part: refused 17 {at}: {}\n{}", sentence(17), hint(command));
        for (command, words, status) in [
            ("listing", &["a part"][..], 1),
            ("listing", &["--text", "a part"], 1),
            ("drop", &["a part"], 1),
            ("same", &["a part", "cube"], 2),
            ("same", &["cube", "a part"], 2),
        ] {
            tree.run(command, words).is("", &said(command), status);
        }
        // From a pipe too.
        let complaint = said("same").replace("a part", "standard input");
        tree.shell("heqdanu same cube -", file).is("", &complaint, 2);
        // Of several files the others are answered.
        let ended = tree.run("quote", &["-t", "a part", "cube"]);
        assert_eq!((ended.text(), ended.status), (format!("a part\trefused\t17\t{at}\ncube\t8\t24\t24\t0\t8\n"), 1));
    }
}

/// Of the faults of one record 2 is given before 4, 4 before 5 and 5 before 17; of two records the first decides, and a
/// file before its list.
#[test]
fn which_fault_is_given() {
    let shots = |records: &[u8]| [&HEADER[..], records].concat();
    for (file, number, at) in [
        // Cut, in a field or before it, behind one that is needless, or within one that would be.
        (vec![3, 0, 4], 5, 0),
        (vec![3, 0, 4, 2], 5, 0),
        (vec![7, 0, 4, 16, 0, 16], 5, 0),
        (vec![4, 16], 5, 0),
        (shots(&[1, 0]), 5, 7),
        (shots(&[3, 0, 0]), 5, 7),
        (shots(&[7, 1, 0, 2, 0, 3, 0, 7, 1, 0, 2, 0, 3]), 5, 14),
        (shots(&[7, 1, 0, 2, 0, 3, 0, 5, 1, 0]), 5, 14),
        // A bit without a meaning beside a needless field, whole and cut.
        (vec![9, 0, 4], 4, 0),
        (vec![132, 16, 0], 4, 0),
        (shots(&[9, 0, 0]), 4, 7),
        (shots(&[15, 0, 0]), 4, 7),
        (shots(&[7, 1, 0, 2, 0, 3, 0, 66, 2, 0]), 4, 14),
        // A needless field before a record that is cut, has such a bit, or a needless field too.
        (vec![4, 16, 0, 1], 17, 0),
        (vec![4, 16, 0, 8], 17, 0),
        (vec![1, 0, 4, 1, 0, 0], 17, 0),
        (shots(&[1, 0, 0, 1]), 17, 7),
        (shots(&[1, 0, 0, 2, 5]), 17, 7),
        (shots(&[4, 0, 0, 255]), 17, 7),
        (shots(&[2, 0, 0, 1, 0, 0]), 17, 7),
        (shots(&[7, 1, 0, 2, 0, 3, 0, 2, 2, 0, 7]), 17, 14),
        // The same behind such a record.
        (shots(&[8, 1, 0, 0]), 4, 7),
        (vec![16, 1, 0, 0], 4, 0),
        // A list that is refused by 6, 7, 8, 9 or 10.
        (vec![3, 0, 0, 16, 0], 17, 0),
        (vec![3, 8, 0, 16, 0], 17, 0),
        (vec![7, 8, 0, 2, 0, 16, 0], 17, 0),
        (shots(&[7, 7, 0, 0, 0, 6, 0]), 17, 7),
        (vec![6, 16, 0, 64, 0], 17, 0),
    ] {
        refused(&file, number, at);
    }
}

/// The 4,096th shot may be refused by 17, and the map of one more is refused by 2.
#[test]
fn about_the_most_shots() {
    let file = |before: usize, record: &[u8], behind: usize| [&vec![0; before][..], record, &vec![0; behind]].concat();
    rewritten(&file(4097, &[], 0));
    refused(&file(4096, &[1, 0, 0], 0), 17, 4096);
    refused(&file(4096, &[4, 0, 0], 1), 17, 4096);
    refused(&file(4097, &[1, 0, 0], 0), 2, 4097);
    refused(&file(4097, &[2, 0, 0], 9000), 2, 4097);
    refused(&file(1, &[2, 0, 0], 4096), 17, 1);
    // As long as a file can be, and with the byte that shows a shot too many.
    let most = longest(&mut Random::new(98));
    assert_eq!(most.len(), 28_679);
    rewritten(&most);
    refused(&[&most[..], &[7]].concat(), 2, 28_679);
    // The last shot's x is that of the one before.
    let mut repeated = most.clone();
    repeated.copy_within(28_679 - 13..28_679 - 11, 28_679 - 6);
    refused(&repeated, 17, 28_672);
    refused(&[&repeated[..], &[0; 50_000]].concat(), 17, 28_672);
}

/// A record, and the values that it means. A field of kind 0 is left out, one of kind 1 says another value than its
/// absence means, and one of kind 2 says that value.
fn record(kinds: usize, absent: [u16; 3], other: [u16; 3]) -> (Vec<u8>, [u16; 3]) {
    let (mut bytes, mut values) = (vec![0], absent);
    for (bit, kind) in [kinds / 9, kinds / 3 % 3, kinds % 3].into_iter().enumerate() {
        if kind == 1 {
            assert_ne!(other[bit], absent[bit]);
            values[bit] = other[bit];
        }
        if kind != 0 {
            bytes[0] |= 1 << bit;
            bytes.extend(values[bit].to_le_bytes());
        }
    }
    (bytes, values)
}

/// Whether a record of these kinds has a needless field.
fn has_needless(kinds: usize) -> bool {
    [kinds / 9, kinds / 3 % 3, kinds % 3].contains(&2)
}

/// That a file is refused by 17 at an offset, or is accepted and written back.
fn holds(file: &[u8], at: Option<usize>) {
    let quote = on("quote", file).text();
    match at {
        Some(at) => assert_eq!(quote, format!("refused 17 {at}\n"), "{file:02x?}"),
        None => {
            assert!(quote.starts_with("volume "), "{quote} for {file:02x?}");
            rewritten(file);
        }
    }
}

/// Every way in which the fields of a header, and of two shots, are left out, needed or needless.
#[test]
fn every_way_to_have_fields() {
    let mut accepted = 0;
    for kinds in 0..27 {
        let (header, _) = record(kinds, ABSENT, [64, 2, 4]);
        holds(&[&header[..], &[0]].concat(), has_needless(kinds).then_some(0));
        accepted += usize::from(!has_needless(kinds));
    }
    assert_eq!(accepted, 8);
    for first in 0..27 {
        let (before, shot) = record(first, [0; 3], [3, 4, 5]);
        for second in 0..27 {
            // Where the shot before does not mean 0, a 0 is a value like another.
            let (behind, _) = record(second, shot, shot.map(|value| if value == 0 { 6 } else { 0 }));
            let place = match [has_needless(first), has_needless(second)] {
                [true, _] => Some(7),
                [_, true] => Some(7 + before.len()),
                _ => None,
            };
            holds(&[&HEADER[..], &before, &behind].concat(), place);
            accepted += usize::from(place.is_none());
        }
    }
    assert_eq!(accepted, 8 + 64);
}

/// Both bytes of a field are compared.
#[test]
fn numbers_that_share_a_byte() {
    for header in [[1, 0, 3], [1, 1, 4], [2, 16, 1], [4, 16, 1], [2, 15, 0], [4, 17, 0]] {
        assert!(on("shots", &header).text().starts_with("field "), "{header:?}");
    }
    for (record, at) in [([0, 1], None), ([1, 0], None), ([1, 1], None), ([44, 1], Some(8)), ([44, 2], None)] {
        for bit in 0..3 {
            // The shot before is (300, 300, 300), or (0, 0, 0) where none is.
            let repeated = [&[0, 7, 44, 1, 44, 1, 44, 1][..], &[1 << bit], &record].concat();
            holds(&repeated, at);
            holds(&[&[0][..], &[1 << bit], &record].concat(), None);
        }
    }
}

/// A field more, anywhere in a file that is in its shortest form; and the file itself.
#[test]
fn one_field_more() {
    let mut random = Random::new(99);
    let mut places = [0; 3];
    for number in 0..150 {
        let size = if number % 15 == 0 { Size { field: 1024, shots: 1500 } } else { Size { field: 48, shots: 12 } };
        let mut list = inputs::accepted(&mut random, size);
        inputs::coarsen(&mut list, 10_000);
        let file = shortest(&list);
        rewritten(&file);
        let text = on("shots", &file).text();
        let fields = left_out(&file);
        for _ in 0..fields.len().min(3) {
            let (map, bit) = random.one_of(&fields);
            let longer = with_needless(&file, (map, bit));
            assert_eq!(longer.len(), file.len() + 2);
            assert_eq!(on("quote", &longer).text(), format!("refused 17 {map}\n"), "{longer:02x?}");
            // What is printed of the shots before is what is printed of them in the shortest file.
            let before = match text.find(&format!(", byte {map}\n")) {
                Some(place) => text[..place].rfind('\n').map_or("", |end| &text[..=end]),
                None => "",
            };
            assert_eq!(on("shots", &longer).text(), format!("{before}{}", verdict(17, map)), "{longer:02x?}");
            places[bit] += 1;
        }
    }
    assert!(places.into_iter().all(|count| count > 30), "{places:?} fields more");
}

/// Whatever a file is: it is refused, and no file is made of its text, or it is written back to its own bytes.
#[test]
fn written_back_or_refused() {
    let mut random = Random::new(100);
    let mut same = 0;
    for number in 0..500 {
        let size = if number % 25 == 0 { Size { field: 1024, shots: 300 } } else { Size { field: 32, shots: 15 } };
        let file = match number % 5 {
            0 => (0..random.within(1, 20)).map(|_| random.within(0, 7) as u8).collect(),
            _ => inputs::file(&mut random, size),
        };
        let text = on("shots", &file).good();
        let told = on("write_shots", &text);
        if is_refused(&text) {
            assert_eq!((&told.output[..], told.complaint.lines().count()), (&[][..], 1), "{file:02x?}");
        } else {
            assert_eq!(told.good(), file);
            same += 1;
        }
    }
    assert!((60..440).contains(&same), "{same} of the files are written back");
}
